//! Sections that are valid by construction.
//!
//! First the shape of each group (forms, supertypes, clauses) is laid down, then
//! fields, parameters and results are filled in, so that a group's types may
//! name each other forward.

use super::encode::Group;
use super::random::Random;
use super::value_types::{narrower, random_value_type, wider};
use crate::refusal::Input;
use crate::syntax::{Definition, Field, Form, Type, ValueType};

/// A struct, its descriptor, the descriptor's descriptor and so on.
#[derive(Clone)]
struct Family {
    members: Vec<u32>,
    open: bool,
}

pub struct Draft {
    pub groups: Vec<Group>,
    /// The function type that a body is made for.
    pub function: u32,
}

impl Draft {
    /// The types as the order wants them; section, places and reach are of no use here.
    pub fn types(&self) -> Vec<Type> {
        let definitions = self.groups.iter().flat_map(|group| group.definitions.iter());
        definitions.map(|definition| as_type(definition.clone())).collect()
    }
}

fn as_type(definition: Definition) -> Type {
    Type { definition, input: Input::Addon, start: 0, end: 0, reach: 0 }
}

struct Maker<'a> {
    random: &'a mut Random,
    types: Vec<Type>,
    families: Vec<Family>,
    functions: Vec<u32>,
    most_fields: usize,
}

/// A section with at least one function type, the last type of all.
pub fn make_section(random: &mut Random, small: bool) -> Draft {
    let groups = random.between(1, if small { 4 } else { 6 });
    let most_fields = if small { 3 } else { 6 };
    let mut maker = Maker {
        random,
        types: Vec::new(),
        families: Vec::new(),
        functions: Vec::new(),
        most_fields,
    };
    let related = maker.random.one_in(3);
    let mut made: Vec<Group> =
        if related { maker.related_groups() } else { (0..groups).map(|_| maker.group()).collect() };
    made.push(maker.entry_group());
    let function = maker.types.len() as u32 - 1;
    Draft { groups: made, function }
}

impl Maker<'_> {
    fn group(&mut self) -> Group {
        let first = self.types.len();
        let families = self.random.pick(&[0, 1, 1, 1, 2, 2]);
        (0..families).for_each(|_| self.family_or_function());
        self.fill(first);
        self.taken_from(first)
    }

    /// A family and one below it, in one group or in two.
    fn related_groups(&mut self) -> Vec<Group> {
        self.most_fields = self.random.between(0, 2);
        let length = self.random.pick(&[1, 2, 2, 2, 3]);
        self.lay_family(length, None);
        self.families[0].open = true;
        self.types.iter_mut().for_each(|laid| laid.definition.open = true);
        let above = self.families[0].clone();
        let one_group = self.random.one_in(2);
        let second = if one_group { 0 } else { self.types.len() };
        let mut made = Vec::new();
        if !one_group {
            self.fill(0);
            made.push(self.taken_from(0));
        }
        let more = self.random.below(2);
        self.lay_family((length + more).min(3), Some(above));
        self.fill(second);
        made.push(self.taken_from(second));
        made
    }

    /// One function type that bodies are made for.
    fn entry_group(&mut self) -> Group {
        let first = self.types.len();
        self.lay_function(false);
        let parameters = self.random.pick(&[0, 0, 0, 1, 2]);
        let results = self.random.pick(&[0, 1, 1, 1, 2]);
        let parameters = (0..parameters).map(|_| self.parameter()).collect();
        let results = (0..results).map(|_| self.value_type()).collect();
        self.types[first].definition.form = Form::Function { parameters, results };
        self.taken_from(first)
    }

    fn taken_from(&mut self, first: usize) -> Group {
        let definitions: Vec<Definition> =
            self.types[first..].iter().map(|made| made.definition.clone()).collect();
        let alone = definitions.len() == 1 && !self.random.one_in(4);
        Group { alone, definitions }
    }

    /// Mostly with a default, so that most bodies can be run.
    fn parameter(&mut self) -> ValueType {
        match self.value_type() {
            ValueType::Ref(reference) if !self.random.one_in(10) => {
                ValueType::nullable(reference.heap)
            }
            other => other,
        }
    }

    fn family_or_function(&mut self) {
        if self.random.one_in(6) {
            let with_supertype = self.random.one_in(2);
            return self.lay_function(with_supertype);
        }
        let above = self.family_above();
        let least = above.as_ref().map_or(1, |family| family.members.len());
        let length = self.random.pick(&[1, 1, 2, 2, 2, 3]).max(least);
        self.lay_family(length, above);
    }

    /// An earlier family whose members may all have subtypes.
    fn family_above(&mut self) -> Option<Family> {
        let open: Vec<usize> =
            (0..self.families.len()).filter(|&family| self.families[family].open).collect();
        if self.random.one_in(4) {
            return None;
        }
        self.random.pick_from(&open).map(|family| self.families[family].clone())
    }

    /// Each member describes the one before it; each has the supertype that the
    /// family above has at its position.
    fn lay_family(&mut self, length: usize, above: Option<Family>) {
        let first = self.types.len() as u32;
        let open = self.random.percent(75);
        let above = above.map_or(Vec::new(), |family| family.members);
        for position in 0..length as u32 {
            let number = first + position;
            let supertypes = above.get(position as usize).copied().into_iter().collect();
            let describes = (position > 0).then(|| number - 1);
            let descriptor = (position + 1 < length as u32).then_some(number + 1);
            let form = Form::Struct(Vec::new());
            self.types.push(as_type(Definition { open, supertypes, describes, descriptor, form }));
        }
        let members = (first..first + length as u32).collect();
        self.families.push(Family { members, open });
    }

    fn lay_function(&mut self, with_supertype: bool) {
        let open: Vec<u32> = self.open_functions();
        let above = if with_supertype { self.random.pick_from(&open) } else { None };
        let form = Form::Function { parameters: Vec::new(), results: Vec::new() };
        let definition = Definition {
            open: self.random.one_in(2),
            supertypes: above.into_iter().collect(),
            describes: None,
            descriptor: None,
            form,
        };
        self.functions.push(self.types.len() as u32);
        self.types.push(as_type(definition));
    }

    fn open_functions(&self) -> Vec<u32> {
        let open = |number: &&u32| self.types[**number as usize].definition.open;
        self.functions.iter().filter(open).copied().collect()
    }

    fn fill(&mut self, first: usize) {
        for number in first..self.types.len() {
            let definition = &self.types[number].definition;
            let above = definition.supertype().map(|above| self.form_of(above));
            let form = match definition.form {
                Form::Struct(_) => self.struct_form(number as u32, above),
                Form::Function { .. } => self.function_form(above),
            };
            self.types[number].definition.form = form;
        }
    }

    fn form_of(&self, number: u32) -> Form {
        self.types[number as usize].definition.form.clone()
    }

    fn struct_form(&mut self, number: u32, above: Option<Form>) -> Form {
        let mut fields = match above {
            Some(Form::Struct(fields)) => fields,
            _ => Vec::new(),
        };
        fields.iter_mut().for_each(|field| self.narrow_field(field));
        let most = self.most_fields.saturating_sub(fields.len());
        let more = self.random.between(0, most);
        fields.extend((0..more).map(|_| self.field(number)));
        Form::Struct(fields)
    }

    fn narrow_field(&mut self, field: &mut Field) {
        if !field.mutable && self.random.one_in(2) {
            field.value = narrower(self.random, &self.types, field.value);
        }
    }

    fn function_form(&mut self, above: Option<Form>) -> Form {
        if let Some(Form::Function { parameters, results }) = above {
            let parameters =
                parameters.iter().map(|&value| wider(self.random, &self.types, value)).collect();
            let results =
                results.iter().map(|&value| narrower(self.random, &self.types, value)).collect();
            return Form::Function { parameters, results };
        }
        let parameters = self.random.between(0, 2);
        let parameters = (0..parameters).map(|_| self.value_type()).collect();
        let results = self.random.between(0, 2);
        let results = (0..results).map(|_| self.value_type()).collect();
        Form::Function { parameters, results }
    }

    fn field(&mut self, owner: u32) -> Field {
        let value = self.value_type();
        // A non-null reference to itself or forward mostly can't be allocated.
        let forward = value.number().is_some_and(|number| number >= owner);
        let value = match value {
            ValueType::Ref(reference) if forward && !self.random.one_in(12) => {
                ValueType::nullable(reference.heap)
            }
            other => other,
        };
        Field { value, mutable: self.random.one_in(2) }
    }

    fn value_type(&mut self) -> ValueType {
        random_value_type(self.random, &self.types)
    }
}
