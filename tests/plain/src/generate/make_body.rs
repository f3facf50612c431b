//! Bodies that are valid by construction.
//!
//! `produce` writes code that leaves one operand below the wanted type;
//! `statement` writes code that leaves nothing. Both keep count of what is left
//! to spend, so that bodies stay short.

use super::make_section::Draft;
use super::random::Random;
use super::value_types::{constructible, random_heap, random_value_type};
use crate::order::{value_fit, Fit};
use crate::syntax::{Field, Form, Heap, Instruction, Type, ValueType};

/// How deep values are nested in values.
pub const DEPTH: usize = 4;

pub struct DraftBody {
    pub parameters: usize,
    /// Parameters first.
    pub locals: Vec<ValueType>,
    pub code: Vec<Instruction>,
}

pub struct Maker<'a> {
    pub random: &'a mut Random,
    pub types: Vec<Type>,
    pub locals: Vec<ValueType>,
    pub set: Vec<bool>,
    /// The types of each label, innermost last.
    pub labels: Vec<Vec<ValueType>>,
    pub results: Vec<ValueType>,
    pub code: Vec<Instruction>,
    /// Which types have objects that can be made from nothing.
    pub constructible: Vec<bool>,
    /// How many more instructions it likes to write.
    pub left: isize,
}

pub fn make_body(random: &mut Random, draft: &Draft, small: bool) -> DraftBody {
    let types = draft.types();
    let (parameters, results) = match &types[draft.function as usize].definition.form {
        Form::Function { parameters, results } => (parameters.clone(), results.clone()),
        Form::Struct(_) => (Vec::new(), Vec::new()),
    };
    let left = random.between(2, if small { 16 } else { 60 }) as isize;
    let mut maker = Maker::new(random, types, &parameters, &results, left);
    maker.function_code();
    DraftBody { parameters: parameters.len(), locals: maker.locals, code: maker.code }
}

impl Maker<'_> {
    /// Nothing written yet.
    pub fn new<'a>(
        random: &'a mut Random,
        types: Vec<Type>,
        parameters: &[ValueType],
        results: &[ValueType],
        left: isize,
    ) -> Maker<'a> {
        Maker {
            random,
            constructible: constructible(&types),
            types,
            set: vec![true; parameters.len()],
            locals: parameters.to_vec(),
            labels: vec![results.to_vec()],
            results: results.to_vec(),
            code: Vec::new(),
            left,
        }
    }

    fn function_code(&mut self) {
        let statements = self.random.between(0, 4);
        (0..statements).for_each(|_| self.statement());
        let results = self.results.clone();
        self.produce_all(&results);
        self.leave_early(&[Instruction::Return, Instruction::Br(0), Instruction::Unreachable]);
        self.emit(Instruction::End);
    }

    /// Now and then a frame's `end` is not reached.
    fn leave_early(&mut self, exits: &[Instruction]) {
        if self.random.one_in(5) {
            let exit = self.random.pick(exits);
            self.emit(exit);
            self.dead_code();
        }
    }

    pub fn emit(&mut self, instruction: Instruction) {
        self.left -= 1;
        self.code.push(instruction);
    }

    pub fn drop_many(&mut self, count: usize) {
        (0..count).for_each(|_| self.emit(Instruction::Drop));
    }

    pub fn new_local(&mut self, value: ValueType) -> u32 {
        self.locals.push(value);
        self.set.push(value.has_default());
        self.locals.len() as u32 - 1
    }

    /// A local that is set and holds a value below the wanted type.
    pub fn local_below(&mut self, wanted: ValueType) -> Option<u32> {
        let fits = |&local: &usize| {
            self.set[local] && value_fit(&self.types, self.locals[local], wanted) == Fit::Fits
        };
        let found: Vec<usize> = (0..self.locals.len()).filter(fits).collect();
        self.random.pick_from(&found).map(|local| local as u32)
    }

    /// Opens a block or loop, fills it and ends it; sets inside are forgotten.
    pub fn framed(
        &mut self,
        start: Instruction,
        label: Vec<ValueType>,
        fill: impl FnOnce(&mut Self),
    ) {
        let set_before = self.set.clone();
        self.emit(start);
        self.labels.push(label);
        fill(self);
        self.labels.pop();
        self.emit(Instruction::End);
        let since = self.locals[set_before.len()..].iter().map(|local| local.has_default());
        self.set = set_before.into_iter().chain(since).collect();
    }

    pub fn statement(&mut self) {
        if self.left <= 0 {
            return;
        }
        match self.random.below(12) {
            0 => self.emit(Instruction::Nop),
            1 | 2 => self.set_local(),
            3 | 4 => self.set_field(),
            5 => self.block_statement(),
            6 => self.loop_statement(),
            7 => self.branch_if_statement(),
            8 => self.branching_cast_statement(),
            9 => self.guarded_exit(),
            _ => {
                let value = random_value_type(self.random, &self.types);
                self.produce(value, 0);
                self.emit(Instruction::Drop);
            }
        }
    }

    fn set_local(&mut self) {
        let value = random_value_type(self.random, &self.types);
        let old = self.random.one_in(2).then(|| self.random.below(self.locals.len() + 1));
        let local = match old {
            Some(local) if local < self.locals.len() => local as u32,
            _ => self.new_local(value),
        };
        self.produce(self.locals[local as usize], 0);
        self.emit(Instruction::LocalSet(local));
        self.set[local as usize] = true;
    }

    fn set_field(&mut self) {
        let mut found = Vec::new();
        for (number, candidate) in self.types.iter().enumerate() {
            let fields = candidate.definition.fields().unwrap_or(&[]).iter().enumerate();
            let mutable = fields.filter(|(_, field)| field.mutable);
            found.extend(mutable.map(|(field, held)| (number as u32, field as u32, held.value)));
        }
        let Some((number, field, value)) = self.random.pick_from(&found) else {
            return self.emit(Instruction::Nop);
        };
        self.produce_mostly_object(Heap::Defined(number), 1);
        self.produce(value, 1);
        self.emit(Instruction::StructSet(number, field));
    }

    fn block_statement(&mut self) {
        self.framed(Instruction::Block(None), Vec::new(), |maker| {
            maker.statement();
            maker.statement();
            maker.leave_early(&[Instruction::Br(0), Instruction::Br(0), Instruction::Unreachable]);
        });
    }

    fn loop_statement(&mut self) {
        let again = self.random.one_in(4);
        self.framed(Instruction::Loop(None), Vec::new(), |maker| {
            maker.statement();
            if again {
                maker.produce(ValueType::I32, 1);
                maker.emit(Instruction::BrIf(0));
            }
        });
    }

    pub fn random_label(&mut self) -> u32 {
        self.random.below(self.labels.len()) as u32
    }

    pub fn label_types(&self, label: u32) -> Vec<ValueType> {
        self.labels[self.labels.len() - 1 - label as usize].clone()
    }

    fn branch_if_statement(&mut self) {
        let label = self.random_label();
        let types = self.label_types(label);
        self.produce_all(&types);
        self.produce(ValueType::I32, 0);
        self.emit(Instruction::BrIf(label));
        self.drop_many(types.len());
    }

    fn branching_cast_statement(&mut self) {
        let label = self.random_label();
        let types = self.label_types(label);
        let Some((&ValueType::Ref(last), below)) = types.split_last() else {
            return self.guarded_exit();
        };
        self.produce_all(below);
        let cast = self.cast_carrying(last, label);
        self.branching_cast(cast, 0);
        self.drop_many(types.len());
    }

    /// In a block: left by br_if when a number isn't 0, else by what follows.
    fn guarded_exit(&mut self) {
        let way = self.random.below(4);
        self.framed(Instruction::Block(None), Vec::new(), |maker| {
            maker.produce(ValueType::I32, 1);
            maker.emit(Instruction::BrIf(0));
            maker.exit(way);
            maker.dead_code();
        });
    }

    fn exit(&mut self, way: usize) {
        let results = self.results.clone();
        match way {
            0 => self.emit(Instruction::Unreachable),
            1 => {
                self.produce_all(&results);
                self.emit(Instruction::Return);
            }
            _ => {
                let label = self.random_label();
                let types = self.label_types(label);
                self.produce_all(&types);
                self.emit(Instruction::Br(label));
            }
        }
    }

    /// Any heap type of the section.
    pub fn any_heap(&mut self) -> Heap {
        random_heap(self.random, self.types.len())
    }
}

pub fn has_default(field: &Field) -> bool {
    field.value.has_default()
}
