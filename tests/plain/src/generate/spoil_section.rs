//! Near misses of a section: one thing of a valid tree is changed.

use super::encode::Group;
use super::random::Random;
use super::value_types::random_heap;
use crate::syntax::{Definition, Field, Form, Heap, ValueType};

pub fn spoil_section(random: &mut Random, groups: &mut Vec<Group>) {
    let count: usize = groups.iter().map(|group| group.definitions.len()).sum();
    if random.one_in(6) {
        return spoil_groups(random, groups);
    }
    if random.one_in(3) {
        return spoil_family(random, groups);
    }
    let definition = any_definition(random, groups);
    match random.below(6) {
        0 | 1 => spoil_clauses(random, definition, count),
        2 => spoil_values(random, definition),
        3 => spoil_number(random, definition, count),
        4 => spoil_supertypes(random, definition, count),
        _ => spoil_form(random, definition, count),
    }
}

/// The last group always holds one definition, so there is one.
fn any_definition<'a>(random: &mut Random, groups: &'a mut [Group]) -> &'a mut Definition {
    let mut all: Vec<&mut Definition> =
        groups.iter_mut().flat_map(|group| group.definitions.iter_mut()).collect();
    let index = random.below(all.len());
    all.swap_remove(index)
}

fn spoil_groups(random: &mut Random, groups: &mut Vec<Group>) {
    let index = random.below(groups.len());
    let size = groups[index].definitions.len();
    match random.below(3) {
        // Two types change places.
        0 if size > 1 => groups[index].definitions.swap(0, size - 1),
        // A group falls apart, so that numbers no longer reach forward.
        1 if size > 1 => {
            let rest = groups[index].definitions.split_off(1);
            groups.insert(index + 1, Group { alone: true, definitions: rest });
        }
        _ => drop(groups.remove(index)),
    }
    if groups.iter().all(|group| group.definitions.is_empty()) {
        groups.push(Group { alone: true, definitions: vec![empty_struct()] });
    }
}

fn empty_struct() -> Definition {
    Definition {
        open: true,
        supertypes: Vec::new(),
        describes: None,
        descriptor: None,
        form: Form::Struct(Vec::new()),
    }
}

/// Rules 4 and 5: something of a type with a clause and a supertype.
fn spoil_family(random: &mut Random, groups: &mut [Group]) {
    let all: Vec<&mut Definition> =
        groups.iter_mut().flat_map(|group| group.definitions.iter_mut()).collect();
    let numbers = 0..all.len();
    let mut types: Vec<&mut Definition> = all;
    let in_family = |definition: &Definition| {
        let clause = definition.describes.or(definition.descriptor);
        clause.is_some() && !definition.supertypes.is_empty()
    };
    let members: Vec<usize> = numbers.filter(|&number| in_family(types[number])).collect();
    let Some(member) = random.pick_from(&members) else {
        return types[0].open = !types[0].open;
    };
    match random.below(3) {
        0 => types[member].supertypes.clear(),
        // Both sides of a clause go, so that they agree.
        1 => {
            let descriptor = types[member].descriptor.take();
            descriptor.into_iter().for_each(|y| types[y as usize].describes = None);
            let described = types[member].describes.take();
            described.into_iter().for_each(|x| types[x as usize].descriptor = None);
        }
        _ => {
            let other = random.below(member) as u32;
            types[member].supertypes = vec![other];
        }
    }
}

fn near_number(random: &mut Random, number: u32, count: usize) -> u32 {
    match random.below(8) {
        0 | 1 => number.wrapping_add(1),
        2 | 3 => number.saturating_sub(1),
        4 => count as u32,
        5 => random.pick(&[127, 128, 255, 256, 1_023, 1_024, u32::MAX, 0x7FFF_FFFF]),
        _ => random.below(count + 1) as u32,
    }
}

fn spoil_clauses(random: &mut Random, definition: &mut Definition, count: usize) {
    let number = random.below(count) as u32;
    match random.below(5) {
        0 => definition.describes = None,
        1 => definition.descriptor = None,
        2 => definition.describes = Some(number),
        3 => definition.descriptor = Some(number),
        _ => std::mem::swap(&mut definition.describes, &mut definition.descriptor),
    }
}

fn numbers_of(definition: &mut Definition) -> Vec<&mut u32> {
    let mut numbers: Vec<&mut u32> = definition.supertypes.iter_mut().collect();
    numbers.extend(definition.describes.as_mut());
    numbers.extend(definition.descriptor.as_mut());
    numbers.extend(values_of(&mut definition.form).into_iter().filter_map(number_of));
    numbers
}

fn values_of(form: &mut Form) -> Vec<&mut ValueType> {
    match form {
        Form::Struct(fields) => fields.iter_mut().map(|field| &mut field.value).collect(),
        Form::Function { parameters, results } => parameters.iter_mut().chain(results).collect(),
    }
}

fn number_of(value: &mut ValueType) -> Option<&mut u32> {
    match value {
        ValueType::Ref(reference) => match &mut reference.heap {
            Heap::Abstract(_) => None,
            Heap::Defined(number) | Heap::Exact(number) => Some(number),
        },
        _ => None,
    }
}

fn spoil_number(random: &mut Random, definition: &mut Definition, count: usize) {
    let mut numbers = numbers_of(definition);
    if numbers.is_empty() {
        definition.supertypes.push(random.below(count + 1) as u32);
        return;
    }
    let index = random.below(numbers.len());
    *numbers[index] = near_number(random, *numbers[index], count);
}

fn spoil_values(random: &mut Random, definition: &mut Definition) {
    if let (Form::Struct(fields), true) = (&mut definition.form, random.one_in(3)) {
        if let Some(field) = fields.first_mut() {
            field.mutable = !field.mutable;
        }
        return;
    }
    let mut values = values_of(&mut definition.form);
    if values.is_empty() {
        definition.open = !definition.open;
        return;
    }
    let index = random.below(values.len());
    spoil_value(random, values[index]);
}

/// Null, exactness, or another type altogether.
pub fn spoil_value(random: &mut Random, value: &mut ValueType) {
    match value {
        ValueType::Ref(reference) if random.one_in(2) => reference.nullable = !reference.nullable,
        ValueType::Ref(reference) => reference.heap = other_exactness(random, reference.heap),
        _ => *value = ValueType::nullable(random_heap(random, 1)),
    }
}

pub fn other_exactness(random: &mut Random, heap: Heap) -> Heap {
    match heap {
        Heap::Defined(number) => Heap::Exact(number),
        Heap::Exact(number) => Heap::Defined(number),
        Heap::Abstract(_) => random_heap(random, 1),
    }
}

fn spoil_supertypes(random: &mut Random, definition: &mut Definition, count: usize) {
    match random.below(4) {
        0 => definition.open = !definition.open,
        1 => definition.supertypes.clear(),
        2 => definition.supertypes.push(random.below(count) as u32),
        _ => definition.supertypes = vec![random.below(count) as u32],
    }
}

fn spoil_form(random: &mut Random, definition: &mut Definition, count: usize) {
    match &mut definition.form {
        Form::Struct(fields) => match random.below(4) {
            0 => drop(fields.pop()),
            1 => {
                let value = ValueType::nullable(random_heap(random, count));
                fields.insert(0, Field { value, mutable: false });
            }
            2 => definition.form = Form::Function { parameters: Vec::new(), results: Vec::new() },
            _ => fields.reverse(),
        },
        Form::Function { parameters, results } => match random.below(4) {
            0 => drop(parameters.pop()),
            1 => results.push(ValueType::I32),
            2 => definition.form = Form::Struct(Vec::new()),
            _ => std::mem::swap(parameters, results),
        },
    }
}
