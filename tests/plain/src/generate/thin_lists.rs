//! Shapes of long lists: parameters with results, and the last of 64 fields.

use super::encode::Group;
use super::random::Random;
use super::thin::{about_body, about_section, alone, body_of};
use super::thin::{open_function, open_struct, section_of};
use crate::sizes;
use crate::syntax::{Abstract, Definition, Field, Form, Heap, Instruction, ValueType};

/// A type of values that has a default.
fn value(random: &mut Random) -> ValueType {
    let heap = random.pick(&[Abstract::Any, Abstract::Eq, Abstract::None, Abstract::Func]);
    let reference = ValueType::nullable(Heap::Abstract(heap));
    random.pick(&[
        ValueType::I32,
        ValueType::I64,
        ValueType::F32,
        ValueType::F64,
        reference,
        reference,
    ])
}

/// A function of more than 100 parameters and results together: its type, a type
/// below it, or a body that gives parameters as results.
pub fn parameters_and_results(random: &mut Random, small: bool) -> String {
    let count = random.between(40, sizes::ENTRIES);
    let most = sizes::ENTRIES + usize::from(random.one_in(4));
    let parameters: Vec<ValueType> = (0..count).map(|_| value(random)).collect();
    let sources: Vec<usize> =
        (0..random.between(101 - count, most)).map(|_| random.below(count)).collect();
    let results: Vec<ValueType> = sources.iter().map(|&source| parameters[source]).collect();
    if small || random.one_in(4) {
        return long_function(random, parameters, results);
    }
    let function = open_function(parameters.clone(), results.clone());
    if random.one_in(2) {
        return below_long_function(random, function, parameters, results);
    }
    let mut code: Vec<Instruction> =
        sources.iter().map(|&source| Instruction::LocalGet(source as u32)).collect();
    match random.below(8) {
        0 => code.insert(0, Instruction::LocalGet(count as u32)),
        1 => code.insert(0, Instruction::LocalGet(0)),
        2 => drop(code.remove(0)),
        3 => code.swap(0, sources.len() - 1),
        _ => (),
    }
    code.push(Instruction::End);
    let section = section_of(random, &alone(vec![function]));
    let body = body_of(random, &[], &code);
    about_body(random, &section, 0, &body)
}

/// By itself; the last result may name a type that is out of reach.
fn long_function(
    random: &mut Random,
    parameters: Vec<ValueType>,
    mut results: Vec<ValueType>,
) -> String {
    if let (Some(last), true) = (results.last_mut(), random.one_in(2)) {
        *last = ValueType::nullable(Heap::Defined(random.below(2) as u32));
    }
    let section = section_of(random, &alone(vec![open_function(parameters, results)]));
    about_section(random, &section, 1)
}

/// The type below has the same lists, but for the last entry of one of them.
fn below_long_function(
    random: &mut Random,
    upper: Definition,
    mut parameters: Vec<ValueType>,
    mut results: Vec<ValueType>,
) -> String {
    let changed = if random.one_in(2) { &mut parameters } else { &mut results };
    if let (Some(last), true) = (changed.last_mut(), random.one_in(2)) {
        *last = ValueType::nullable(Heap::Abstract(Abstract::Extern));
    }
    let lower = Definition { supertypes: vec![0], ..open_function(parameters, results) };
    let section = section_of(random, &alone(vec![upper, lower]));
    about_section(random, &section, 2)
}

/// A struct of 64 fields with a descriptor; its last field is set and read, or the
/// field after it, or the last one where it is fixed.
pub fn last_field(random: &mut Random, small: bool) -> String {
    let count = random.pick(&[64, 64, 64, 64, 64, 64, 64, 63, 65]);
    let last = value(random);
    let mut fields: Vec<Field> =
        (0..count).map(|_| Field { value: value(random), mutable: random.one_in(2) }).collect();
    let mutable = !random.one_in(4);
    fields[count - 1] = Field { value: last, mutable };
    let owner =
        Definition { descriptor: Some(1), form: Form::Struct(fields.clone()), ..open_struct(None) };
    let descriptor = Definition { describes: Some(0), ..open_struct(None) };
    let pair = Group { alone: false, definitions: vec![owner, descriptor] };
    let result = if random.one_in(6) { value(random) } else { last };
    let function = open_function(Vec::new(), vec![result]);
    let section = section_of(random, &[pair, Group { alone: true, definitions: vec![function] }]);
    let mut code = if small || random.one_in(2) {
        vec![Instruction::StructNewDefault(1), Instruction::StructNewDefaultDesc(0)]
    } else {
        all_fields_given(random, &fields)
    };
    code.push(Instruction::LocalSet(0));
    if random.percent(85) {
        code.extend(set_last(random, last, count as u32));
    }
    let read = count - 1 + usize::from(random.one_in(8));
    code.extend([Instruction::LocalGet(0), Instruction::StructGet(0, read as u32)]);
    code.push(Instruction::End);
    let owner = [ValueType::nullable(Heap::Exact(0))];
    let body = body_of(random, &[&owner[..], &ZEROS].concat(), &code);
    about_body(random, &section, 2, &body)
}

/// Numbers that no constant gives come from a local, which starts at zero.
const ZEROS: [ValueType; 3] = [ValueType::I64, ValueType::F32, ValueType::F64];

fn some_value(wanted: ValueType, number: i32) -> Instruction {
    match wanted {
        ValueType::I32 => Instruction::I32Const(number),
        ValueType::Ref(reference) => Instruction::RefNull(reference.heap),
        ValueType::I64 => Instruction::LocalGet(1),
        ValueType::F32 => Instruction::LocalGet(2),
        ValueType::F64 => Instruction::LocalGet(3),
    }
}

/// The fields one after the other, each number another one, and the descriptor or null.
fn all_fields_given(random: &mut Random, fields: &[Field]) -> Vec<Instruction> {
    let given = |(place, field): (usize, &Field)| some_value(field.value, 100 + place as i32);
    let mut code: Vec<Instruction> = fields.iter().enumerate().map(given).collect();
    let null = Instruction::RefNull(Heap::Exact(1));
    code.push(if random.one_in(8) { null } else { Instruction::StructNewDefault(1) });
    code.push(Instruction::StructNewDesc(0));
    code
}

fn set_last(random: &mut Random, last: ValueType, count: u32) -> [Instruction; 3] {
    let number = random.below(2000) as i32 - 1000;
    let field = count - 1 + u32::from(random.one_in(12));
    [Instruction::LocalGet(0), some_value(last, number), Instruction::StructSet(0, field)]
}
