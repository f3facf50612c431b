//! Constants and numeric codes: done on edges, not done, of wrong kinds, in unreachable
//! code, cut and out of range.

use super::float_pairs::{edges, random_pair};
use super::numbers::{any_row, constant, other_kind, KINDS};
use super::random::Random;
use super::thin::{about_body, alone, body_of, open_function, open_struct, section_of};
use crate::float::{DOUBLE, SINGLE};
use crate::lines::hex;
use crate::numeric::{Row, TABLE};
use crate::syntax::{Definition, Field, Form, Instruction, ValueType};

pub fn numbers(random: &mut Random) -> String {
    match random.below(17) {
        0 => done_on_edges(random),
        1..=4 => done_in_a_row(random),
        5 => done_on_held(random),
        6..=8 => not_done(random),
        9 => of_wrong_kinds(random),
        10..=13 => in_unreachable_code(random),
        14 => cut_float(random),
        15 => long_integer(random),
        _ => not_numeric(random),
    }
}

/// The code judged or run as a function of nothing with these results, mostly with an
/// object made first that has a field of each kind.
fn about_code(
    random: &mut Random,
    results: Vec<ValueType>,
    locals: &[ValueType],
    code: Vec<Instruction>,
) -> String {
    let held = !random.one_in(3);
    let mut types = vec![open_function(Vec::new(), results)];
    let mut whole = Vec::new();
    if held {
        types.insert(0, struct_of_numbers());
        whole.extend(KINDS.map(|kind| constant(random, kind)));
        whole.extend([Instruction::StructNew(0), Instruction::Drop]);
    }
    whole.extend(code);
    whole.push(Instruction::End);
    let section = section_of(random, &alone(types));
    let body = body_of(random, locals, &whole);
    about_body(random, &section, usize::from(held), &body)
}

fn struct_of_numbers() -> Definition {
    let fields = KINDS.map(|value| Field { value, mutable: true });
    Definition { form: Form::Struct(fields.to_vec()), ..open_struct(None) }
}

/// Operands for a code: two floats are often such that digits cancel or are just lost.
fn operands_of(random: &mut Random, row: &Row) -> Vec<Instruction> {
    if random.one_in(2) {
        return row.operands.iter().map(|&kind| constant(random, kind)).collect();
    }
    match *row.operands {
        [ValueType::F32, ValueType::F32] => {
            let (left, right) = random_pair(random, SINGLE, &edges(SINGLE));
            vec![Instruction::F32Const(left as u32), Instruction::F32Const(right as u32)]
        }
        [ValueType::F64, ValueType::F64] => {
            let (left, right) = random_pair(random, DOUBLE, &edges(DOUBLE));
            vec![Instruction::F64Const(left), Instruction::F64Const(right)]
        }
        _ => row.operands.iter().map(|&kind| constant(random, kind)).collect(),
    }
}

fn done_on_edges(random: &mut Random) -> String {
    let row = any_row(random, true);
    let mut code = operands_of(random, row);
    code.push(Instruction::Numeric(row.code));
    about_code(random, vec![row.result], &[], code)
}

/// Several results, all of them left as operands.
fn done_in_a_row(random: &mut Random) -> String {
    let (mut code, mut results) = (Vec::new(), Vec::new());
    for _ in 0..random.between(2, 8) {
        let row = any_row(random, true);
        code.extend(operands_of(random, row));
        code.push(Instruction::Numeric(row.code));
        results.push(row.result);
    }
    about_code(random, results, &[], code)
}

/// Each result is held by a local and is an operand of the next code of its kind.
fn done_on_held(random: &mut Random) -> String {
    let mut code = Vec::new();
    let local = |kind: ValueType| KINDS.iter().position(|&held| held == kind).unwrap_or(0) as u32;
    for kind in KINDS {
        code.extend([constant(random, kind), Instruction::LocalSet(local(kind))]);
    }
    for _ in 0..random.between(2, 8) {
        let row = any_row(random, true);
        code.extend(row.operands.iter().map(|&kind| Instruction::LocalGet(local(kind))));
        code.extend([Instruction::Numeric(row.code), Instruction::LocalSet(local(row.result))]);
    }
    let result = random.pick(&KINDS);
    code.push(Instruction::LocalGet(local(result)));
    about_code(random, vec![result], &KINDS, code)
}

/// A trap with its operands and what lies below them.
fn not_done(random: &mut Random) -> String {
    let row = any_row(random, false);
    let below = random.pick(&KINDS);
    let mut code = vec![constant(random, below)];
    code.extend(operands_of(random, row));
    code.push(Instruction::Numeric(row.code));
    about_code(random, vec![below, row.result], &[], code)
}

/// One operand of another kind, one missing, or a result of another kind.
fn of_wrong_kinds(random: &mut Random) -> String {
    let row = &TABLE[random.below(TABLE.len())];
    let mut operands = row.operands.to_vec();
    let mut result = row.result;
    let spoilt = random.below(operands.len());
    match random.below(4) {
        0 => drop(operands.pop()),
        1 => result = other_kind(random, result),
        _ => operands[spoilt] = other_kind(random, operands[spoilt]),
    }
    let mut code: Vec<Instruction> =
        operands.into_iter().map(|kind| constant(random, kind)).collect();
    code.push(Instruction::Numeric(row.code));
    about_code(random, vec![result], &[], code)
}

/// None, some or all operands are there; now and then one is wrong. All results are
/// dropped but the last, whose kind is looked at.
fn in_unreachable_code(random: &mut Random) -> String {
    let mut code = vec![Instruction::Unreachable];
    for _ in 0..random.below(4) {
        dead_code(random, &mut code);
        code.push(Instruction::Drop);
    }
    let row = dead_code(random, &mut code);
    let result = if random.one_in(8) { other_kind(random, row.result) } else { row.result };
    about_code(random, vec![result], &[], code)
}

fn dead_code(random: &mut Random, code: &mut Vec<Instruction>) -> &'static Row {
    let row = &TABLE[random.below(TABLE.len())];
    let first = random.below(row.operands.len() + 1);
    for &kind in &row.operands[first..] {
        let kind = if random.one_in(16) { other_kind(random, kind) } else { kind };
        code.push(constant(random, kind));
    }
    code.push(Instruction::Numeric(row.code));
    row
}

/// The body ends before a float, within it or with its last byte.
fn cut_float(random: &mut Random) -> String {
    let (kind, width) = random.pick(&[(ValueType::F32, 4), (ValueType::F64, 8)]);
    let section = section_of(random, &alone(vec![open_function(Vec::new(), vec![kind])]));
    let float = constant(random, kind);
    let body = body_of(random, &[], &[float]);
    let length = body.len() - random.below(width + 1);
    about_body(random, &section, 0, &body[..length])
}

/// Nine bytes that go on, then the tenth, in range or not, or none.
fn long_integer(random: &mut Random) -> String {
    let section = section_of(random, &alone(vec![open_function(Vec::new(), vec![ValueType::I64])]));
    let mut body = vec![0x00, 0x42];
    body.extend((0..9).map(|_| 0x80 | random.draw() as u8));
    let last: &[u8] = random.pick(&[
        &[0x00, 0x0B],
        &[0x7F, 0x0B],
        &[0x01, 0x0B],
        &[0x7E, 0x0B],
        &[0x40, 0x0B],
        &[0x3F, 0x0B],
        &[0x80, 0x00, 0x0B],
        &[0xFF, 0x7F, 0x0B],
        &[],
    ]);
    body.extend(last);
    about_body(random, &section, 0, &body)
}

/// A first byte that stands for nothing, where operands are unknown.
fn not_numeric(random: &mut Random) -> String {
    let code = random.pick(&[0x40, 0xC5, 0xC6, 0xCF, 0xD2, 0xD5, 0xFC, 0xFD, 0xFE, 0xFF]);
    let body = [0x00, 0x00, code, random.draw() as u8, 0x0B];
    format!("B 01600000 0 {}", hex(&body))
}
