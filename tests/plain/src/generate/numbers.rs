//! Numbers of every kind to compute with, and numeric codes by what they take and give.

use super::float_pairs::{edges, nans, random_pattern};
use super::random::Random;
use crate::compute::computed;
use crate::float::{Format, DOUBLE, SINGLE};
use crate::numeric::{Row, TABLE};
use crate::state::default_of;
use crate::syntax::{Instruction, ValueType};

pub const KINDS: [ValueType; 4] = [ValueType::I32, ValueType::I64, ValueType::F32, ValueType::F64];

/// Both ends of both widths, what lies beside them, and where one more byte is needed.
const INTEGERS: [i64; 19] = [
    0,
    1,
    -1,
    2,
    63,
    64,
    -64,
    -65,
    i32::MAX as i64,
    i32::MAX as i64 - 1,
    i32::MIN as i64,
    i32::MIN as i64 + 1,
    1 << 31,
    (1 << 32) - 1,
    1 << 32,
    i64::MAX,
    i64::MAX - 1,
    i64::MIN,
    i64::MIN + 1,
];

/// A constant of a kind, often at an edge.
pub fn constant(random: &mut Random, kind: ValueType) -> Instruction {
    match kind {
        ValueType::I32 => Instruction::I32Const(integer(random) as i32),
        ValueType::I64 => Instruction::I64Const(integer(random)),
        ValueType::F32 => Instruction::F32Const(float(random, SINGLE) as u32),
        _ => Instruction::F64Const(float(random, DOUBLE)),
    }
}

/// Of every length, or an edge.
fn integer(random: &mut Random) -> i64 {
    let any = random.draw() as i64;
    match random.below(5) {
        0 | 1 => random.pick(&INTEGERS),
        2 => any >> random.below(64),
        3 => at_a_length(random),
        _ => any,
    }
}

/// The last of a length or the first that needs one byte more, of either sign.
fn at_a_length(random: &mut Random) -> i64 {
    let half = 1 << (7 * random.between(1, 9) - 1);
    random.pick(&[half - 1, half, -half, -half - 1])
}

fn float(random: &mut Random, format: Format) -> u64 {
    match random.below(8) {
        0 => random.pick(&nans(format)),
        1..=3 => random.pick(&edges(format)),
        _ => random_pattern(random, format, &edges(format)),
    }
}

/// Whether the run does it, told by doing it on zeros.
pub fn is_done(row: &Row) -> bool {
    let zeros: Vec<_> = row.operands.iter().filter_map(|&kind| default_of(kind)).collect();
    computed(row.operation(), &zeros).is_some()
}

pub fn any_row(random: &mut Random, done: bool) -> &'static Row {
    let rows: Vec<&'static Row> = TABLE.iter().filter(|row| is_done(row) == done).collect();
    random.pick(&rows)
}

/// Every kind is given by some code that is done and by some that is not.
pub fn row_giving(random: &mut Random, kind: ValueType, done: bool) -> &'static Row {
    let gives = |row: &&'static Row| row.result == kind && is_done(row) == done;
    let rows: Vec<&'static Row> = TABLE.iter().filter(gives).collect();
    random.pick(&rows)
}

pub fn other_kind(random: &mut Random, kind: ValueType) -> ValueType {
    let others: Vec<ValueType> = KINDS.into_iter().filter(|&other| other != kind).collect();
    random.pick(&others)
}
