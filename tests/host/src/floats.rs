//! The loader's float operations against the processor's own: bodies of many operations on constants, whose results lie on
//! the operand stack where the body traps. A NaN of add, sub, mul and div is held to the canonical pattern.

use chelbugan::state::Value;
use chelbugan::{Ended, Loader, EMPTY_LIBRARY};
use plain::float::{Format, DOUBLE, SINGLE};
use plain::generate::float_pairs::pairs;
use std::fmt;

/// An operation of one width, by its code.
#[derive(Clone, Copy)]
pub struct Operation {
    pub name: &'static str,
    code: u8,
    format: Format,
    /// On patterns: a pattern of the same width, or a truth.
    by_processor: fn(u64, u64) -> Value,
}

/// neg takes the first of a pair alone.
const NEG: [u8; 2] = [0x8C, 0x9A];

macro_rules! arithmetic {
    ($name:literal, $code:literal, f32, $operator:tt) => {
        Operation { name: $name, code: $code, format: SINGLE, by_processor: |a, b| {
            single(f32::from_bits(a as u32) $operator f32::from_bits(b as u32))
        } }
    };
    ($name:literal, $code:literal, f64, $operator:tt) => {
        Operation { name: $name, code: $code, format: DOUBLE, by_processor: |a, b| {
            double(f64::from_bits(a) $operator f64::from_bits(b))
        } }
    };
}

macro_rules! comparison {
    ($name:literal, $code:literal, f32, $operator:tt) => {
        Operation { name: $name, code: $code, format: SINGLE, by_processor: |a, b| {
            Value::I32((f32::from_bits(a as u32) $operator f32::from_bits(b as u32)) as i32)
        } }
    };
    ($name:literal, $code:literal, f64, $operator:tt) => {
        Operation { name: $name, code: $code, format: DOUBLE, by_processor: |a, b| {
            Value::I32((f64::from_bits(a) $operator f64::from_bits(b)) as i32)
        } }
    };
}

pub const OPERATIONS: [Operation; 22] = [
    arithmetic!("f32.add", 0x92, f32, +),
    arithmetic!("f32.sub", 0x93, f32, -),
    arithmetic!("f32.mul", 0x94, f32, *),
    arithmetic!("f32.div", 0x95, f32, /),
    arithmetic!("f64.add", 0xA0, f64, +),
    arithmetic!("f64.sub", 0xA1, f64, -),
    arithmetic!("f64.mul", 0xA2, f64, *),
    arithmetic!("f64.div", 0xA3, f64, /),
    comparison!("f32.eq", 0x5B, f32, ==),
    comparison!("f32.ne", 0x5C, f32, !=),
    comparison!("f32.lt", 0x5D, f32, <),
    comparison!("f32.gt", 0x5E, f32, >),
    comparison!("f32.le", 0x5F, f32, <=),
    comparison!("f32.ge", 0x60, f32, >=),
    comparison!("f64.eq", 0x61, f64, ==),
    comparison!("f64.ne", 0x62, f64, !=),
    comparison!("f64.lt", 0x63, f64, <),
    comparison!("f64.gt", 0x64, f64, >),
    comparison!("f64.le", 0x65, f64, <=),
    comparison!("f64.ge", 0x66, f64, >=),
    // On the bits, so that a NaN keeps its sign and payload whatever the language does with it.
    Operation {
        name: "f32.neg",
        code: NEG[0],
        format: SINGLE,
        by_processor: |a, _| Value::F32(a as u32 ^ 1 << 31),
    },
    Operation {
        name: "f64.neg",
        code: NEG[1],
        format: DOUBLE,
        by_processor: |a, _| Value::F64(a ^ 1 << 63),
    },
];

fn single(result: f32) -> Value {
    Value::F32(if result.is_nan() { 0x7FC0_0000 } else { result.to_bits() })
}

fn double(result: f64) -> Value {
    Value::F64(if result.is_nan() { 0x7FF8_0000_0000_0000 } else { result.to_bits() })
}

/// The operands, what the loader gives and what the processor gives.
pub struct Difference {
    operation: &'static str,
    operands: (u64, u64),
    loader: Option<Value>,
    processor: Value,
}

impl fmt::Display for Difference {
    fn fmt(&self, to: &mut fmt::Formatter) -> fmt::Result {
        let (left, right) = self.operands;
        let loader = self.loader.map_or("nothing".to_string(), |value| value.to_string());
        let (operation, processor) = (self.operation, self.processor);
        write!(
            to,
            "{operation} of {left:x} and {right:x}: the loader {loader}, the processor {processor}"
        )
    }
}

/// As many results as the operands of a body have room for, with two more to work on.
const AT_A_TIME: usize = 500;

/// V of the papers: a function of nothing.
const SECTION: [u8; 4] = [0x01, 0x60, 0x00, 0x00];

/// More steps than such a body has.
const BUDGET: u64 = 10_000;

/// The operation on so many pairs, edges first; the first difference.
pub fn compare(operation: &Operation, seed: u64, count: usize) -> Result<(), Difference> {
    let mut loader = Loader::new();
    let mut pairs = pairs(seed, operation.format, count);
    loop {
        let some: Vec<(u64, u64)> = pairs.by_ref().take(AT_A_TIME).collect();
        if some.is_empty() {
            return Ok(());
        }
        let results = results(&mut loader, operation, &some);
        for (index, &operands) in some.iter().enumerate() {
            let processor = (operation.by_processor)(operands.0, operands.1);
            let loader = results.get(index).copied();
            if loader != Some(processor) {
                return Err(Difference { operation: operation.name, operands, loader, processor });
            }
        }
    }
}

/// The operands that are there where the body comes to its `unreachable`; none where it does not.
fn results(loader: &mut Loader, operation: &Operation, pairs: &[(u64, u64)]) -> Vec<Value> {
    let mut body = vec![0x00];
    for &(left, right) in pairs {
        constant(&mut body, operation.format, left);
        if !NEG.contains(&operation.code) {
            constant(&mut body, operation.format, right);
        }
        body.push(operation.code);
    }
    body.extend([0x00, 0x0B]);
    match loader.try_run(EMPTY_LIBRARY, &SECTION, &body, 0, BUDGET) {
        Ok(run) if matches!(run.ended, Ended::Trap { number: 41, .. }) => run.state.operands(),
        _ => Vec::new(),
    }
}

fn constant(to: &mut Vec<u8>, format: Format, bits: u64) {
    if format == SINGLE {
        to.push(0x43);
        to.extend((bits as u32).to_le_bytes());
    } else {
        to.push(0x44);
        to.extend(bits.to_le_bytes());
    }
}
