//! The operations that a trial run does on numbers.
//!
//! The operands carry their kinds, and a checked body has the right ones.

use crate::float::{Format, DOUBLE, SINGLE};
use crate::state::Value;
use std::cmp::Ordering;

/// The result on the operands, the top one last. None for an operation that is not done.
pub fn computed(operation: &str, operands: &[Value]) -> Option<Value> {
    match *operands {
        [Value::I32(number)] => (operation == "eqz").then(|| truth(number == 0)),
        [Value::I64(number)] => (operation == "eqz").then(|| truth(number == 0)),
        [Value::F32(bits)] => (operation == "neg").then(|| single(SINGLE.neg(u64::from(bits)))),
        [Value::F64(bits)] => (operation == "neg").then(|| Value::F64(DOUBLE.neg(bits))),
        [Value::I32(left), Value::I32(right)] => match operation {
            "add" => Some(Value::I32(left.wrapping_add(right))),
            "sub" => Some(Value::I32(left.wrapping_sub(right))),
            _ => compared(operation, left.cmp(&right), (left as u32).cmp(&(right as u32))),
        },
        [Value::I64(left), Value::I64(right)] => match operation {
            "add" => Some(Value::I64(left.wrapping_add(right))),
            "sub" => Some(Value::I64(left.wrapping_sub(right))),
            _ => compared(operation, left.cmp(&right), (left as u64).cmp(&(right as u64))),
        },
        [Value::F32(left), Value::F32(right)] => {
            on_floats(SINGLE, operation, u64::from(left), u64::from(right), single)
        }
        [Value::F64(left), Value::F64(right)] => {
            on_floats(DOUBLE, operation, left, right, Value::F64)
        }
        _ => None,
    }
}

fn truth(truth: bool) -> Value {
    Value::I32(i32::from(truth))
}

/// The pattern of a 32-bit float, which fits.
fn single(bits: u64) -> Value {
    Value::F32(bits as u32)
}

fn compared(operation: &str, signed: Ordering, unsigned: Ordering) -> Option<Value> {
    let holds = match operation {
        "eq" => signed.is_eq(),
        "ne" => signed.is_ne(),
        "lt_s" => signed.is_lt(),
        "lt_u" => unsigned.is_lt(),
        "gt_s" => signed.is_gt(),
        "gt_u" => unsigned.is_gt(),
        "le_s" => signed.is_le(),
        "le_u" => unsigned.is_le(),
        "ge_s" => signed.is_ge(),
        "ge_u" => unsigned.is_ge(),
        _ => return None,
    };
    Some(truth(holds))
}

fn on_floats(
    format: Format,
    operation: &str,
    left: u64,
    right: u64,
    value: fn(u64) -> Value,
) -> Option<Value> {
    Some(match operation {
        "add" => value(format.add(left, right)),
        "sub" => value(format.sub(left, right)),
        "mul" => value(format.mul(left, right)),
        "div" => value(format.div(left, right)),
        _ => truth(float_holds(operation, format.compare(left, right))?),
    })
}

/// Where a NaN stands, no order holds and only ne does.
fn float_holds(operation: &str, order: Option<Ordering>) -> Option<bool> {
    Some(match operation {
        "eq" => order.is_some_and(Ordering::is_eq),
        "ne" => order.is_none_or(Ordering::is_ne),
        "lt" => order.is_some_and(Ordering::is_lt),
        "gt" => order.is_some_and(Ordering::is_gt),
        "le" => order.is_some_and(Ordering::is_le),
        "ge" => order.is_some_and(Ordering::is_ge),
        _ => return None,
    })
}
