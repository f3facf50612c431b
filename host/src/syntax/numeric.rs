//! The numeric codes 45 to C4 by the core standard's names, which say what each takes and gives.

use super::{ValueType, NUMBERS};

/// One of the codes.
#[derive(Clone, Copy, Debug, PartialEq, Eq)]
pub struct Numeric(u8);

const FIRST: u8 = 0x45;

/// From the first code on.
const NAMES: [&str; 128] = [
    "i32.eqz",
    "i32.eq",
    "i32.ne",
    "i32.lt_s",
    "i32.lt_u",
    "i32.gt_s",
    "i32.gt_u",
    "i32.le_s",
    "i32.le_u",
    "i32.ge_s",
    "i32.ge_u",
    "i64.eqz",
    "i64.eq",
    "i64.ne",
    "i64.lt_s",
    "i64.lt_u",
    "i64.gt_s",
    "i64.gt_u",
    "i64.le_s",
    "i64.le_u",
    "i64.ge_s",
    "i64.ge_u",
    "f32.eq",
    "f32.ne",
    "f32.lt",
    "f32.gt",
    "f32.le",
    "f32.ge",
    "f64.eq",
    "f64.ne",
    "f64.lt",
    "f64.gt",
    "f64.le",
    "f64.ge",
    "i32.clz",
    "i32.ctz",
    "i32.popcnt",
    "i32.add",
    "i32.sub",
    "i32.mul",
    "i32.div_s",
    "i32.div_u",
    "i32.rem_s",
    "i32.rem_u",
    "i32.and",
    "i32.or",
    "i32.xor",
    "i32.shl",
    "i32.shr_s",
    "i32.shr_u",
    "i32.rotl",
    "i32.rotr",
    "i64.clz",
    "i64.ctz",
    "i64.popcnt",
    "i64.add",
    "i64.sub",
    "i64.mul",
    "i64.div_s",
    "i64.div_u",
    "i64.rem_s",
    "i64.rem_u",
    "i64.and",
    "i64.or",
    "i64.xor",
    "i64.shl",
    "i64.shr_s",
    "i64.shr_u",
    "i64.rotl",
    "i64.rotr",
    "f32.abs",
    "f32.neg",
    "f32.ceil",
    "f32.floor",
    "f32.trunc",
    "f32.nearest",
    "f32.sqrt",
    "f32.add",
    "f32.sub",
    "f32.mul",
    "f32.div",
    "f32.min",
    "f32.max",
    "f32.copysign",
    "f64.abs",
    "f64.neg",
    "f64.ceil",
    "f64.floor",
    "f64.trunc",
    "f64.nearest",
    "f64.sqrt",
    "f64.add",
    "f64.sub",
    "f64.mul",
    "f64.div",
    "f64.min",
    "f64.max",
    "f64.copysign",
    "i32.wrap_i64",
    "i32.trunc_f32_s",
    "i32.trunc_f32_u",
    "i32.trunc_f64_s",
    "i32.trunc_f64_u",
    "i64.extend_i32_s",
    "i64.extend_i32_u",
    "i64.trunc_f32_s",
    "i64.trunc_f32_u",
    "i64.trunc_f64_s",
    "i64.trunc_f64_u",
    "f32.convert_i32_s",
    "f32.convert_i32_u",
    "f32.convert_i64_s",
    "f32.convert_i64_u",
    "f32.demote_f64",
    "f64.convert_i32_s",
    "f64.convert_i32_u",
    "f64.convert_i64_s",
    "f64.convert_i64_u",
    "f64.promote_f32",
    "i32.reinterpret_f32",
    "i64.reinterpret_f64",
    "f32.reinterpret_i32",
    "f64.reinterpret_i64",
    "i32.extend8_s",
    "i32.extend16_s",
    "i64.extend8_s",
    "i64.extend16_s",
    "i64.extend32_s",
];

/// Operations that take one operand; conversions, which name the kind that they take, do too.
const OF_ONE: [&str; 14] = [
    "eqz",
    "clz",
    "ctz",
    "popcnt",
    "abs",
    "neg",
    "ceil",
    "floor",
    "trunc",
    "nearest",
    "sqrt",
    "extend8_s",
    "extend16_s",
    "extend32_s",
];

/// Operations that give a truth, 0 or 1.
const TRUTHS: [&str; 15] = [
    "eqz", "eq", "ne", "lt", "gt", "le", "ge", "lt_s", "lt_u", "gt_s", "gt_u", "le_s", "le_u",
    "ge_s", "ge_u",
];

impl Numeric {
    pub fn of_code(code: u8) -> Option<Numeric> {
        let index = code.checked_sub(FIRST)?;
        (usize::from(index) < NAMES.len()).then_some(Numeric(code))
    }

    pub fn of_name(name: &str) -> Option<Numeric> {
        let index = NAMES.iter().position(|&other| other == name)?;
        Some(Numeric(FIRST + index as u8))
    }

    pub fn code(self) -> u8 {
        self.0
    }

    pub fn name(self) -> &'static str {
        NAMES[usize::from(self.0 - FIRST)]
    }

    /// The kind before the dot, and the operation behind it.
    fn parts(self) -> (ValueType, &'static str) {
        let (kind, operation) = self.name().split_once('.').unwrap_or(("", ""));
        (kind_of(kind).unwrap_or(ValueType::I32), operation)
    }

    /// The kind that a conversion names behind an underscore.
    fn converted(self) -> Option<ValueType> {
        self.parts().1.split('_').find_map(kind_of)
    }

    pub fn operands(self) -> Vec<ValueType> {
        let (kind, operation) = self.parts();
        match self.converted() {
            Some(from) => vec![from],
            None if OF_ONE.contains(&operation) => vec![kind],
            None => vec![kind; 2],
        }
    }

    /// Whether a trial run does it; at any other it traps with 46.
    pub fn is_run(self) -> bool {
        let (kind, operation) = self.parts();
        let of_kind: &[&str] = match kind {
            ValueType::F32 | ValueType::F64 => &["neg", "add", "sub", "mul", "div"],
            _ => &["add", "sub"],
        };
        TRUTHS.contains(&operation) || of_kind.contains(&operation)
    }

    pub fn result(self) -> ValueType {
        let (kind, operation) = self.parts();
        if TRUTHS.contains(&operation) {
            return ValueType::I32;
        }
        kind
    }
}

fn kind_of(name: &str) -> Option<ValueType> {
    NUMBERS.iter().find(|row| row.2 == name).map(|row| row.0)
}

#[cfg(test)]
mod tests {
    use super::*;
    use plain::numeric::row_of_code;

    /// What the names say is what the plain checker's table says.
    #[test]
    fn names_say_the_kinds() {
        for code in 0..=u8::MAX {
            let (own, row) = (Numeric::of_code(code), row_of_code(code));
            assert_eq!(own.is_some(), row.is_some(), "{code:02x}");
            let (Some(own), Some(row)) = (own, row) else { continue };
            assert_eq!((own.code(), own.name()), (code, row.name));
            assert_eq!(Numeric::of_name(row.name), Some(own));
            let told = |kind: ValueType| kind.to_string();
            let plain = |kind: plain::syntax::ValueType| format!("{kind:?}").to_lowercase();
            let operands: Vec<String> = own.operands().into_iter().map(told).collect();
            let wanted: Vec<String> = row.operands.iter().map(|&kind| plain(kind)).collect();
            assert_eq!((operands, told(own.result())), (wanted, plain(row.result)), "{}", row.name);
        }
    }
}
