//! The numeric codes 45 to C4: names, operand kinds and result kinds of the core
//! standard, one row for each, in the order of its table of codes.

use crate::syntax::ValueType::{self, F32, F64, I32, I64};

pub struct Row {
    pub code: u8,
    pub name: &'static str,
    pub operands: &'static [ValueType],
    pub result: ValueType,
}

/// The first row's code; every later code has the next row.
const FIRST: u8 = 0x45;

const ONE_I32: [ValueType; 1] = [I32];
const TWO_I32: [ValueType; 2] = [I32, I32];
const ONE_I64: [ValueType; 1] = [I64];
const TWO_I64: [ValueType; 2] = [I64, I64];
const ONE_F32: [ValueType; 1] = [F32];
const TWO_F32: [ValueType; 2] = [F32, F32];
const ONE_F64: [ValueType; 1] = [F64];
const TWO_F64: [ValueType; 2] = [F64, F64];

const fn row(
    code: u8,
    name: &'static str,
    operands: &'static [ValueType],
    result: ValueType,
) -> Row {
    Row { code, name, operands, result }
}

/// None for a code that is no numeric one.
pub fn row_of_code(code: u8) -> Option<&'static Row> {
    TABLE.get(usize::from(code.checked_sub(FIRST)?))
}

impl Row {
    /// The name without the kind before its dot.
    pub fn operation(&self) -> &'static str {
        self.name.split_once('.').map_or("", |(_, operation)| operation)
    }
}

pub static TABLE: [Row; 128] = [
    row(0x45, "i32.eqz", &ONE_I32, I32),
    row(0x46, "i32.eq", &TWO_I32, I32),
    row(0x47, "i32.ne", &TWO_I32, I32),
    row(0x48, "i32.lt_s", &TWO_I32, I32),
    row(0x49, "i32.lt_u", &TWO_I32, I32),
    row(0x4A, "i32.gt_s", &TWO_I32, I32),
    row(0x4B, "i32.gt_u", &TWO_I32, I32),
    row(0x4C, "i32.le_s", &TWO_I32, I32),
    row(0x4D, "i32.le_u", &TWO_I32, I32),
    row(0x4E, "i32.ge_s", &TWO_I32, I32),
    row(0x4F, "i32.ge_u", &TWO_I32, I32),
    row(0x50, "i64.eqz", &ONE_I64, I32),
    row(0x51, "i64.eq", &TWO_I64, I32),
    row(0x52, "i64.ne", &TWO_I64, I32),
    row(0x53, "i64.lt_s", &TWO_I64, I32),
    row(0x54, "i64.lt_u", &TWO_I64, I32),
    row(0x55, "i64.gt_s", &TWO_I64, I32),
    row(0x56, "i64.gt_u", &TWO_I64, I32),
    row(0x57, "i64.le_s", &TWO_I64, I32),
    row(0x58, "i64.le_u", &TWO_I64, I32),
    row(0x59, "i64.ge_s", &TWO_I64, I32),
    row(0x5A, "i64.ge_u", &TWO_I64, I32),
    row(0x5B, "f32.eq", &TWO_F32, I32),
    row(0x5C, "f32.ne", &TWO_F32, I32),
    row(0x5D, "f32.lt", &TWO_F32, I32),
    row(0x5E, "f32.gt", &TWO_F32, I32),
    row(0x5F, "f32.le", &TWO_F32, I32),
    row(0x60, "f32.ge", &TWO_F32, I32),
    row(0x61, "f64.eq", &TWO_F64, I32),
    row(0x62, "f64.ne", &TWO_F64, I32),
    row(0x63, "f64.lt", &TWO_F64, I32),
    row(0x64, "f64.gt", &TWO_F64, I32),
    row(0x65, "f64.le", &TWO_F64, I32),
    row(0x66, "f64.ge", &TWO_F64, I32),
    row(0x67, "i32.clz", &ONE_I32, I32),
    row(0x68, "i32.ctz", &ONE_I32, I32),
    row(0x69, "i32.popcnt", &ONE_I32, I32),
    row(0x6A, "i32.add", &TWO_I32, I32),
    row(0x6B, "i32.sub", &TWO_I32, I32),
    row(0x6C, "i32.mul", &TWO_I32, I32),
    row(0x6D, "i32.div_s", &TWO_I32, I32),
    row(0x6E, "i32.div_u", &TWO_I32, I32),
    row(0x6F, "i32.rem_s", &TWO_I32, I32),
    row(0x70, "i32.rem_u", &TWO_I32, I32),
    row(0x71, "i32.and", &TWO_I32, I32),
    row(0x72, "i32.or", &TWO_I32, I32),
    row(0x73, "i32.xor", &TWO_I32, I32),
    row(0x74, "i32.shl", &TWO_I32, I32),
    row(0x75, "i32.shr_s", &TWO_I32, I32),
    row(0x76, "i32.shr_u", &TWO_I32, I32),
    row(0x77, "i32.rotl", &TWO_I32, I32),
    row(0x78, "i32.rotr", &TWO_I32, I32),
    row(0x79, "i64.clz", &ONE_I64, I64),
    row(0x7A, "i64.ctz", &ONE_I64, I64),
    row(0x7B, "i64.popcnt", &ONE_I64, I64),
    row(0x7C, "i64.add", &TWO_I64, I64),
    row(0x7D, "i64.sub", &TWO_I64, I64),
    row(0x7E, "i64.mul", &TWO_I64, I64),
    row(0x7F, "i64.div_s", &TWO_I64, I64),
    row(0x80, "i64.div_u", &TWO_I64, I64),
    row(0x81, "i64.rem_s", &TWO_I64, I64),
    row(0x82, "i64.rem_u", &TWO_I64, I64),
    row(0x83, "i64.and", &TWO_I64, I64),
    row(0x84, "i64.or", &TWO_I64, I64),
    row(0x85, "i64.xor", &TWO_I64, I64),
    row(0x86, "i64.shl", &TWO_I64, I64),
    row(0x87, "i64.shr_s", &TWO_I64, I64),
    row(0x88, "i64.shr_u", &TWO_I64, I64),
    row(0x89, "i64.rotl", &TWO_I64, I64),
    row(0x8A, "i64.rotr", &TWO_I64, I64),
    row(0x8B, "f32.abs", &ONE_F32, F32),
    row(0x8C, "f32.neg", &ONE_F32, F32),
    row(0x8D, "f32.ceil", &ONE_F32, F32),
    row(0x8E, "f32.floor", &ONE_F32, F32),
    row(0x8F, "f32.trunc", &ONE_F32, F32),
    row(0x90, "f32.nearest", &ONE_F32, F32),
    row(0x91, "f32.sqrt", &ONE_F32, F32),
    row(0x92, "f32.add", &TWO_F32, F32),
    row(0x93, "f32.sub", &TWO_F32, F32),
    row(0x94, "f32.mul", &TWO_F32, F32),
    row(0x95, "f32.div", &TWO_F32, F32),
    row(0x96, "f32.min", &TWO_F32, F32),
    row(0x97, "f32.max", &TWO_F32, F32),
    row(0x98, "f32.copysign", &TWO_F32, F32),
    row(0x99, "f64.abs", &ONE_F64, F64),
    row(0x9A, "f64.neg", &ONE_F64, F64),
    row(0x9B, "f64.ceil", &ONE_F64, F64),
    row(0x9C, "f64.floor", &ONE_F64, F64),
    row(0x9D, "f64.trunc", &ONE_F64, F64),
    row(0x9E, "f64.nearest", &ONE_F64, F64),
    row(0x9F, "f64.sqrt", &ONE_F64, F64),
    row(0xA0, "f64.add", &TWO_F64, F64),
    row(0xA1, "f64.sub", &TWO_F64, F64),
    row(0xA2, "f64.mul", &TWO_F64, F64),
    row(0xA3, "f64.div", &TWO_F64, F64),
    row(0xA4, "f64.min", &TWO_F64, F64),
    row(0xA5, "f64.max", &TWO_F64, F64),
    row(0xA6, "f64.copysign", &TWO_F64, F64),
    row(0xA7, "i32.wrap_i64", &ONE_I64, I32),
    row(0xA8, "i32.trunc_f32_s", &ONE_F32, I32),
    row(0xA9, "i32.trunc_f32_u", &ONE_F32, I32),
    row(0xAA, "i32.trunc_f64_s", &ONE_F64, I32),
    row(0xAB, "i32.trunc_f64_u", &ONE_F64, I32),
    row(0xAC, "i64.extend_i32_s", &ONE_I32, I64),
    row(0xAD, "i64.extend_i32_u", &ONE_I32, I64),
    row(0xAE, "i64.trunc_f32_s", &ONE_F32, I64),
    row(0xAF, "i64.trunc_f32_u", &ONE_F32, I64),
    row(0xB0, "i64.trunc_f64_s", &ONE_F64, I64),
    row(0xB1, "i64.trunc_f64_u", &ONE_F64, I64),
    row(0xB2, "f32.convert_i32_s", &ONE_I32, F32),
    row(0xB3, "f32.convert_i32_u", &ONE_I32, F32),
    row(0xB4, "f32.convert_i64_s", &ONE_I64, F32),
    row(0xB5, "f32.convert_i64_u", &ONE_I64, F32),
    row(0xB6, "f32.demote_f64", &ONE_F64, F32),
    row(0xB7, "f64.convert_i32_s", &ONE_I32, F64),
    row(0xB8, "f64.convert_i32_u", &ONE_I32, F64),
    row(0xB9, "f64.convert_i64_s", &ONE_I64, F64),
    row(0xBA, "f64.convert_i64_u", &ONE_I64, F64),
    row(0xBB, "f64.promote_f32", &ONE_F32, F64),
    row(0xBC, "i32.reinterpret_f32", &ONE_F32, I32),
    row(0xBD, "i64.reinterpret_f64", &ONE_F64, I64),
    row(0xBE, "f32.reinterpret_i32", &ONE_I32, F32),
    row(0xBF, "f64.reinterpret_i64", &ONE_I64, F64),
    row(0xC0, "i32.extend8_s", &ONE_I32, I32),
    row(0xC1, "i32.extend16_s", &ONE_I32, I32),
    row(0xC2, "i64.extend8_s", &ONE_I64, I64),
    row(0xC3, "i64.extend16_s", &ONE_I64, I64),
    row(0xC4, "i64.extend32_s", &ONE_I64, I64),
];
