//! What WebAssembly has and the loader does not accept: names for the bytes that a refusal met, as the core standard 3.0 has them.

/// First bytes of instructions, with those of the older form of exceptions and of atomic memory.
pub const INSTRUCTIONS: [(u8, &str); 54] = [
    (0x04, "if"),
    (0x05, "else"),
    (0x06, "try"),
    (0x07, "catch"),
    (0x08, "throw"),
    (0x09, "rethrow"),
    (0x0A, "throw_ref"),
    (0x0E, "br_table"),
    (0x10, "call"),
    (0x11, "call_indirect"),
    (0x12, "return_call"),
    (0x13, "return_call_indirect"),
    (0x14, "call_ref"),
    (0x15, "return_call_ref"),
    (0x18, "delegate"),
    (0x19, "catch_all"),
    (0x1B, "select"),
    (0x1C, "select (result ..)"),
    (0x1F, "try_table"),
    (0x23, "global.get"),
    (0x24, "global.set"),
    (0x25, "table.get"),
    (0x26, "table.set"),
    (0x28, "i32.load"),
    (0x29, "i64.load"),
    (0x2A, "f32.load"),
    (0x2B, "f64.load"),
    (0x2C, "i32.load8_s"),
    (0x2D, "i32.load8_u"),
    (0x2E, "i32.load16_s"),
    (0x2F, "i32.load16_u"),
    (0x30, "i64.load8_s"),
    (0x31, "i64.load8_u"),
    (0x32, "i64.load16_s"),
    (0x33, "i64.load16_u"),
    (0x34, "i64.load32_s"),
    (0x35, "i64.load32_u"),
    (0x36, "i32.store"),
    (0x37, "i64.store"),
    (0x38, "f32.store"),
    (0x39, "f64.store"),
    (0x3A, "i32.store8"),
    (0x3B, "i32.store16"),
    (0x3C, "i64.store8"),
    (0x3D, "i64.store16"),
    (0x3E, "i64.store32"),
    (0x3F, "memory.size"),
    (0x40, "memory.grow"),
    (0xD2, "ref.func"),
    (0xD5, "br_on_null"),
    (0xD6, "br_on_non_null"),
    (0xFC, "the first byte of conversions that saturate, and of memory and table instructions"),
    (0xFD, "the first byte of vector instructions"),
    (0xFE, "the first byte of atomic instructions"),
];

/// Numbers behind FB.
pub const AFTER_FB: [(u32, &str); 21] = [
    (0x03, "struct.get_s"),
    (0x04, "struct.get_u"),
    (0x06, "array.new"),
    (0x07, "array.new_default"),
    (0x08, "array.new_fixed"),
    (0x09, "array.new_data"),
    (0x0A, "array.new_elem"),
    (0x0B, "array.get"),
    (0x0C, "array.get_s"),
    (0x0D, "array.get_u"),
    (0x0E, "array.set"),
    (0x0F, "array.len"),
    (0x10, "array.fill"),
    (0x11, "array.copy"),
    (0x12, "array.init_data"),
    (0x13, "array.init_elem"),
    (0x1A, "any.convert_extern"),
    (0x1B, "extern.convert_any"),
    (0x1C, "ref.i31"),
    (0x1D, "i31.get_s"),
    (0x1E, "i31.get_u"),
];

/// Numbers behind FC.
pub const AFTER_FC: [(u8, &str); 18] = [
    (0x00, "i32.trunc_sat_f32_s"),
    (0x01, "i32.trunc_sat_f32_u"),
    (0x02, "i32.trunc_sat_f64_s"),
    (0x03, "i32.trunc_sat_f64_u"),
    (0x04, "i64.trunc_sat_f32_s"),
    (0x05, "i64.trunc_sat_f32_u"),
    (0x06, "i64.trunc_sat_f64_s"),
    (0x07, "i64.trunc_sat_f64_u"),
    (0x08, "memory.init"),
    (0x09, "data.drop"),
    (0x0A, "memory.copy"),
    (0x0B, "memory.fill"),
    (0x0C, "table.init"),
    (0x0D, "elem.drop"),
    (0x0E, "table.copy"),
    (0x0F, "table.grow"),
    (0x10, "table.size"),
    (0x11, "table.fill"),
];

/// Value types, packed ones of fields among them.
pub const VALUES: [(u8, &str); 5] =
    [(0x7B, "v128"), (0x78, "i8"), (0x77, "i16"), (0x74, "nullexnref"), (0x69, "exnref")];

/// Abstract heap types.
pub const HEAPS: [(u8, &str); 2] = [(0x74, "noexn"), (0x69, "exn")];

/// Forms of a definition.
pub const FORMS: [(u8, &str); 1] = [(0x5E, "array")];

/// The sections of a module but for the type section: numbers and names.
pub const SECTIONS: [(u8, &str); 13] = [
    (0, "custom"),
    (2, "import"),
    (3, "function"),
    (4, "table"),
    (5, "memory"),
    (6, "global"),
    (7, "export"),
    (8, "start"),
    (9, "element"),
    (10, "code"),
    (11, "data"),
    (12, "data count"),
    (13, "tag"),
];

/// "10 is call, which is not accepted yet"
pub fn not_yet(met: impl std::fmt::Display, name: &str) -> String {
    format!("{met} is {name}, which is not accepted yet")
}

pub fn name<C: Copy + PartialEq>(of: &[(C, &'static str)], code: C) -> Option<&'static str> {
    of.iter().find(|row| row.0 == code).map(|row| row.1)
}
