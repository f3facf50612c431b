//! Request 10 of document 02: 32 at a number's first byte where it has more bytes than it
//! needs. The answers are worked out by hand from the papers.

mod common;

use common::{body, outcome, run, section, times, type_bytes, V};

const TO_F32: &str = "01 60 00 01 7D";
const TO_I32: &str = "01 60 00 01 7F";
const TO_I64: &str = "01 60 00 01 7E";

/// 0 a struct, 1 a function of nothing.
const STRUCT: &str = "02 5F 00 60 00 00";

/// 0 a struct of a mutable i32, 1 a function of nothing.
const FIELD: &str = "02 5F 01 7F 01 60 00 00";

#[test]
fn before_3() {
    assert_eq!(section("01 5F 01 63 F0 7F 00"), "no 32 4");
    assert_eq!(body(V, 0, "00 FB 90 00 0B"), "no 32 2");
    // -65 and 768 need their two bytes.
    assert_eq!(section("01 5F 01 63 BF 7F 00"), "no 3 4");
    assert_eq!(body(V, 0, "00 FB 80 06 0B"), "no 3 2");
    // -64 is 40 alone, and 40 is no heap type.
    assert_eq!(section("01 5F 01 63 C0 7F 00"), "no 32 4");
    assert_eq!(section("01 5F 01 63 40 00"), "no 3 4");
    // E2 7F is a padded -30 and no 62.
    assert_eq!(section("01 5F 01 63 E2 7F 00"), "no 32 4");
}

#[test]
fn before_what_the_number_says() {
    // 257 locals are 4, at the entry's first byte, which is the number's.
    assert_eq!(body(V, 0, "01 81 82 00 7F 0B"), "no 32 1");
    assert_eq!(body(V, 0, "01 81 02 7F 0B"), "no 4 1");
    // 6 of a heap type, of a type number, of an entry's type.
    assert_eq!(section("01 5F 01 63 89 00 00"), "no 32 4");
    assert_eq!(section("01 5F 01 63 09 00"), "no 6 0");
    assert_eq!(body(V, 0, "00 D0 89 00 1A 0B"), "no 32 2");
    assert_eq!(body(V, 0, "00 D0 09 1A 0B"), "no 6 1");
    assert_eq!(body(V, 0, "00 FB 00 89 00 1A 0B"), "no 32 3");
    assert_eq!(body(V, 0, "00 FB 00 09 1A 0B"), "no 6 1");
    assert_eq!(body(V, 0, "01 01 63 89 00 0B"), "no 32 3");
    assert_eq!(body(V, 0, "01 01 63 09 0B"), "no 6 1");
    // 7 and 10: a supertype and a described type that are not earlier.
    assert_eq!(section("01 50 01 80 00 5F 00"), "no 32 3");
    assert_eq!(section("01 50 01 00 5F 00"), "no 7 0");
    assert_eq!(section("01 4C 80 00 5F 00"), "no 32 2");
    assert_eq!(section("01 4C 00 5F 00"), "no 10 0");
    // 21 of a label and of a local, 23 of a field.
    assert_eq!(body(V, 0, "00 0C 89 00 0B"), "no 32 2");
    assert_eq!(body(V, 0, "00 0C 09 0B"), "no 21 1");
    assert_eq!(body(V, 0, "00 20 89 00 1A 0B"), "no 32 2");
    assert_eq!(body(V, 0, "00 20 09 1A 0B"), "no 21 1");
    assert_eq!(body(FIELD, 1, "00 D0 00 FB 02 00 81 00 1A 0B"), "no 32 6");
    assert_eq!(body(FIELD, 1, "00 D0 00 FB 02 00 01 1A 0B"), "no 23 3");
    // A count that more entries would follow than there is room for, or that nothing follows.
    assert_eq!(section("01 5F C1 00 7F 00"), "no 32 2");
    assert_eq!(section("01 5F C1 80 00"), "no 32 2");
    assert_eq!(section("81 00"), "no 32 0");
    assert_eq!(section("01"), "no 1 1");
    // After 1,024 types: the count of a group comes before the types that are too many.
    let full = format!("81 08 {}", times(1_024, "5F 00"));
    assert_eq!(section(&format!("{full} 4E 81 00")), "no 32 2051");
    assert_eq!(section(&format!("{full} 4E 80 00")), "no 32 2051");
    assert_eq!(section(&format!("{full} 4E 01")), "no 4 2052");
}

#[test]
fn after_1_and_2() {
    assert_eq!(section("80"), "no 1 0");
    assert_eq!(section("80 80 80 80 10"), "no 2 0");
    assert_eq!(section("80 80 80 80 80 00"), "no 2 0");
    assert_eq!(section("80 00"), "no 32 0");
    // Every length of a padded 0, and one byte too many.
    for padding in 1..=4 {
        assert_eq!(section(&format!("{} 00", times(padding, "80"))), "no 32 0");
        assert_eq!(section(&times(padding, "80")), "no 1 0");
    }
    // Signed ones: 33 bits and 32, cut, out of range and padded.
    assert_eq!(section("01 5F 01 63 80 80 80 80 60 00"), "no 2 4");
    assert_eq!(section("01 5F 01 63 80 80 80 80 00 00"), "no 32 4");
    assert_eq!(section("01 5F 01 63 FF FF FF FF 7F 00"), "no 32 4");
    assert_eq!(section("01 5F 01 63 80 80"), "no 1 4");
    assert_eq!(body(V, 0, "00 41 FF FF FF FF 77 1A 0B"), "no 2 2");
    assert_eq!(body(V, 0, "00 41 FF FF FF FF 7F 1A 0B"), "no 32 2");
    assert_eq!(body(V, 0, "00 41 FF FF FF FF FF 7F 1A 0B"), "no 2 2");
    assert_eq!(body(V, 0, "00 41 FF"), "no 1 2");
    // 64 bits: of the tenth byte 01 is out of range, 00 and 7F are padding or needed.
    assert_eq!(body(TO_I64, 0, &format!("00 42 {} 01 0B", times(9, "80"))), "no 2 2");
    assert_eq!(body(TO_I64, 0, &format!("00 42 {} 00 0B", times(9, "80"))), "no 32 2");
    assert_eq!(body(TO_I64, 0, &format!("00 42 {} 7F 0B", times(9, "80"))), "yes 2");
    assert_eq!(body(TO_I64, 0, &format!("00 42 {} 7F 0B", times(9, "FF"))), "no 32 2");
    assert_eq!(body(TO_I64, 0, &format!("00 42 {} 00 0B", times(9, "FF"))), "yes 2");
    assert_eq!(body(TO_I64, 0, &format!("00 42 {}", times(9, "80"))), "no 1 2");
}

/// Code bytes, cast flags, mutability and a float's bytes.
#[test]
fn what_is_no_number() {
    assert_eq!(outcome(&run(TO_F32, 0, "00 43 80 80 80 00 0B", 9)), "done 2 [f32:00808080]");
    let double = run("01 60 00 01 7C", 0, "00 44 80 80 80 80 80 80 80 00 0B", 9);
    assert_eq!(outcome(&double), "done 2 [f64:0080808080808080]");
    // Mutability 80 00 and flags 80 00: 3 at the byte.
    assert_eq!(section("01 5F 01 7F 80 00"), "no 3 4");
    assert_eq!(body("01 60 00 01 6E", 0, "00 D0 6E FB 18 83 00 00 6E 6E 0B"), "no 3 5");
    // A block's 40, a form, an instruction.
    assert_eq!(body(V, 0, "00 02 C0 00 0B 0B"), "no 3 2");
    assert_eq!(section("01 DF 00 00"), "no 3 1");
    assert_eq!(body(V, 0, "00 81 00 0B"), "no 20 1");
    assert_eq!(body(V, 0, "00 FF 00 0B"), "no 3 1");
}

#[test]
fn signed_numbers() {
    assert_eq!(body(V, 0, "00 41 FF 00 1A 0B"), "yes 3");
    assert_eq!(body(V, 0, "00 41 80 7F 1A 0B"), "yes 3");
    assert_eq!(body(V, 0, "00 41 FF 7F 1A 0B"), "no 32 2");
    assert_eq!(body(V, 0, "00 41 80 00 1A 0B"), "no 32 2");
    // Type 64 as a heap type needs two bytes, 63 one; both are out of reach.
    assert_eq!(section("01 5F 01 63 C0 00 00"), "no 6 0");
    assert_eq!(section("01 5F 01 63 BF 00 00"), "no 32 4");
    // As a number without a sign 64 needs one.
    assert_eq!(section("01 5F 01 63 62 C0 00 00"), "no 32 5");
    assert_eq!(section("01 5F 01 63 62 40 00"), "no 6 0");
}

/// Where one more byte is needed, on both sides and of both signs.
#[test]
fn edges_of_signed_numbers() {
    let i32 = |number: &str| outcome(&run(TO_I32, 0, &format!("00 41 {number} 0B"), 9));
    let i64 = |number: &str| outcome(&run(TO_I64, 0, &format!("00 42 {number} 0B"), 9));
    let edges = [
        ("3F", 63),
        ("C0 00", 64),
        ("FF 00", 127),
        ("80 01", 128),
        ("40", -64),
        ("BF 7F", -65),
        ("81 7F", -127),
        ("80 7F", -128),
        ("FF 7E", -129),
        ("FF 3F", 8191),
        ("80 C0 00", 8192),
        ("80 40", -8192),
        ("FF BF 7F", -8193),
        ("FF FF 3F", 1_048_575),
        ("80 80 C0 00", 1_048_576),
        ("80 80 40", -1_048_576),
        ("FF FF BF 7F", -1_048_577),
        ("FF FF FF 3F", 134_217_727),
        ("80 80 80 C0 00", 134_217_728),
        ("80 80 80 40", -134_217_728),
        ("FF FF FF BF 7F", -134_217_729),
        ("FF FF FF FF 07", i64::from(i32::MAX)),
        ("80 80 80 80 78", i64::from(i32::MIN)),
    ];
    for (bytes, number) in edges {
        assert_eq!(i32(bytes), format!("done 2 [i32:{number}]"));
        assert_eq!(i64(bytes), format!("done 2 [i64:{number}]"));
    }
    for padded in ["BF 00", "C0 7F", "FF BF 00", "80 C0 7F", "FF FF BF 00", "80 80 C0 7F"] {
        assert_eq!([i32(padded), i64(padded)], ["no 32 2", "no 32 2"], "{padded}");
    }
    for padded in ["FF FF FF BF 00", "80 80 80 C0 7F", "80 81 80 00", "FF FE FF 7F"] {
        assert_eq!([i32(padded), i64(padded)], ["no 32 2", "no 32 2"], "{padded}");
    }
    // Both ends of 32 bits in six bytes: too long for one, padded for the other.
    for padded in ["FF FF FF FF 87 00", "80 80 80 80 F8 7F"] {
        assert_eq!([i32(padded), i64(padded)], ["no 2 2", "no 32 2"], "{padded}");
    }
}

/// i64.const at each length from two to ten: padding of 0 and of -1, and the numbers beside
/// them that need all their bytes.
#[test]
fn each_length_of_64_bits() {
    let i64 = |number: String| outcome(&run(TO_I64, 0, &format!("00 42 {number} 0B"), 9));
    for length in 2..=10 {
        let before = length - 1;
        assert_eq!(i64(format!("{} 00", times(before, "80"))), "no 32 2");
        assert_eq!(i64(format!("{} 7F", times(before, "FF"))), "no 32 2");
        let bits = 7 * before as u32;
        let most = (1i128 << bits) - 1;
        assert_eq!(i64(format!("{} 00", times(before, "FF"))), format!("done 2 [i64:{most}]"));
        let least = -(1i128 << bits);
        assert_eq!(i64(format!("{} 7F", times(before, "80"))), format!("done 2 [i64:{least}]"));
    }
}

#[test]
fn later_and_earlier_faults() {
    // An earlier instruction's rule fault, and its byte fault.
    assert_eq!(body(V, 0, "00 1A 41 80 00 0B"), "no 20 1");
    assert_eq!(body(V, 0, "00 05 41 80 00 0B"), "no 3 1");
    assert_eq!(body(V, 0, "00 20 00 41 80 00 0B"), "no 21 1");
    // A later one's.
    assert_eq!(body(V, 0, "00 41 80 00 1A 1A 0B"), "no 32 2");
    assert_eq!(body(V, 0, "00 41 80 00 05"), "no 32 2");
    // Of one instruction: the first padded number, and a padded one before or behind another
    // byte fault.
    assert_eq!(body(FIELD, 1, "00 D0 00 FB 02 80 00 80 00 1A 0B"), "no 32 5");
    assert_eq!(body(FIELD, 1, "00 D0 00 FB 82 00 80 00 80 00 1A 0B"), "no 32 4");
    assert_eq!(body(FIELD, 1, "00 FB 02 80 80 80 80 10 80 00 1A 0B"), "no 2 3");
    assert_eq!(body(FIELD, 1, "00 FB 02 80 00 80 80 80 80 10 1A 0B"), "no 32 3");
    // A type out of reach before a padded field: the immediates come first.
    assert_eq!(body(FIELD, 1, "00 FB 02 09 80 00 1A 0B"), "no 32 4");
    // Flags that are not listed, then a padded label.
    assert_eq!(body("01 60 00 01 6E", 0, "00 D0 6E FB 18 04 80 00 6E 6E 0B"), "no 3 5");
    // The section's padding before the body's; a rule of the section before the body's.
    assert_eq!(body("81 00 60 00 00", 0, "80 00 0B"), "no 32 0");
    assert_eq!(body("01 4C 00 60 00 00", 0, "80 00 0B"), "no 9 0");
    // A section's padding is a byte fault: before every rule, of earlier types too.
    assert_eq!(section("02 4C 00 60 00 00 5F 80 00"), "no 32 7");
    assert_eq!(section("02 4C 00 60 00 00 5F 00"), "no 9 0");
    // 27 before the locals, the whole size before all.
    assert_eq!(body(STRUCT, 0, "80 00 0B"), "no 27 0");
    assert_eq!(section(&format!("80 00 {}", times(32_767, "00"))), "no 4 0");
    assert_eq!(section(&format!("80 00 {}", times(32_766, "00"))), "no 32 0");
    // An earlier entry's 6 and 4 before a later one's padding.
    assert_eq!(body(V, 0, "02 01 63 09 81 00 7F 0B"), "no 6 1");
    assert_eq!(body(V, 0, "02 81 02 7F 81 00 7F 0B"), "no 4 1");
    assert_eq!(body(V, 0, "02 81 00 7F 01 63 09 0B"), "no 32 1");
    // 5 comes last.
    assert_eq!(section("80 00 00"), "no 32 0");
    assert_eq!(body(V, 0, "00 0B 41 80 00"), "no 5 2");
}

#[test]
fn other_calls() {
    assert_eq!(type_bytes("01 5F 80 00", 0), "no 32 2");
    assert_eq!(type_bytes("01 5F 80 00", 9), "no 32 2");
    // A run: before its budget and its parameters.
    assert_eq!(run(V, 0, "00 41 80 00 1A 0B", 9), "no 32 2");
    assert_eq!(run(V, 0, "00 41 80 00 1A 0B", 1_000_001), "no 32 2");
    assert_eq!(run("02 5F 00 60 01 64 00 00", 1, "80 00 0B", 9), "no 32 0");
}
