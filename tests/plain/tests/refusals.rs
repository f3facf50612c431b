//! Hand-made cases for each refusal, at least two each, worked out from document
//! 01; and the order in which one instruction's faults are said.

mod common;
use common::*;

/// A struct with a fixed i32, then a function; a struct, then a function.
const FIXED: &str = "02 5F 01 7F 00 60 00 00";
const EMPTY: &str = "02 5F 00 60 00 00";

#[test]
fn refusal_1() {
    assert_eq!(section("01"), "no 1 1");
    assert_eq!(section("01 5F 01 7F"), "no 1 4");
    assert_eq!(body(V, 0, ""), "no 1 0");
    assert_eq!(body(V, 0, "00"), "no 1 1");
    assert_eq!(body(V, 0, "00 41 80"), "no 1 2");
}

#[test]
fn refusal_2() {
    assert_eq!(section("80 80 80 80 10"), "no 2 0");
    assert_eq!(section("01 50 80 80 80 80 80 00 5F 00"), "no 2 2");
    assert_eq!(body(V, 0, "00 41 80 80 80 80 08 1A 0B"), "no 2 2");
    assert_eq!(body(V, 0, "00 41 FF FF FF FF 77 1A 0B"), "no 2 2");
    // The ends of the range; 0 in as many bytes is padded.
    assert_eq!(body(V, 0, "00 41 FF FF FF FF 07 1A 41 80 80 80 80 78 1A 0B"), "yes 5");
    assert_eq!(section("80 80 80 80 00"), "no 32 0");
}

#[test]
fn refusal_3() {
    assert_eq!(section("01 51"), "no 3 1");
    assert_eq!(section("01 5F 01 7F 02"), "no 3 4");
    assert_eq!(section("01 5F 01 62 00 00"), "no 3 3");
    assert_eq!(section("01 5F 01 63 40 00"), "no 3 4");
    assert_eq!(body(V, 0, "00 05"), "no 3 1");
    assert_eq!(body(V, 0, "00 FB 03"), "no 3 2");
}

#[test]
fn refusal_4_section() {
    assert_eq!(section(&times(32_769, "FF")), "no 4 0");
    assert_eq!(section(&times(32_768, "FF")), "no 2 0");
    let results = format!("01 60 00 41 {}", times(65, "7F"));
    assert_eq!(section(&results), "no 4 68");
    let parameters = format!("01 60 41 {} 00", times(65, "7F"));
    assert_eq!(section(&parameters), "no 4 67");
    let most = format!("01 60 40 {} 40 {}", times(64, "7F"), times(64, "7C"));
    assert_eq!(count_only(&section(&most)), "yes 1");
}

#[test]
fn refusal_4_body() {
    let operands = |count: usize| format!("00 {} 00 0B", times(count, "41 00"));
    assert_eq!(body(V, 0, &operands(512)), "yes 514");
    assert_eq!(body(V, 0, &operands(513)), "no 4 1025");
    assert_eq!(body(V, 0, &times(32_769, "01")), "no 4 0");
    assert_eq!(body("01 60 01 7F 00", 0, "01 FF 01 7F 0B"), "yes 1");
    assert_eq!(body("01 60 01 7F 00", 0, "01 80 02 7F 0B"), "no 4 1");
    assert_eq!(body(V, 0, "01 FF FF FF FF 0F 7F 0B"), "no 4 1");
    assert_eq!(run(V, 0, "00 0B", 1_000_001), "no 4 0");
}

#[test]
fn refusal_5() {
    assert_eq!(section("01 5F 00 00"), "no 5 3");
    assert_eq!(body(V, 0, "00 0B 0B"), "no 5 2");
}

#[test]
fn refusal_6() {
    assert_eq!(section("01 5F 01 63 01 00"), "no 6 0");
    // A type of a later group is out of reach, in the same group it isn't.
    assert_eq!(section("02 5F 01 63 01 00 5F 00"), "no 6 0");
    assert_eq!(count_only(&section("01 4E 02 5F 01 63 01 00 5F 00")), "yes 2");
    assert_eq!(body(V, 0, "00 D0 01 1A 0B"), "no 6 1");
    assert_eq!(body(V, 0, "00 02 63 62 01 0B 0B"), "no 6 1");
}

#[test]
fn refusal_7() {
    assert_eq!(section("02 5F 00 50 01 00 5F 00"), "no 7 1");
    assert_eq!(section("02 50 00 5F 00 50 02 00 00 5F 00"), "no 7 1");
}

#[test]
fn refusal_8() {
    let under = |upper: &str, lower: &str| section(&format!("02 50 00 {upper} 50 01 00 {lower}"));
    assert_eq!(under("5F 01 7F 00", "5F 00"), "no 8 1");
    assert_eq!(under("5F 01 7F 01", "5F 01 7F 00"), "no 8 1");
    assert_eq!(under("5F 01 6E 01", "5F 01 6D 01"), "no 8 1");
    assert_eq!(count_only(&under("5F 01 6E 00", "5F 02 6D 00 7C 01")), "yes 2");
    assert_eq!(under("60 01 6E 00", "60 01 6D 00"), "no 8 1");
    assert_eq!(count_only(&under("60 01 6D 00", "60 01 6E 00")), "yes 2");
    assert_eq!(under("60 00 01 6D", "60 00 01 6E"), "no 8 1");
    assert_eq!(under("60 00 00", "5F 00"), "no 8 1");
    // Exact 0 is not above exact 1, nor above 1; 0 is above both.
    assert_eq!(under("5F 01 63 62 00 00", "5F 01 63 62 01 00"), "no 8 1");
    assert_eq!(count_only(&under("5F 01 63 00 00", "5F 01 64 62 01 00")), "yes 2");
}

#[test]
fn refusal_9() {
    assert_eq!(section("01 4E 02 4D 01 60 00 00 4C 00 5F 00"), "no 9 0");
    assert_eq!(section("01 4D 00 60 00 00"), "no 9 0");
}

#[test]
fn refusal_10() {
    assert_eq!(section("01 4C 00 4D 00 5F 00"), "no 10 0");
    assert_eq!(section("01 4E 03 5F 00 4C 02 5F 00 4D 01 5F 00"), "no 10 1");
}

#[test]
fn refusal_11() {
    assert_eq!(section("01 4E 02 4D 01 5F 00 5F 00"), "no 11 0");
    assert_eq!(section("01 4E 03 4D 01 5F 00 4C 00 5F 00 4C 00 5F 00"), "no 11 2");
}

#[test]
fn refusal_12() {
    // The descriptor has no supertype at all.
    let alone = "01 4E 04 50 00 4D 01 5F 00 50 00 4C 00 5F 00 50 01 00 4D 03 5F 00 4C 02 5F 00";
    assert_eq!(section(alone), "no 12 2");
    // The subtype has no descriptor.
    assert_eq!(section("02 4E 02 50 00 4D 01 5F 00 4C 00 5F 00 50 01 00 5F 00"), "no 12 2");
}

#[test]
fn refusal_13() {
    assert_eq!(section("02 4E 02 50 00 4D 01 5F 00 50 00 4C 00 5F 00 50 01 01 5F 00"), "no 13 2");
    assert_eq!(section("02 50 00 5F 00 4E 02 4D 02 5F 00 50 01 00 4C 01 5F 00"), "no 13 2");
}

#[test]
fn refusal_20() {
    assert_eq!(body(V, 0, "00 1A 0B"), "no 20 1");
    assert_eq!(body("01 60 00 01 7F", 0, "00 D0 6E 0B"), "no 20 3");
    // A non-null reference of unknown heap is below no number type.
    assert_eq!(body("01 60 00 01 7F", 0, "00 00 D4 0B"), "no 20 3");
    assert_eq!(body("01 60 00 01 64 70", 0, "00 00 D4 0B"), "yes 3");
    // ref.cast asks for the target's hierarchy.
    assert_eq!(body(V, 0, "00 D0 70 FB 14 6E 1A 0B"), "no 20 3");
    assert_eq!(body(V, 0, "00 D0 73 FB 14 00 1A 0B"), "yes 4");
}

#[test]
fn refusal_21() {
    assert_eq!(body(V, 0, "00 0C 01 0B"), "no 21 1");
    assert_eq!(body(V, 0, "01 01 7F 20 01 1A 0B"), "no 21 3");
    assert_eq!(body(V, 0, "00 0C FF FF FF FF 0F 0B"), "no 21 1");
}

#[test]
fn refusal_22() {
    assert_eq!(body(EMPTY, 1, "01 01 64 00 20 00 1A 0B"), "no 22 4");
    assert_eq!(body("02 5F 00 60 01 64 00 00", 1, "00 20 00 1A 0B"), "yes 3");
}

#[test]
fn refusal_23() {
    assert_eq!(body(FIXED, 1, "00 D0 00 FB 02 00 01 1A 0B"), "no 23 3");
    assert_eq!(body(FIXED, 1, "00 00 FB 05 01 00 0B"), "no 23 2");
    assert_eq!(body(F1, 2, "00 FB 20 01 0B"), "no 23 1");
    assert_eq!(body(F1, 2, "00 FB 01 00 0B"), "no 23 1");
    assert_eq!(body(F1, 2, "00 FB 22 01 0B"), "no 23 1");
}

#[test]
fn refusal_24() {
    assert_eq!(body(FIXED, 1, "00 D0 00 41 00 FB 05 00 00 0B"), "no 24 5");
    assert_eq!(body(FIXED, 1, "00 FB 05 00 00 0B"), "no 24 1");
    assert_eq!(body("02 5F 01 7F 01 60 00 00", 1, "00 D0 00 41 00 FB 05 00 00 0B"), "yes 4");
}

#[test]
fn refusal_25() {
    assert_eq!(body(V, 0, "00 D0 71 FB 18 03 00 6E 6E 1A 0B"), "no 25 3");
    // Another hierarchy; the label takes the target.
    assert_eq!(body("01 60 00 01 70", 0, "00 D0 6E FB 18 03 00 6E 70 0B"), "no 25 3");
    // The target may be null and the source may not: only the operand is missing.
    assert_eq!(body("01 60 00 01 6E", 0, "00 FB 18 02 00 6E 6E 0B"), "no 20 1");
    // The label takes a number.
    assert_eq!(body("01 60 00 01 7F", 0, "00 FB 18 03 00 6E 6E 0B"), "no 25 1");
    // What is carried: target (ref eq) for the plain form, the rest for the other.
    let eq = "01 60 00 01 64 6D";
    assert_eq!(body(eq, 0, "00 D0 6E FB 18 01 00 6E 6D 00 0B"), "yes 4");
    assert_eq!(body(eq, 0, "00 D0 6D FB 19 03 00 6D 6D 00 0B"), "yes 4");
    assert_eq!(body(eq, 0, "00 D0 6D FB 19 01 00 6D 6D 00 0B"), "no 25 3");
}

#[test]
fn refusal_27() {
    assert_eq!(body(EMPTY, 0, "00 0B"), "no 27 0");
    assert_eq!(body("00", 0, "00 0B"), "no 27 0");
}

#[test]
fn refusal_28() {
    assert_eq!(body(V, 0, "00 41 00 0B"), "no 28 3");
    assert_eq!(body(V, 0, "00 02 40 41 00 0B 0B"), "no 28 5");
}

#[test]
fn refusal_29() {
    let non_null = "02 5F 01 64 00 00 60 00 00";
    assert_eq!(body(non_null, 1, "00 FB 01 00 1A 0B"), "no 29 1");
    let described = "02 4E 02 4D 01 5F 01 64 01 00 4C 00 5F 00 60 00 00";
    assert_eq!(body(described, 2, "00 FB 21 00 1A 0B"), "no 29 1");
    assert_eq!(run("02 5F 00 60 01 64 00 00", 1, "00 0B", 5), "no 29 0");
}

#[test]
fn order_within_an_instruction() {
    // 3 before 6, 6 before 21, 21 before 23, 23 before 25.
    assert_eq!(body(V, 0, "00 FB 18 00 05 09 40 0B"), "no 3 6");
    assert_eq!(body(V, 0, "00 FB 18 00 05 09 6E 0B"), "no 6 1");
    assert_eq!(body(F1, 2, "00 FB 25 00 05 6E 01 0B"), "no 21 1");
    assert_eq!(body(F1, 2, "00 FB 25 02 00 70 01 0B"), "no 23 1");
    // 25 before an operand that is missing; 22 before one too.
    assert_eq!(body(F1, 2, "00 FB 25 02 00 6E 00 0B"), "no 25 1");
    // Operands from the top: the descriptor is wrong before the object is missing.
    assert_eq!(body(F1, 2, "00 41 00 FB 23 00 0B"), "no 20 3");
}
