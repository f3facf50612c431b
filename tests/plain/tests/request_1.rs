//! Document 02, request 1: constants, numeric codes and what the run does of them.

mod common;
use common::*;

/// A function of nothing with one result of each kind.
const TO_I32: &str = "01 60 00 01 7F";
const TO_I64: &str = "01 60 00 01 7E";
const TO_F32: &str = "01 60 00 01 7D";
const TO_F64: &str = "01 60 00 01 7C";

fn ended(section: &str, bytes: &str) -> String {
    outcome(&run(section, 0, bytes, 9))
}

#[test]
fn a_cut_float_is_one_item() {
    assert_eq!(body(TO_F32, 0, "00 43 00 00 80"), "no 1 2");
    assert_eq!(body(TO_F32, 0, "00 43"), "no 1 2");
    assert_eq!(body(TO_F32, 0, "00 43 00 00 80 3F"), "no 1 6");
    assert_eq!(body(TO_F64, 0, "00 44 00 00 00 00 00 00 F0"), "no 1 2");
    assert_eq!(body(TO_F64, 0, "00 44"), "no 1 2");
    assert_eq!(body(TO_F64, 0, "00 44 00 00 00 00 00 00 F0 3F 0B"), "yes 2");
    // Any bytes are a float.
    assert_eq!(ended(TO_F32, "00 43 80 80 80 00 0B"), "done 2 [f32:00808080]");
    assert_eq!(ended(TO_F64, "00 44 01 02 03 04 05 06 07 08 0B"), "done 2 [f64:0807060504030201]");
}

#[test]
fn the_range_ends_at_c4() {
    assert_eq!(body(V, 0, "00 C5 0B"), "no 3 1");
    assert_eq!(body(V, 0, "00 FC 00 0B"), "no 3 1");
    assert_eq!(body(V, 0, "00 42 00 C4 1A 0B"), "yes 4");
    assert_eq!(body(V, 0, "00 41 00 45 1A 0B"), "yes 4");
    // Bytes that no instruction begins with: before 41, after C4, and past each of the others.
    for code in ["40", "C5", "C6", "CF", "D2", "D5", "FC", "FD", "FF"] {
        assert_eq!(body(V, 0, &format!("00 00 {code} 0B")), "no 3 2", "{code}");
    }
}

#[test]
fn i64_constants() {
    let nine = times(9, "80");
    assert_eq!(body(TO_I64, 0, &format!("00 42 {nine} 01 0B")), "no 2 2");
    assert_eq!(body(TO_I64, 0, &format!("00 42 {nine}")), "no 1 2");
    let result = |number: &str| ended(TO_I64, &format!("00 42 {number} 0B"));
    assert_eq!(result(&format!("{nine} 7F")), "done 2 [i64:-9223372036854775808]");
    assert_eq!(result(&format!("{} 00", times(9, "FF"))), "done 2 [i64:9223372036854775807]");
    // Of the tenth byte only 00 and 7F are in range, and it never asks for more.
    for tenth in ["02", "3F", "40", "7E"] {
        assert_eq!(result(&format!("{nine} {tenth}")), "no 2 2", "{tenth}");
    }
    assert_eq!(result(&format!("{nine} 80 00")), "no 2 2");
    assert_eq!(result(&format!("{nine} FF 7F")), "no 2 2");
    assert_eq!(result("7F"), "done 2 [i64:-1]");
    assert_eq!(result("FF 00"), "done 2 [i64:127]");
    // Bit 63 in the tenth byte alone, with nothing and with all below it: -1 and 0, which
    // request 10 wants in one byte.
    assert_eq!(result(&format!("{} 7F", times(9, "FF"))), "no 32 2");
    assert_eq!(result(&format!("{nine} 00")), "no 32 2");
    assert_eq!(result("00"), "done 2 [i64:0]");
}

#[test]
fn only_add_sub_mul_and_div_write_the_canonical_nan() {
    assert_eq!(ended(TO_F32, "00 43 01 00 C0 FF 0B"), "done 2 [f32:ffc00001]");
    assert_eq!(ended(TO_F32, "00 43 01 00 C0 FF 8C 0B"), "done 3 [f32:7fc00001]");
    assert_eq!(ended(TO_F32, "00 43 01 00 80 7F 8C 0B"), "done 3 [f32:ff800001]");
    for code in ["92", "93", "94", "95"] {
        let bytes = format!("00 43 01 00 C0 FF 43 00 00 00 00 {code} 0B");
        assert_eq!(ended(TO_F32, &bytes), "done 4 [f32:7fc00000]", "{code}");
    }
    for code in ["A0", "A1", "A2", "A3"] {
        let zero = times(8, "00");
        let bytes = format!("00 44 01 00 00 00 00 00 F0 FF 44 {zero} {code} 0B");
        assert_eq!(ended(TO_F64, &bytes), "done 4 [f64:7ff8000000000000]", "{code}");
    }
    assert_eq!(
        ended(TO_F64, "00 44 01 00 00 00 00 00 F0 FF 9A 0B"),
        "done 3 [f64:7ff0000000000001]"
    );
    // Through a local and a field a signalling NaN stays one.
    let kept = "02 5F 01 7D 01 60 00 01 7D";
    assert_eq!(
        run(kept, 1, "01 01 7D 43 01 00 80 FF 22 00 FB 00 00 FB 02 00 00 0B", 9),
        "done 5 [f32:ff800001] | place=18 heap=[0:type=0,desc=-,fields=(f32:ff800001)] \
         locals=[f32:ff800001] operands=[f32:ff800001] blocks=[]"
    );
}

#[test]
fn float_comparisons() {
    let f32s = |left: &str, right: &str, code: &str| {
        ended(TO_I32, &format!("00 43 {left} 43 {right} {code} 0B"))
    };
    let (zero, minus_zero) = ("00 00 00 00", "00 00 00 80");
    let (nan, one) = ("00 00 C0 7F", "00 00 80 3F");
    let codes = ["5B", "5C", "5D", "5E", "5F", "60"];
    let truths = |left: &str, right: &str| {
        codes.map(|code| f32s(left, right, code).chars().rev().nth(1).unwrap_or('?'))
    };
    // eq, ne, lt, gt, le, ge.
    assert_eq!(truths(zero, minus_zero), ['1', '0', '0', '0', '1', '1']);
    assert_eq!(truths(minus_zero, zero), ['1', '0', '0', '0', '1', '1']);
    assert_eq!(truths(nan, nan), ['0', '1', '0', '0', '0', '0']);
    assert_eq!(truths(nan, one), ['0', '1', '0', '0', '0', '0']);
    assert_eq!(truths(one, nan), ['0', '1', '0', '0', '0', '0']);
    assert_eq!(truths(zero, one), ['0', '1', '1', '0', '1', '0']);
    assert_eq!(truths(one, zero), ['0', '1', '0', '1', '0', '1']);
    assert_eq!(f32s(zero, minus_zero, "5B"), "done 4 [i32:1]");
    assert_eq!(f32s(nan, nan, "5C"), "done 4 [i32:1]");
    let minus_one = "00 00 00 00 00 00 F0 BF";
    let f64s =
        |code: &str| ended(TO_I32, &format!("00 44 {minus_one} 44 {} {code} 0B", times(8, "00")));
    assert_eq!(["61", "62", "63", "64", "65", "66"].map(f64s), [0, 1, 1, 0, 1, 0].map(truth));
}

fn truth(truth: i32) -> String {
    format!("done 4 [i32:{truth}]")
}

#[test]
fn rounded_once() {
    assert_eq!(ended(TO_F32, "00 43 00 00 80 3F 43 00 00 80 33 92 0B"), "done 4 [f32:3f800000]");
    assert_eq!(ended(TO_F32, "00 43 01 00 00 00 43 00 00 00 3F 94 0B"), "done 4 [f32:00000000]");
    // The first constant is the left one: 1 - 2, 1 / 2.
    let one_and_two = "00 43 00 00 80 3F 43 00 00 00 40";
    assert_eq!(ended(TO_F32, &format!("{one_and_two} 93 0B")), "done 4 [f32:bf800000]");
    assert_eq!(ended(TO_F32, &format!("{one_and_two} 95 0B")), "done 4 [f32:3f000000]");
    let one_and_two = "00 44 00 00 00 00 00 00 F0 3F 44 00 00 00 00 00 00 00 40";
    assert_eq!(ended(TO_F64, &format!("{one_and_two} A1 0B")), "done 4 [f64:bff0000000000000]");
    assert_eq!(ended(TO_F64, &format!("{one_and_two} A3 0B")), "done 4 [f64:3fe0000000000000]");
    assert_eq!(ended(TO_F64, &format!("{one_and_two} A0 0B")), "done 4 [f64:4008000000000000]");
    assert_eq!(ended(TO_F64, &format!("{one_and_two} A2 0B")), "done 4 [f64:4000000000000000]");
}

#[test]
fn integers_wrap_around() {
    let i32s = |left: &str, right: &str, code: &str| {
        ended(TO_I32, &format!("00 41 {left} 41 {right} {code} 0B"))
    };
    let (greatest, least) = ("FF FF FF FF 07", "80 80 80 80 78");
    assert_eq!(i32s(greatest, "01", "6A"), "done 4 [i32:-2147483648]");
    assert_eq!(i32s(least, "01", "6B"), "done 4 [i32:2147483647]");
    assert_eq!(i32s("00", least, "6B"), "done 4 [i32:-2147483648]");
    assert_eq!(i32s("05", "07", "6B"), "done 4 [i32:-2]");
    assert_eq!(i32s(least, least, "6A"), "done 4 [i32:0]");
    let i64s = |left: &str, right: &str, code: &str| {
        ended(TO_I64, &format!("00 42 {left} 42 {right} {code} 0B"))
    };
    let (greatest, least) = (format!("{} 00", times(9, "FF")), format!("{} 7F", times(9, "80")));
    assert_eq!(i64s(&greatest, "01", "7C"), "done 4 [i64:-9223372036854775808]");
    assert_eq!(i64s(&least, "01", "7D"), "done 4 [i64:9223372036854775807]");
    assert_eq!(i64s("00", &least, "7D"), "done 4 [i64:-9223372036854775808]");
    assert_eq!(i64s("05", "07", "7D"), "done 4 [i64:-2]");
    // No carry is lost between the halves: 2^32 - 1 + 1.
    assert_eq!(i64s("FF FF FF FF 0F", "01", "7C"), "done 4 [i64:4294967296]");
}

/// eq, ne, lt_s, lt_u, gt_s, gt_u, le_s, le_u, ge_s, ge_u: codes in a row.
fn integer_truths(constant: &str, left: &str, right: &str, first: u8) -> Vec<i32> {
    let one = |code: u8| {
        let bytes = format!("00 {constant} {left} {constant} {right} {code:02X} 0B");
        match ended(TO_I32, &bytes).as_str() {
            "done 4 [i32:0]" => 0,
            "done 4 [i32:1]" => 1,
            other => panic!("{bytes}: {other}"),
        }
    };
    (first..first + 10).map(one).collect()
}

#[test]
fn signed_and_unsigned_order() {
    for (constant, first) in [("41", 0x46), ("42", 0x51)] {
        let truths = |left: &str, right: &str| integer_truths(constant, left, right, first);
        // -1 is the least but one from below, and the greatest without a sign.
        assert_eq!(truths("7F", "01"), [0, 1, 1, 0, 0, 1, 1, 0, 0, 1]);
        assert_eq!(truths("01", "7F"), [0, 1, 0, 1, 1, 0, 0, 1, 1, 0]);
        assert_eq!(truths("01", "02"), [0, 1, 1, 1, 0, 0, 1, 1, 0, 0]);
        assert_eq!(truths("7E", "7F"), [0, 1, 1, 1, 0, 0, 1, 1, 0, 0]);
        assert_eq!(truths("7F", "7F"), [1, 0, 0, 0, 0, 0, 1, 1, 1, 1]);
    }
    // The least against the greatest.
    let (greatest, least) = ("FF FF FF FF 07", "80 80 80 80 78");
    assert_eq!(integer_truths("41", least, greatest, 0x46), [0, 1, 1, 0, 0, 1, 1, 0, 0, 1]);
    // Two numbers that differ only above bit 31.
    assert_eq!(integer_truths("42", "80 80 80 80 10", "00", 0x51), [0, 1, 0, 0, 1, 1, 0, 0, 1, 1]);
}

#[test]
fn eqz() {
    assert_eq!(ended(TO_I32, "00 41 00 45 0B"), "done 3 [i32:1]");
    assert_eq!(ended(TO_I32, "00 41 7F 45 0B"), "done 3 [i32:0]");
    assert_eq!(ended(TO_I32, "00 42 00 50 0B"), "done 3 [i32:1]");
    assert_eq!(ended(TO_I32, "00 42 80 80 80 80 10 50 0B"), "done 3 [i32:0]");
}

#[test]
fn trap_46_changes_nothing() {
    assert_eq!(
        run(TO_I32, 0, "00 41 01 41 00 6D 0B", 9),
        "trap 46 5 3 | place=5 heap=[] locals=[] operands=[i32:1,i32:0] blocks=[]"
    );
    assert_eq!(
        run(V, 0, "00 02 40 43 01 00 80 7F 91 1A 0B 0B", 9),
        "trap 46 8 3 | place=8 heap=[] locals=[] operands=[f32:7f800001] blocks=[block@1:height=0]"
    );
    // The budget is spent before the step that would trap.
    assert_eq!(outcome(&run(TO_I32, 0, "00 41 01 41 00 6D 0B", 2)), "spent 2");
    assert_eq!(outcome(&run(TO_I32, 0, "00 41 01 41 00 6D 0B", 3)), "trap 46 5 3");
}

#[test]
fn unreachable_code() {
    assert_eq!(body(V, 0, "00 00 6A 1A 0B"), "yes 4");
    assert_eq!(body(V, 0, "00 00 42 00 6A 1A 0B"), "no 20 4");
    // One operand is there, the other is unknown.
    assert_eq!(body(V, 0, "00 00 41 00 6A 1A 0B"), "yes 5");
    // The result has its kind: an i64 is no i32, and no reference.
    assert_eq!(body(TO_I32, 0, "00 00 7C 0B"), "no 20 3");
    assert_eq!(body(TO_I64, 0, "00 00 7C 0B"), "yes 3");
    assert_eq!(body(V, 0, "00 00 92 D1 1A 0B"), "no 20 3");
    // A non-null reference of unknown heap is no number.
    assert_eq!(body(V, 0, "00 00 D4 45 1A 0B"), "no 20 3");
}

/// The core standard's ranges: first and last code, operands, their kind, the result's.
const RANGES: [(u8, u8, usize, &str, &str); 32] = [
    (0x45, 0x45, 1, "7F", "7F"),
    (0x46, 0x4F, 2, "7F", "7F"),
    (0x50, 0x50, 1, "7E", "7F"),
    (0x51, 0x5A, 2, "7E", "7F"),
    (0x5B, 0x60, 2, "7D", "7F"),
    (0x61, 0x66, 2, "7C", "7F"),
    (0x67, 0x69, 1, "7F", "7F"),
    (0x6A, 0x78, 2, "7F", "7F"),
    (0x79, 0x7B, 1, "7E", "7E"),
    (0x7C, 0x8A, 2, "7E", "7E"),
    (0x8B, 0x91, 1, "7D", "7D"),
    (0x92, 0x98, 2, "7D", "7D"),
    (0x99, 0x9F, 1, "7C", "7C"),
    (0xA0, 0xA6, 2, "7C", "7C"),
    (0xA7, 0xA7, 1, "7E", "7F"),
    (0xA8, 0xA9, 1, "7D", "7F"),
    (0xAA, 0xAB, 1, "7C", "7F"),
    (0xAC, 0xAD, 1, "7F", "7E"),
    (0xAE, 0xAF, 1, "7D", "7E"),
    (0xB0, 0xB1, 1, "7C", "7E"),
    (0xB2, 0xB3, 1, "7F", "7D"),
    (0xB4, 0xB5, 1, "7E", "7D"),
    (0xB6, 0xB6, 1, "7C", "7D"),
    (0xB7, 0xB8, 1, "7F", "7C"),
    (0xB9, 0xBA, 1, "7E", "7C"),
    (0xBB, 0xBB, 1, "7D", "7C"),
    (0xBC, 0xBC, 1, "7D", "7F"),
    (0xBD, 0xBD, 1, "7C", "7E"),
    (0xBE, 0xBE, 1, "7F", "7D"),
    (0xBF, 0xBF, 1, "7E", "7C"),
    (0xC0, 0xC1, 1, "7F", "7F"),
    (0xC2, 0xC4, 1, "7E", "7E"),
];

/// A local of each kind: its number is its place here.
const KINDS: [&str; 4] = ["7F", "7E", "7D", "7C"];
const LOCALS: &str = "04 01 7F 01 7E 01 7D 01 7C";

fn get(kind: &str) -> String {
    let local = KINDS.iter().position(|&other| other == kind).expect("a kind");
    format!("20 {local:02X}")
}

/// Whether so many operands of a kind are taken for the code and the result given.
fn takes(code: u8, operands: &[&str], result: &str) -> bool {
    let operands: Vec<String> = operands.iter().map(|kind| get(kind)).collect();
    let bytes = format!("{LOCALS} {} {code:02X} 0B", operands.join(" "));
    let answer = body(&format!("01 60 00 01 {result}"), 0, &bytes);
    assert!(answer.starts_with("yes") || answer.starts_with("no 20"), "{bytes}: {answer}");
    answer.starts_with("yes")
}

#[test]
fn each_code_takes_and_gives_its_kinds() {
    let mut seen = 0;
    for (first, last, count, operand, result) in RANGES {
        for code in first..=last {
            seen += 1;
            let own = vec![operand; count];
            for other in KINDS {
                assert_eq!(takes(code, &own, other), other == result, "{code:02X} gives {other}");
                let mut spoilt = own.clone();
                spoilt[count - 1] = other;
                assert_eq!(takes(code, &spoilt, result), other == operand, "{code:02X}, {other}");
                spoilt = own.clone();
                spoilt[0] = other;
                assert_eq!(takes(code, &spoilt, result), other == operand, "{code:02X}, {other}");
            }
            assert!(!takes(code, &own[1..], result), "{code:02X} with one operand too few");
        }
    }
    assert_eq!(seen, 0xC4 - 0x45 + 1);
}

/// eqz, the comparisons, add and sub of integers; comparisons, neg, add, sub, mul and div of floats.
const DONE: [(u8, u8); 12] = [
    (0x45, 0x4F),
    (0x50, 0x5A),
    (0x5B, 0x60),
    (0x61, 0x66),
    (0x6A, 0x6B),
    (0x7C, 0x7D),
    (0x8C, 0x8C),
    (0x92, 0x93),
    (0x94, 0x95),
    (0x9A, 0x9A),
    (0xA0, 0xA1),
    (0xA2, 0xA3),
];

#[test]
fn every_other_code_is_46() {
    let mut trapped = 0;
    for (first, last, count, operand, result) in RANGES {
        for code in first..=last {
            let operands = vec![get(operand); count].join(" ");
            let bytes = format!("{LOCALS} {operands} {code:02X} 0B");
            let answer = outcome(&run(&format!("01 60 00 01 {result}"), 0, &bytes, 99));
            let is_done = DONE.iter().any(|&(first, last)| (first..=last).contains(&code));
            let (place, steps) = (9 + 2 * count, count + 1);
            let trap = format!("trap 46 {place} {steps}");
            assert_eq!(answer == trap, !is_done, "{code:02X}: {answer}");
            assert!(!is_done || answer.starts_with(&format!("done {} [", count + 2)), "{answer}");
            trapped += usize::from(!is_done);
        }
    }
    assert_eq!(trapped, 128 - 48);
}
