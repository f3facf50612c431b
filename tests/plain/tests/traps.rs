//! Hand-made cases for each trap and for what a step leaves behind.

mod common;
use common::*;

/// A struct with a mutable i32, then a function.
const MUTABLE: &str = "02 5F 01 7F 01 60 00 00";
/// An open struct, its final subtype, a function.
const SUBTYPE: &str = "03 50 00 5F 00 4F 01 00 5F 00 60 00 00";
/// A described struct, its descriptor, a function of nothing.
const DESCRIBED: &str = "02 4E 02 4D 01 5F 00 4C 00 5F 00 60 00 00";

#[test]
fn trap_41() {
    assert_eq!(
        run(V, 0, "00 00 0B", 5),
        "trap 41 1 1 | place=1 heap=[] locals=[] operands=[] blocks=[]"
    );
    assert_eq!(
        run(V, 0, "00 41 07 02 40 00 0B 1A 0B", 5),
        "trap 41 5 3 | place=5 heap=[] locals=[] operands=[i32:7] blocks=[block@3:height=1]"
    );
}

#[test]
fn trap_42() {
    assert_eq!(
        run(MUTABLE, 1, "00 D0 00 FB 02 00 00 1A 0B", 9),
        "trap 42 3 2 | place=3 heap=[] locals=[] operands=[null] blocks=[]"
    );
    assert_eq!(
        run(MUTABLE, 1, "00 D0 00 41 05 FB 05 00 00 0B", 9),
        "trap 42 5 3 | place=5 heap=[] locals=[] operands=[null,i32:5] blocks=[]"
    );
    assert_eq!(outcome(&run(MUTABLE, 1, "00 D0 00 D4 1A 0B", 9)), "trap 42 3 2");
    assert_eq!(outcome(&run(DESCRIBED, 2, "00 D0 00 FB 22 00 1A 0B", 9)), "trap 42 3 2");
}

#[test]
fn trap_43() {
    let null = "00 D0 62 01 FB 21 00 1A 0B";
    assert_eq!(outcome(&run(DESCRIBED, 2, null, 9)), "trap 43 4 2");
    let branching = "00 02 63 00 D0 71 D0 71 FB 25 03 00 6E 00 1A D0 71 0B 1A 0B";
    assert_eq!(
        run(DESCRIBED, 2, branching, 99),
        "trap 43 8 4 | place=8 heap=[] locals=[] operands=[null,null] blocks=[block@1:height=0]"
    );
}

#[test]
fn trap_44() {
    assert_eq!(outcome(&run(V, 0, "00 D0 6E FB 16 6E 1A 0B", 9)), "trap 44 3 2");
    assert_eq!(outcome(&run(V, 0, "00 D0 6E FB 17 6E 1A 0B", 9)), "done 4 []");
    assert_eq!(
        run(SUBTYPE, 2, "00 FB 00 01 FB 16 62 00 1A 0B", 9),
        "trap 44 4 2 | place=4 heap=[0:type=1,desc=-,fields=()] locals=[] operands=[obj:0] blocks=[]"
    );
    assert_eq!(outcome(&run(SUBTYPE, 2, "00 FB 00 01 FB 16 00 1A 0B", 9)), "done 4 []");
    assert_eq!(outcome(&run(SUBTYPE, 2, "00 FB 00 00 FB 16 01 1A 0B", 9)), "trap 44 4 2");
    // Another object of the descriptor's type is not the very object.
    let other = "00 FB 00 01 FB 20 00 FB 00 01 FB 23 00 1A 0B";
    assert_eq!(outcome(&run(DESCRIBED, 2, other, 9)), "trap 44 10 4");
    let own = "01 01 63 62 01 FB 00 01 22 00 FB 20 00 20 00 FB 23 62 00 1A 0B";
    assert_eq!(outcome(&run(DESCRIBED, 2, own, 9)), "done 7 []");
}

#[test]
fn trap_45_by_objects() {
    let endless = "00 03 40 FB 01 00 1A 0C 00 0B 0B";
    let answer = run("02 5F 00 60 00 00", 1, endless, 1_000_000);
    assert_eq!(outcome(&answer), "trap 45 3 3074");
    assert!(answer.contains("1023:type=0,desc=-,fields=()] locals=[]"));
}

#[test]
fn trap_45_by_cells() {
    let section = |fields: usize| format!("02 5F {fields:02X} {} 60 00 00", times(fields, "7F 00"));
    let endless = "00 03 40 FB 01 00 1A 0C 00 0B 0B";
    assert_eq!(outcome(&run(&section(64), 1, endless, 1_000_000)), "trap 45 3 194");
    assert_eq!(outcome(&run(&section(63), 1, endless, 1_000_000)), "trap 45 3 197");
    assert_eq!(outcome(&run(&section(4), 1, endless, 1_000_000)), "trap 45 3 3074");
    assert_eq!(outcome(&run(&section(5), 1, endless, 1_000_000)), "trap 45 3 2459");
}

#[test]
fn a_null_descriptor_before_room() {
    let full = times(1024, "FB 00 01 1A");
    let null = format!("00 {full} D0 62 01 FB 20 00 1A 0B");
    assert_eq!(outcome(&run(DESCRIBED, 2, &null, 9999)), "trap 43 4100 2050");
    let kept = times(1023, "FB 00 01 1A");
    let object = format!("01 01 63 62 01 FB 00 01 21 00 {kept} 20 00 FB 20 00 1A 0B");
    assert_eq!(outcome(&run(DESCRIBED, 2, &object, 9999)), "trap 45 4104 2050");
}

#[test]
fn values_of_every_kind() {
    let all = "02 5F 05 7F 00 7E 00 7D 00 7C 00 6E 01 60 01 7E 01 7D";
    let body = "02 01 7C 01 64 6B FB 01 00 FB 02 00 02 0B";
    assert_eq!(
        run(all, 1, body, 9),
        "done 3 [f32:00000000] | place=14 \
         heap=[0:type=0,desc=-,fields=(i32:0,i64:0,f32:00000000,f64:0000000000000000,null)] \
         locals=[i64:0,f64:0000000000000000,unset] operands=[f32:00000000] blocks=[]"
    );
}

#[test]
fn truths() {
    let number = "02 5F 00 60 00 01 7F";
    let result = |body: &str| outcome(&run(number, 1, body, 99));
    assert_eq!(result("00 D0 6E D1 0B"), "done 3 [i32:1]");
    assert_eq!(result("00 FB 00 00 D1 0B"), "done 3 [i32:0]");
    assert_eq!(result("00 D0 71 D0 6D D3 0B"), "done 4 [i32:1]");
    assert_eq!(result("00 FB 00 00 FB 00 00 D3 0B"), "done 4 [i32:0]");
    assert_eq!(result("00 D0 6E FB 14 6E 0B"), "done 3 [i32:0]");
    assert_eq!(result("00 D0 6E FB 15 71 0B"), "done 3 [i32:1]");
    assert_eq!(result("00 FB 00 00 FB 14 62 00 0B"), "done 3 [i32:1]");
    assert_eq!(result("00 FB 00 00 FB 14 6C 0B"), "done 3 [i32:0]");
    assert_eq!(result("00 FB 00 00 FB 15 71 0B"), "done 3 [i32:0]");
}

#[test]
fn branching_casts_both_ways() {
    // Carried to the block's end: the constant 1 is skipped.
    let two = "03 5F 00 5F 00 60 00 01 6B";
    let plain = |object: &str| format!("00 02 6B {object} FB 18 03 00 6E 00 1A D0 6B 0B 0B");
    assert_eq!(
        run(two, 2, &plain("FB 00 00"), 99),
        "done 4 [obj:0] | place=17 heap=[0:type=0,desc=-,fields=()] locals=[] operands=[obj:0] blocks=[]"
    );
    assert_eq!(outcome(&run(two, 2, &plain("FB 00 01"), 99)), "done 7 [null]");
    let fail =
        |object: &str| format!("00 02 6E {object} FB 19 03 00 6E 00 1A D0 6B 0B FB 17 6B 0B");
    assert_eq!(outcome(&run(two, 2, &fail("FB 00 01"), 99)), "done 5 [obj:0]");
    assert_eq!(outcome(&run(two, 2, &fail("FB 00 00"), 99)), "done 8 [null]");
}

#[test]
fn a_branch_out_goes_past_the_end() {
    let out = "00 02 40 02 40 41 01 0D 01 0B 00 0B 41 03 1A 0B";
    assert_eq!(run(V, 0, out, 4), "spent 4 | place=12 heap=[] locals=[] operands=[] blocks=[]");
    assert_eq!(outcome(&run(V, 0, out, 99)), "done 7 []");
}
