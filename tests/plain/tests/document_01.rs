//! Every bench example of document 01, and the example of LINES.md.
//! The answers are the paper's; states are worked out by hand from its rules.

mod common;
use common::*;

#[test]
fn sections() {
    assert_eq!(section("00"), "yes 0");
    assert_eq!(section(""), "no 1 0");
    assert_eq!(section("00 00"), "no 5 1");
    assert_eq!(
        section("01 4E 02 4D 01 5F 00 4C 00 5F 00"),
        "yes 2 struct final super=- describes=- descriptor=1 3..7;\
         struct final super=- describes=0 descriptor=- 7..11"
    );
    assert_eq!(section("01 4E 02 4C 01 5F 00 4D 00 5F 00"), "no 10 0");
    assert_eq!(section("01 4E 03 5F 00 4D 02 5F 00 4C 00 5F 00"), "no 11 1");
    assert_eq!(section("01 4C 00 60 00 00"), "no 9 0");
    let later = "02 50 00 5F 00 4E 02 4F 01 00 4D 02 5F 00 4C 01 5F 00";
    assert_eq!(count_only(&section(later)), "yes 3");
    let dropped = "02 4E 02 50 00 4D 01 5F 00 50 00 4C 00 5F 00 4F 01 00 5F 00";
    assert_eq!(section(dropped), "no 12 2");
}

#[test]
fn allocation_with_a_descriptor() {
    let allocate = "00 FB 00 01 FB 20 00 0B";
    assert_eq!(body(F1, 2, allocate), "yes 3");
    assert_eq!(
        run(F1, 2, allocate, 3),
        "done 3 [obj:1] | place=8 \
         heap=[0:type=1,desc=-,fields=();1:type=0,desc=0,fields=()] \
         locals=[] operands=[obj:1] blocks=[]"
    );
    assert_eq!(
        run(F1, 2, allocate, 2),
        "spent 2 | place=7 \
         heap=[0:type=1,desc=-,fields=();1:type=0,desc=0,fields=()] \
         locals=[] operands=[obj:1] blocks=[]"
    );
}

#[test]
fn refused_bodies() {
    assert_eq!(body(F1, 2, "00 FB 00 00 0B"), "no 23 1");
    let inexact = "01 01 64 01 FB 00 01 21 00 20 00 FB 20 00 0B";
    assert_eq!(body(F1, 2, inexact), "no 20 11");
}

#[test]
fn null_descriptor() {
    let null = "00 D0 62 01 FB 20 00 0B";
    assert_eq!(body(F1, 2, null), "yes 3");
    assert_eq!(
        run(F1, 2, null, 1000),
        "trap 43 4 2 | place=4 heap=[] locals=[] operands=[null] blocks=[]"
    );
}

#[test]
fn descriptor_of_null() {
    let null = "00 D0 71 FB 22 00 0B";
    assert_eq!(body(F2, 2, null), "yes 3");
    assert_eq!(
        run(F2, 2, null, 1000),
        "trap 42 3 2 | place=3 heap=[] locals=[] operands=[null] blocks=[]"
    );
}

#[test]
fn a_loop_without_end() {
    let endless = "00 03 40 0C 00 0B 00 0B";
    assert_eq!(body(F1, 2, endless), "yes 5");
    // One step opens the loop, nine go round: the next is the branch again.
    assert_eq!(
        run(F1, 2, endless, 10),
        "spent 10 | place=3 heap=[] locals=[] operands=[] blocks=[loop@1:height=0]"
    );
}

#[test]
fn types_at_their_size() {
    // 256 of the paper are 1,024 after request 5 of document 02.
    let most = format!("80 08 {}", times(1_024, "5F 00"));
    assert_eq!(count_only(&section(&most)), "yes 1024");
    let one_more = format!("81 08 {}", times(1_025, "5F 00"));
    assert_eq!(section(&one_more), "no 4 2050");
    let in_one_group = format!("01 4E 81 08 {}", times(1_025, "5F 00"));
    assert_eq!(section(&in_one_group), "no 4 2052");
}

#[test]
fn frames_at_their_size() {
    let most = format!("00 {} {} 0B", times(63, "02 40"), times(63, "0B"));
    assert_eq!(body(V, 0, &most), "yes 127");
    let one_more = format!("00 {} {} 0B", times(64, "02 40"), times(64, "0B"));
    assert_eq!(body(V, 0, &one_more), "no 4 127");
}

#[test]
fn the_three_short_cuts_are_refused() {
    // (ref y) is not enough for struct.new_desc: the starred example above, and
    // the same with a subtype's descriptor at hand.
    let pairs = "02 4E 04 50 00 4D 01 5F 00 50 00 4C 00 5F 00 \
                 4F 01 00 4D 03 5F 00 4F 01 01 4C 02 5F 00 60 00 00";
    assert_eq!(count_only(&section(pairs)), "yes 5");
    assert_eq!(body(pairs, 4, "00 FB 00 03 FB 20 00 1A 0B"), "no 20 4");
    assert_eq!(body(pairs, 4, "00 FB 00 03 FB 20 02 1A 0B"), "yes 4");
    // 001's "Ok (but strange)": the descriptor's subtype describes a stranger.
    let stranger = "01 4E 04 50 00 4D 01 5F 00 50 00 4C 00 5F 00 4D 03 5F 00 \
                    50 01 01 4C 02 5F 00";
    assert_eq!(section(stranger), "no 13 3");
    // Exact x is not above an exact subtype.
    let subtype = "03 50 00 5F 00 4F 01 00 5F 00 60 00 01 64 62 00";
    assert_eq!(body(subtype, 2, "00 FB 00 01 0B"), "no 20 4");
    assert_eq!(body(subtype, 2, "00 FB 00 00 0B"), "yes 2");
}

#[test]
fn the_example_of_lines() {
    let request = "R 024e024d015f004c005f00600001646200 2 00fb0001fb20000b 3";
    assert_eq!(
        plain::lines::answer(request),
        "done 3 [obj:1] | place=8 heap=[0:type=1,desc=-,fields=();1:type=0,desc=0,fields=()] \
         locals=[] operands=[obj:1] blocks=[]"
    );
}

#[test]
fn a_type_asked_for() {
    let later = "02 50 00 5F 00 4E 02 4F 01 00 4D 02 5F 00 4C 01 5F 00";
    assert_eq!(type_bytes(later, 0), "yes 50005f00");
    assert_eq!(type_bytes(later, 1), "yes 4f01004d025f00");
    assert_eq!(type_bytes(later, 2), "yes 4c015f00");
    assert_eq!(type_bytes(later, 3), "no 6 3");
    assert_eq!(type_bytes("00", 4294967295), "no 6 4294967295");
    assert_eq!(type_bytes("01 4C 00 60 00 00", 7), "no 9 0");
}
