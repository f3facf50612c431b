//! Runs of branching casts whose target is not below the source, after request 4 of
//! document 02: one that passes, one that fails, and null. Worked by hand.

mod common;
use common::*;

const FLAGS: [&str; 4] = ["00", "01", "02", "03"];

/// Type 1 is below type 0. The block's result takes all; where the cast falls through,
/// null is left instead. Taken: block, object, cast and the last `end`.
fn cast_run(form: &str, flags: &str, types: &str, object: &str) -> String {
    let section = "03 50 00 5F 00 50 01 00 5F 00 60 00 01 6E";
    let code = format!("00 02 6E {object} FB {form} {flags} 00 {types} 1A D0 71 0B 0B");
    outcome(&run(section, 2, &code, 99))
}

const NULL: &str = "D0 71";

#[test]
fn runs_to_a_target_above_the_source() {
    // From 1 to 0: the object passes; null passes where the target may be null.
    for flags in FLAGS {
        assert_eq!(cast_run("18", flags, "01 00", "FB 00 01"), "done 4 [obj:0]");
        assert_eq!(cast_run("19", flags, "01 00", "FB 00 01"), "done 7 [null]");
    }
    assert_eq!(cast_run("18", "03", "01 00", NULL), "done 4 [null]");
    assert_eq!(cast_run("18", "01", "01 00", NULL), "done 7 [null]");
    assert_eq!(cast_run("19", "03", "01 00", NULL), "done 7 [null]");
    assert_eq!(cast_run("19", "01", "01 00", NULL), "done 4 [null]");
}

#[test]
fn runs_to_a_target_beside_the_source() {
    // From 0 to i31, and from exact 0 to exact 1: no object passes.
    for (types, object) in [("00 6C", "FB 00 00"), ("62 00 62 01", "FB 00 00")] {
        for flags in FLAGS {
            assert_eq!(cast_run("18", flags, types, object), "done 7 [null]");
            assert_eq!(cast_run("19", flags, types, object), "done 4 [obj:0]");
        }
        assert_eq!(cast_run("18", "03", types, NULL), "done 4 [null]");
        assert_eq!(cast_run("18", "01", types, NULL), "done 7 [null]");
        assert_eq!(cast_run("19", "03", types, NULL), "done 7 [null]");
        assert_eq!(cast_run("19", "01", types, NULL), "done 4 [null]");
    }
    // From none, of which there is only null.
    assert_eq!(cast_run("18", "03", "71 00", NULL), "done 4 [null]");
    assert_eq!(cast_run("19", "01", "71 00", NULL), "done 4 [null]");
}

/// From (ref 0) to (ref null 1): not below it for null alone.
#[test]
fn runs_to_a_nullable_target() {
    assert_eq!(cast_run("18", "02", "00 01", "FB 00 01"), "done 4 [obj:0]");
    assert_eq!(cast_run("18", "02", "00 01", "FB 00 00"), "done 7 [null]");
    assert_eq!(cast_run("19", "02", "00 01", "FB 00 01"), "done 7 [null]");
    assert_eq!(cast_run("19", "02", "00 01", "FB 00 00"), "done 4 [obj:0]");
}

/// From 2 to 0, which is above it: an object of 2 with its own descriptor, with
/// another object of the descriptor's type, and null.
fn desc_run(form: &str, flags: &str, operands: &str) -> String {
    let cast = format!("FB {form} {flags} 00 02 00");
    let code = format!("01 01 63 62 03 02 6E {operands} {cast} 1A D0 71 0B 0B");
    outcome(&run(&described("6E"), 4, &code, 99))
}

#[test]
fn runs_by_descriptor() {
    let own = "FB 01 03 22 00 FB 21 02 20 00";
    let other = "FB 01 03 FB 21 02 FB 01 03";
    for flags in FLAGS {
        assert_eq!(desc_run("25", flags, own), "done 7 [obj:1]");
        assert_eq!(desc_run("25", flags, other), "done 9 [null]");
        assert_eq!(desc_run("26", flags, own), "done 10 [null]");
        assert_eq!(desc_run("26", flags, other), "done 6 [obj:1]");
    }
    let null = "D0 71 FB 01 03";
    assert_eq!(desc_run("25", "03", null), "done 5 [null]");
    assert_eq!(desc_run("25", "01", null), "done 8 [null]");
    assert_eq!(desc_run("26", "03", null), "done 8 [null]");
    assert_eq!(desc_run("26", "01", null), "done 5 [null]");
    let no_descriptor = "D0 71 D0 01";
    assert_eq!(desc_run("25", "03", no_descriptor), "trap 43 11 4");
    assert_eq!(desc_run("26", "01", no_descriptor), "trap 43 11 4");
}

/// From 1, which describes, to 0: an object of 1 has no descriptor and does not pass.
#[test]
fn runs_by_descriptor_beside_the_source() {
    let code =
        |form: &str| format!("00 02 6E FB 01 01 FB 01 01 FB {form} 03 00 01 00 1A D0 71 0B 0B");
    assert_eq!(outcome(&run(&described("6E"), 4, &code("25"), 99)), "done 8 [null]");
    assert_eq!(
        run(&described("6E"), 4, &code("26"), 99),
        "done 5 [obj:0] | place=20 heap=[0:type=1,desc=-,fields=();1:type=1,desc=-,fields=()] \
         locals=[] operands=[obj:0] blocks=[]"
    );
}
