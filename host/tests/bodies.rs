//! `chelbugan check SECTION BODY TYPE` as a person meets it.

mod common;

use common::{assert_marked, no, yes, OwnFile};

const F1: &str = "02 4E 02 4D 01 5F 00 4C 00 5F 00 60 00 01 64 62 00";

/// The incident of README.md: a descriptor that need not be the short kind's own, on byte 11.
#[test]
fn a_refused_body_is_explained() {
    let section = "024e0450004d015f0050004c005f005001004d035f017f005001014c025f006000017f";
    let body = "01 01 64 01 FB 01 03 21 00 20 00 FB 20 00 FB 16 02 FB 02 02 00 0B";
    let said = no(&["check", section, body, "4"]);
    assert!(said.starts_with("no: refusal 20 at byte 11 of the body\n"), "{said}");
    let cause = "  struct.new_desc wants (ref null (exact 1)) on top and finds (ref 1)\n";
    assert!(said.contains(cause), "{said}");
    assert_marked(&said, "01 01 64 01 fb 01 03 21 00 20 00 fb 20 00 fb 16", "fb 20 00");
    assert!(said.contains("11  fb 20 00                struct.new_desc 0\n"), "{said}");
    let by = "     9  20 00                   local.get 0, which put (ref 1) there\n";
    assert!(said.contains(by), "{said}");
}

#[test]
fn an_accepted_body_is_counted() {
    assert_eq!(yes(&["check", F1, "00 FB 00 01 FB 20 00 0B", "2"]), "yes: 3 instructions\n");
    assert_eq!(yes(&["check", "01600000", "000b", "0"]), "yes: 1 instruction\n");
}

/// What an instruction takes, one of each kind that takes something.
#[test]
fn what_an_instruction_takes_is_told() {
    // Type 0: a struct of i32 and (mut (ref 0)), with descriptor 1; type 2: a function that gives an f64.
    let section = "02 4E 02 50 00 4D 01 5F 02 7F 00 64 00 01 50 00 4C 00 5F 00 60 00 01 7C";
    let cases = [
        ("1A", "any value"),
        ("D1", "any reference"),
        ("D3", "(ref null eq), (ref null eq)"),
        ("0F", "f64"),
        ("0B", "f64"),
        ("0C 00", "f64"),
        ("0D 00", "f64, i32"),
        ("21 00", "i64"),
        ("FB 00 01 FB 20 00", "i32, (ref 0), (ref null (exact 1))"),
        ("FB 02 00 00", "(ref null 0)"),
        ("FB 05 00 01", "(ref null 0), (ref 0)"),
        ("FB 14 00", "(ref null any)"),
        ("FB 16 02", "(ref null func)"),
        ("FB 17 72", "(ref null extern)"),
        ("FB 22 00", "(ref null 0)"),
        ("FB 23 62 00", "(ref null any), (ref null (exact 1))"),
        ("FB 24 00", "(ref null any), (ref null 1)"),
        ("02 6E FB 18 01 00 6E 00", "(ref null any)"),
        ("02 6E FB 25 01 00 6E 62 00", "(ref null any), (ref null (exact 1))"),
    ];
    for (code, taken) in cases {
        let said = no(&["check", section, &format!("01 01 7E {code}"), "2"]);
        assert!(said.starts_with("no: refusal 20 at byte"), "{code}: {said}");
        // Of one operand the cause says it all.
        match said.split("it takes, the top last: ").nth(1) {
            Some(told) => assert_eq!(told.lines().next(), Some(taken), "{code}: {said}"),
            None => assert!(said.contains(&format!(" wants {taken} on top")), "{code}: {said}"),
        }
    }
}

/// What stands on the stack behind each instruction that gives something: seen by a ref.eq of an i32.
#[test]
fn what_stands_on_the_stack_is_told() {
    // Type 0: a struct of i32 and (mut (ref 0)), with descriptor 1; type 2: a function that gives an f64.
    let section = "02 4E 02 50 00 4D 01 5F 02 7F 00 64 00 01 50 00 4C 00 5F 00 60 00 01 7C";
    let cases = [
        ("01", "nothing"),
        ("41 05", "i32"),
        ("20 00", "i64"),
        ("20 00 22 00", "i64"),
        ("D0 6E", "(ref null any)"),
        ("D0 6E D1", "i32"),
        ("D0 6D D0 71 D3", "i32"),
        ("D0 62 01 D4", "(ref (exact 1))"),
        ("00", "unknowns (unreachable)"),
        ("00 D4 41 00", "unknowns (unreachable), (ref unknown), i32"),
        ("FB 00 01", "(ref (exact 1))"),
        ("D0 00 FB 02 00 00", "i32"),
        ("D0 00 FB 02 00 01", "(ref 0)"),
        ("D0 00 FB 22 00", "(ref 1)"),
        ("D0 62 00 FB 22 00", "(ref (exact 1))"),
        ("D0 71 FB 22 00", "(ref (exact 1))"),
        ("D0 6E FB 14 00", "i32"),
        ("D0 6E FB 16 00", "(ref 0)"),
        ("D0 6E FB 17 62 00", "(ref null (exact 0))"),
        ("D0 6E D0 01 FB 23 00", "(ref 0)"),
        ("41 00 02 40", "nothing"),
        ("41 00 02 7F 41 00 0B", "i32, i32"),
        ("03 7E 20 00 0B", "i64"),
        ("02 6E D0 00 41 00 0D 00", "(ref null any)"),
        ("02 6E D0 00 FB 18 03 00 00 00", "(ref 0)"),
        ("02 6E D0 00 FB 18 01 00 00 00", "(ref null 0)"),
        ("02 6E D0 00 FB 19 03 00 00 62 00", "(ref null (exact 0))"),
        (&"41 00 ".repeat(10), "3 more, i32, i32, i32, i32, i32, i32, i32"),
    ];
    for (code, stack) in cases {
        let said = no(&["check", section, &format!("01 01 7E {code} 41 00 D3"), "2"]);
        assert!(said.starts_with("no: refusal 20 at byte"), "{code}: {said}");
        let told = said.split("its block has, the top last: ").nth(1).expect("the operands");
        let wanted = match stack {
            "nothing" => "i32".to_string(),
            _ => format!("{stack}, i32"),
        };
        assert_eq!(told.lines().next(), Some(&*wanted), "{code}: {said}");
    }
}

#[test]
fn places_of_a_body_are_told_apart() {
    let v = "01600000";
    let locals = no(&["check", v, "01 81 02 7F 0B", "0"]);
    assert!(locals.starts_with("no: refusal 4 at byte 1 of the body\n"), "{locals}");
    assert!(locals.contains("257 locals with parameters; 256 are the most"), "{locals}");
    assert!(locals.contains("257 of i32"), "{locals}");
    assert!(!locals.contains("it takes"), "an entry of locals takes nothing: {locals}");
    let frames = no(&["check", v, &format!("00 {} {}", "0240".repeat(64), "0b".repeat(65)), "0"]);
    assert!(frames.starts_with("no: refusal 4 at byte 127 of the body\n"), "{frames}");
    let cut = no(&["check", v, "00 D0 62", "0"]);
    assert!(cut.contains("the input ends after 3 bytes; byte 3 is missing"), "{cut}");
    let whole = OwnFile::new("long-body", &[0; 40_000]);
    let whole = no(&["check", v, whole.name(), "0"]);
    assert!(
        whole.starts_with("no: refusal 4 at byte 0 of the body, for the whole input\n"),
        "{whole}"
    );
    assert!(whole.contains("a body has at most 32768 bytes"), "{whole}");
    let absent = no(&["check", v, "000b", "9"]);
    assert!(absent.contains("there is no type 9; the section has 1 type\n"), "{absent}");
    let a_struct = no(&["check", "01 5F 00", "000b", "0"]);
    assert!(a_struct.starts_with("no: refusal 27 at 0, for the type's number\n"), "{a_struct}");
    assert!(a_struct.contains("type 0 is a struct"), "{a_struct}");
    let section = no(&["check", "00 00", "000b", "0"]);
    assert!(section.starts_with("no: refusal 5 at byte 1\n"), "{section}");
    assert!(
        section.contains("the section itself is refused; the body was not looked at"),
        "{section}"
    );
}
