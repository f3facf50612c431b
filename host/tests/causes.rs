//! The one cause of a refusal, with the other party's bytes; and `chelbugan explain`.

mod common;

use common::{no, yes};

const F1: &str = "02 4E 02 4D 01 5F 00 4C 00 5F 00 60 00 01 64 62 00";

/// A function type of nothing to nothing.
const V: &str = "01 60 00 00";

/// A section's cause, and the lines that it speaks of.
fn section(bytes: &str, cause: &str, shown: &[&str]) {
    told(&no(&["check", bytes]), cause, shown);
}

/// A body's, without the instruction's own line.
fn body(of: (&str, &str, &str), cause: &str, shown: &[&str]) {
    told(&no(&["check", of.0, of.1, of.2]), cause, shown);
}

fn told(said: &str, cause: &str, shown: &[&str]) {
    // A cause that is too long for a line goes on below.
    let words = said.replace("\n  ", " ");
    assert!(words.contains(&format!(" {cause} ")), "{cause:?} is not in\n{said}");
    let lines: Vec<String> =
        said.lines().map(|line| line.split_whitespace().collect::<Vec<_>>().join(" ")).collect();
    for wanted in shown {
        assert!(lines.iter().any(|line| line == wanted), "{wanted:?} is not in\n{said}");
    }
}

#[test]
fn supertypes() {
    section(
        "02 50 00 5F 01 7F 00 4F 01 00 5F 01 7E 00",
        "field 0 of type 1 is i64 and its supertype, type 0, has i32 there: i64 is not below i32",
        &["12 7e 00 type 1: field 0: i64", "5 7f 00 type 0, its supertype: field 0: i32"],
    );
    section(
        "02 50 00 5F 01 7F 01 4F 01 00 5F 01 7F 00",
        "field 0 of type 1 is i32 and its supertype, type 0, has (mut i32) there: mutability is equal in both",
        &["12 7f 00 type 1: field 0: i32", "5 7f 01 type 0, its supertype: field 0: (mut i32)"],
    );
    section(
        "02 50 00 5F 01 7F 00 4F 01 00 5F 00",
        "type 1 has 0 fields and its supertype, type 0, has 1 field",
        &["10 5f 00 type 1: 0 fields", "3 5f 01 type 0, its supertype: 1 field"],
    );
    section(
        "02 50 00 5F 00 4F 01 00 60 00 00",
        "type 1 is a function and its supertype, type 0, a struct",
        &["8 60 00 type 1: function", "3 5f 00 type 0, its supertype: struct"],
    );
    section(
        "02 50 00 60 01 6D 00 4F 01 00 60 01 6B 00",
        "parameter 0 of type 1 is (ref null struct) and its supertype, type 0, has (ref null eq) there: \
         (ref null eq) is not below (ref null struct)",
        &["12 6b type 1: parameter 0: (ref null struct)"],
    );
    section(
        "02 5F 00 4F 01 00 5F 00",
        "type 0, the supertype of type 1, is final",
        &["3 4f 01 00 type 1: final, supertype 0"],
    );
    section(
        "01 50 02 00 00 5F 00",
        "type 0 has 2 supertypes; one is the most",
        &["1 50 02 00 00 type 0: open, supertype 0, supertype 0"],
    );
}

#[test]
fn clauses() {
    section(
        "02 4E 02 50 00 4D 01 5F 00 50 00 4C 00 5F 00 4F 01 00 5F 00",
        "type 0, its supertype, has descriptor 1; type 2 has none",
        &["15 4f 01 00 5f 00 type 2: no descriptor clause", "5 4d 01 type 0: descriptor 1"],
    );
    // Type 2 below 0, with descriptor 3, which does not stand below 1.
    section(
        "02 4E 02 50 00 4D 01 5F 00 50 00 4C 00 5F 00 4E 02 4F 01 00 4D 03 5F 00 4C 02 5F 00",
        "type 0, its supertype, has descriptor 1; type 2 has descriptor 3, whose supertype is none and not 1",
        &["20 4d 03 type 2: descriptor 3", "5 4d 01 type 0: descriptor 1"],
    );
    section(
        "02 50 00 5F 00 4E 02 4D 02 5F 00 4F 01 00 4C 01 5F 00",
        "type 2 describes 1; type 0, its supertype, describes nothing",
        &["14 4c 01 type 2: describes 1", "1 50 00 5f 00 type 0: no describes clause"],
    );
    section(
        "01 4E 03 5F 00 4D 02 5F 00 4C 00 5F 00",
        "type 1 has descriptor 2, but type 2 describes 0",
        &["5 4d 02 type 1: descriptor 2", "9 4c 00 type 2: describes 0"],
    );
    section(
        "01 4E 02 5F 00 4C 00 5F 00",
        "type 1 describes 0, but the descriptor of type 0 is none",
        &["5 4c 00 type 1: describes 0", "3 5f 00 type 0: no descriptor clause"],
    );
    section(
        "01 4C 00 60 00 00",
        "type 0 is a function and says describes 0",
        &["1 4c 00 type 0: describes 0"],
    );
    section("01 4C 00 5F 00", "type 0 describes type 0, which is not earlier", &[]);
    section(
        "02 5F 01 63 01 00 5F 00",
        "field 0 of type 0 names type 1: type 1 stands in a later group; the last of its own group is 0",
        &["3 63 01 00 type 0: field 0 names 1"],
    );
}

/// Which entry of which count is missing.
#[test]
fn missing_bytes() {
    section("03 5F 00", "the bytes end where group 2 of 3 has to begin", &[]);
    section("01 4E 02 5F 00", "the bytes end where definition 2 of 2 has to begin", &[]);
    section("01 5F 02 7F 00", "the bytes end where field 2 of 2 has to begin", &[]);
    section("01 5F 01 7F", "the bytes end where 00, fixed, or 01, mutable, has to begin", &[]);
    section("01 60 00", "the bytes end where the count of results has to begin", &[]);
    body((V, "00 0C 80", "0"), "the bytes end inside a label", &[]);
    body((V, "00", "0"), "the bytes end where an instruction has to begin", &[]);
}

/// Which size it is.
#[test]
fn sizes() {
    section(
        &format!("01 5F 41 {}", "7F 00 ".repeat(65)),
        "a field beyond the 64 that type 0 may have begins here",
        &[],
    );
    section(
        &format!("01 60 00 41 {}", "7F ".repeat(65)),
        "a result beyond the 64 that type 0 may have begins here",
        &[],
    );
    section(
        &format!("81 08 {}", "5F 00 ".repeat(1_025)),
        "a type beyond the 1,024 that a section may have begins here",
        &[],
    );
    body((V, "01 81 02 7F 0B", "0"), "257 locals with parameters; 256 are the most", &[]);
    let operands = format!("00 {} 0B", "41 00 ".repeat(513));
    body((V, &operands, "0"), "513 operands in all frames; 512 are the most", &[]);
    let frames = format!("00 {} {}", "02 40 ".repeat(64), "0B ".repeat(65));
    body((V, &frames, "0"), "65 frames, the function's own counted; 64 are the most", &[]);
}

#[test]
fn descriptors_and_fields() {
    body(
        (F1, "00 FB 00 00 0B", "2"),
        "type 0 has descriptor 1, struct.new takes none that has",
        &["1 fb 00 00 struct.new 0", "3 4d 01 type 0: descriptor 1"],
    );
    body(
        (F1, "00 FB 20 01 0B", "2"),
        "type 1 has no descriptor, struct.new_desc takes a type that has one",
        &["7 4c 00 5f 00 type 1: no descriptor clause"],
    );
    body(
        (F1, "00 FB 00 02 0B", "2"),
        "type 2 is a function, struct.new takes a struct",
        &["11 60 00 type 2: function"],
    );
    body(
        (F1, "00 D0 00 FB 02 00 03 0B", "2"),
        "type 0 has 0 fields, and no field 3",
        &["5 5f 00 type 0: 0 fields"],
    );
    body(
        (F1, "00 D0 6E D0 71 FB 23 6E 0B", "2"),
        "the target of ref.cast_desc_eq is any, and no type with a descriptor",
        &[],
    );
    body(
        ("02 5F 01 7F 00 60 00 00", "00 D0 00 41 00 FB 05 00 00 0B", "1"),
        "field 0 of type 0 is fixed",
        &["3 7f 00 type 0: field 0: i32, fixed"],
    );
    body(
        ("02 5F 01 64 00 00 60 00 00", "00 FB 01 00 1A 0B", "1"),
        "field 0 of type 0, (ref 0), has no default",
        &["3 64 00 00 type 0: field 0: (ref 0)"],
    );
}

/// The label's types, what is carried, and the hierarchies of source and target.
#[test]
fn branching_casts() {
    body(
        (V, "00 02 6B D0 6E FB 18 01 00 6E 6D 1A 00 0B 1A 0B", "0"),
        "label 0 takes (ref null struct), and (ref eq) is carried, which is not below it",
        &["1 02 6b block (result (ref null struct)), label 0"],
    );
    body(
        (V, "00 03 6E D0 6E FB 18 01 00 6E 6D 0B 1A 0B", "0"),
        "label 0 is a loop's and has no types, and (ref eq) is carried to it",
        &["1 03 6e loop (result (ref null any)), label 0"],
    );
    body(
        (V, "00 D0 6E FB 19 01 00 6E 6D 1A 0B", "0"),
        "label 0 has no types, and (ref null any) is carried to it",
        &["3 00 results of the function, label 0: none"],
    );
    body(
        (V, "00 02 70 D0 6D FB 18 01 00 6D 70 1A D0 70 0B 1A 0B", "0"),
        "the source, (ref null eq), is of the hierarchy of any, and the target, (ref func), of that of func",
        &[],
    );
    // A target above the source is no fault; what is carried is.
    body(
        (V, "00 02 6D D0 6D FB 18 01 00 6D 6E 1A D0 6D 0B 1A 0B", "0"),
        "label 0 takes (ref null eq), and (ref any) is carried, which is not below it",
        &["1 02 6d block (result (ref null eq)), label 0"],
    );
}

/// The operand wanted and the one found, and who put it there.
#[test]
fn operands() {
    body(
        (V, "00 D0 6E 41 00 D3 1A 0B", "0"),
        "ref.eq wants (ref null eq) on top and finds i32",
        &[
            "3 41 00 i32.const 0, which put i32 there",
            "its block has, the top last: (ref null any), i32",
        ],
    );
    body(
        (V, "00 D0 6E D0 6D D3 1A 0B", "0"),
        "ref.eq wants (ref null eq) below the top and finds (ref null any)",
        &["1 d0 6e ref.null any, which put (ref null any) there"],
    );
    body((V, "00 1A 0B", "0"), "drop wants any value on top, and its block has no operand", &[]);
    body(
        (V, "00 41 00 02 40 1A 0B 0B", "0"),
        "drop wants any value on top, and its block has none; 1 operand of the blocks around it cannot be taken",
        &[],
    );
    body(
        (V, "00 41 00 02 40 41 00 D3 0B 0B", "0"),
        "ref.eq wants (ref null eq) on top and finds i32",
        &["its block has, the top last: i32"],
    );
    body(
        (V, "00 41 00 0B", "0"),
        "1 value is left at `end` below its 0 results",
        &["1 41 00 i32.const 0, which put i32 there"],
    );
}

/// A function of nothing to a struct's reference and a number; its types' section.
const WITH_NUMBER: &str = "02 5F 00 60 00 02 64 00 7F";

/// 31: what 20 tells, that only null is wrong, and the byte after which ref.as_non_null belongs: the last of the instruction
/// that put the operand there. The mended body is the loader's, to the next fault or to a yes.
#[test]
fn only_null() {
    const ONLY_NULL: &str =
        "only null is wrong: this operand may be null, a non-null one is wanted";
    let of_two = "02 5F 00 60 00 02 64 00 64 00";
    let fields = "03 5F 00 5F 01 64 00 01 60 00 00";
    let one = "02 5F 00 60 00 01 64 00";
    let cases = [
        (
            (one, "00 D0 00 0B", "1"),
            "end wants (ref 0) on top and finds (ref null 0)",
            "1 d0 00 ref.null 0, which put (ref null 0) there",
            (2, "00 d0 00 d4 0b"),
        ),
        (
            (one, "00 D0 71 0F 0B", "1"),
            "return wants (ref 0) on top and finds (ref null none)",
            "1 d0 71 ref.null none, which put (ref null none) there",
            (2, "00 d0 71 d4 0f 0b"),
        ),
        (
            (one, "00 D0 00 41 00 0D 00 0B", "1"),
            "br_if wants (ref 0) below the top and finds (ref null 0)",
            "its block has, the top last: (ref null 0), i32",
            (2, "00 d0 00 d4 41 00 0d 00 0b"),
        ),
        (
            (of_two, "00 D0 00 FB 01 00 0B", "1"),
            "end wants (ref 0) below the top and finds (ref null 0)",
            "1 d0 00 ref.null 0, which put (ref null 0) there",
            (2, "00 d0 00 d4 fb 01 00 0b"),
        ),
        (
            (fields, "00 D0 01 D0 00 FB 05 01 00 0B", "2"),
            "struct.set wants (ref 0) on top and finds (ref null 0)",
            "3 d0 00 ref.null 0, which put (ref null 0) there",
            (4, "00 d0 01 d0 00 d4 fb 05 01 00 0b"),
        ),
        (
            (one, "00 00 D0 00 0B", "1"),
            "end wants (ref 0) on top and finds (ref null 0)",
            "its block has, the top last: unknowns (unreachable), (ref null 0)",
            (3, "00 00 d0 00 d4 0b"),
        ),
        // The block's `end` puts its result there, and the number covers it.
        (
            (WITH_NUMBER, "00 02 63 00 D0 00 0B 41 07 0B", "1"),
            "end wants (ref 0) below the top and finds (ref null 0)",
            "6 0b end, which put (ref null 0) there",
            (6, "00 02 63 00 d0 00 0b d4 41 07 0b"),
        ),
    ];
    for (of, found, shown, (after, mended)) in cases {
        let said = no(&["check", of.0, of.1, of.2]);
        assert!(said.starts_with("no: refusal 31 at byte "), "{said}");
        let hint = format!("ref.as_non_null after byte {after} would do");
        told(&said, &format!("{found}; {ONLY_NULL}; {hint}"), &[shown]);
        let heading = format!("  mended, with d4 at byte {}:\n", after + 1);
        let (_, below) = said.split_once(&heading).unwrap_or_else(|| panic!("no mend in\n{said}"));
        assert!(below.starts_with(&format!("       0  {mended}\n")), "{said}");
        yes(&["check", of.0, mended, of.2]);
        let json = no(&["check", "--json", of.0, of.1, of.2]);
        assert!(json.contains(&format!("\"mended\":\"{}\"", mended.replace(' ', ""))), "{json}");
    }
    // Heap and null: 20, and not a word of null.
    let both = no(&["check", "02 50 00 5F 00 60 00 01 64 62 00", "00 D0 00 0B", "1"]);
    assert!(both.starts_with("no: refusal 20 at byte 3 of the body\n"), "{both}");
    assert!(!both.contains("only null") && !both.contains("mended"), "{both}");
}

/// br_if to the function's label gives back all its operands at once: nothing can be put between them.
#[test]
fn only_null_below_what_came_at_once() {
    // Type 1 gives (ref null 0) twice; type 2 has two fields of (ref 0). Bytes 7 and 8 are br_if 0.
    let section = "03 5F 00 60 00 02 63 00 63 00 5F 02 64 00 00 64 00 00";
    let body = "00 D0 00 D0 00 41 01 0D 00 FB 00 02 1A D0 00 D0 00 0B";
    let said = no(&["check", section, body, "1"]);
    assert!(said.starts_with("no: refusal 31 at byte 9 of the body\n"), "{said}");
    assert!(
        said.replace("\n  ", " ").contains("; ref.as_non_null after byte 8 would do "),
        "{said}"
    );
    // With the top mended, the one below it is at fault, and no byte is told: D4 after byte 8 would meet the top again.
    let body = "00 D0 00 D0 00 41 01 0D 00 D4 FB 00 02 1A D0 00 D0 00 0B";
    let said = no(&["check", section, body, "1"]);
    assert!(said.starts_with("no: refusal 31 at byte 10 of the body\n"), "{said}");
    let words = "struct.new wants (ref 0) below the top and finds (ref null 0); only null is wrong: this operand may be \
                 null, a non-null one is wanted; br_if of byte 7 put 1 operand above it at once: they have to go to locals, \
                 and back after a ref.as_non_null";
    told(&said, words, &["7 0d 00 br_if 0, which put (ref null 0) there"]);
    assert!(!said.contains("mended, with"), "{said}");
    // As it says: local 0 takes the top, D4 meets the one below, and local 0 gives the top back.
    let body = "01 01 64 00 D0 00 D0 00 41 01 0D 00 D4 21 00 D4 20 00 FB 00 02 1A D0 00 D0 00 0B";
    yes(&["check", section, body, "1"]);
}

/// 32: the number's bytes are marked, and its shortest writing is told.
#[test]
fn padded_numbers() {
    let v = "01 60 00 00";
    let of_sections = [
        ("80 00", 0, "the count of groups", "write 80 00 as 00"),
        ("01 4E 81 80 00 5F 00", 2, "the count of", "write 81 80 00 as 01"),
        ("01 5F 01 63 F0 7F 00", 4, "", "write f0 7f as 70"),
        ("01 5F 01 63 62 C0 00 00", 5, "", "write c0 00 as 40"),
    ];
    for (section, place, what, mend) in of_sections {
        let said = no(&["check", section]);
        assert!(said.starts_with(&format!("no: refusal 32 at byte {place}\n")), "{said}");
        assert!(said.contains(what), "{said}");
        told(&said, &format!("has more bytes than it needs: {mend}"), &[]);
    }
    let of_bodies = [
        ("80 00 0B", 0, "write 80 00 as 00"),
        ("01 81 00 7F 0B", 1, "write 81 00 as 01"),
        ("00 0C 80 80 00 0B", 2, "write 80 80 00 as 00"),
        ("00 41 FF 7F 1A 0B", 2, "write ff 7f as 7f"),
        ("00 41 80 FF 7F 1A 0B", 2, "write 80 ff 7f as 80 7f"),
        ("00 FB 90 00 0B", 2, "write 90 00 as 10"),
    ];
    for (body, place, mend) in of_bodies {
        let said = no(&["check", v, body, "0"]);
        assert!(
            said.starts_with(&format!("no: refusal 32 at byte {place} of the body\n")),
            "{said}"
        );
        told(&said, &format!("has more bytes than it needs: {mend}"), &[]);
    }
    let marked = no(&["check", "01 5F 81 80 00 7F 00"]);
    assert!(marked.contains("01 5f 81 80 00 7f 00\n                ^^ ^^ ^^\n"), "{marked}");
    // 127 and -128 need their two bytes.
    yes(&["check", v, "00 41 FF 00 1A 41 80 7F 1A 0B", "0"]);
    // A listing goes on and says so; print and assemble mend it.
    let listed = yes(&["dump", "section", "81 00 5F 80 00"]);
    assert!(listed.contains("1 group (padded: write 81 00 as 01)\n"), "{listed}");
    assert!(listed.contains("(padded: write 80 00 as 00)\n"), "{listed}");
    let printed = yes(&["print", "body", "80 00 41 80 00 1A 0B"]);
    assert!(printed.starts_with(";; numbers of these bytes are padded, which the loader refuses"));
    assert_eq!(yes(&["assemble", "body", &printed]), "00 41 00 1a 0b\n");
}

/// Where a local would have to be set.
#[test]
fn locals_and_labels() {
    let section = "02 5F 00 60 00 00";
    body(
        (section, "01 01 64 00 20 00 1A 0B", "1"),
        "local 0, (ref 0), has no default and is not set before; a local.set or local.tee of it has to stand \
         before, in this block or in one around it",
        &[],
    );
    body(
        (section, "01 01 64 00 02 40 FB 00 00 21 00 0B 20 00 1A 0B", "1"),
        "local 0, (ref 0), was set inside the block of bytes 4 to 11 and forgotten at its end; it has to be set \
         before that block or behind it",
        &["4 02 40 block", "9 21 00 local.set 0", "11 0b end, where the set is forgotten"],
    );
    body((V, "00 20 00 0B", "0"), "there is no local 0: there are none", &[]);
    body(
        (V, "00 02 40 0C 02 0B 0B", "0"),
        "there is no label 2: 2 frames are open, labels 0 to 1",
        &[],
    );
    body((V, "00 D0 07 1A 0B", "0"), "there is no type 7; the section has 1 type", &[]);
}

/// Lines that do not matter are left out: the operands where none is at fault.
#[test]
fn what_does_not_matter_is_left_out() {
    for (of_body, number) in [("00 41 00 20 05 0B", "21"), ("00 41 00 D0 07 0B", "6")] {
        let said = no(&["check", V, of_body, "0"]);
        assert!(said.starts_with(&format!("no: refusal {number} ")), "{said}");
        assert!(!said.contains("it takes") && !said.contains("its block has"), "{said}");
    }
}

/// Every number: what it means, what its place is, the rule, an example and its mend.
#[test]
fn every_number_is_explained() {
    let numbers = (1..=14).chain(20..=25).chain(27..=29).chain(31..=32).chain(41..=46);
    let list = yes(&["explain"]);
    for number in numbers.clone() {
        let said = yes(&["explain", &number.to_string()]);
        let kind = if number > 40 { "trap" } else { "refusal" };
        assert!(said.starts_with(&format!("{kind} {number}: ")), "{said}");
        for part in ["\nmeaning\n", "\nplace\n", "\nrule\n", "\nexample: ", "\nmended: "] {
            assert!(said.contains(part), "{part:?} is not in\n{said}");
        }
        assert!(list.contains(&format!("{number:>3}  {kind}")), "{list}");
    }
    assert_eq!(list.lines().count(), numbers.count());
    let page = concat!(env!("CARGO_MANIFEST_DIR"), "/../docs/REFUSALS.md");
    assert_eq!(yes(&["explain", "--page"]), std::fs::read_to_string(page).expect("the page"));
}
