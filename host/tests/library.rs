//! `--library`: what is said of a pair of sections. Every number, place and cause here was worked out by hand from documents 01
//! and 02.

mod common;

use common::{assert_marked, chelbugan, chelbugan_fed, no, yes, OwnFile};

/// A struct, final, no fields: bytes 1 to 3.
const FINAL: &str = "01 5F 00";

/// The same, open: bytes 1 to 5.
const OPEN: &str = "01 50 00 5F 00";

/// An open struct with an i32, fixed: 5F at 3, the field at 5.
const ONE_FIELD: &str = "01 50 00 5F 01 7F 00";

/// Type 0 with descriptor 1 (4D at 5) and type 1, which describes it (4C at 11), both open.
const DESCRIBED: &str = "01 4E 02 50 00 4D 01 5F 00 50 00 4C 00 5F 00";

/// A function of nothing to nothing.
const V: &str = "01 60 00 00";

fn refused(library: &str, section: &str, headline: &str) -> String {
    let said = no(&["check", "--library", library, section]);
    assert!(said.starts_with(&format!("no: refusal {headline}\n")), "{headline} is not\n{said}");
    said
}

/// The cause, on one line or more, and the lines that stand below it, in their order.
fn told(said: &str, cause: &str, shown: &[&str]) {
    let words = said.replace("\n  ", " ").replace('\n', " ");
    assert!(words.contains(&format!(" {cause} ")), "{cause:?} is not in\n{said}");
    let lines: Vec<String> =
        said.lines().map(|line| line.split_whitespace().collect::<Vec<_>>().join(" ")).collect();
    let mut rest = lines.iter();
    for wanted in shown {
        assert!(rest.any(|line| line == wanted), "{wanted:?} is not in its place in\n{said}");
    }
}

#[test]
fn an_accepted_pair_is_described() {
    let said = yes(&["check", "--library", OPEN, "02 60 00 00 4F 01 00 5F 00"]);
    let wanted = "\
yes: 3 types, 1 of the library
  type 0 of the library: struct (), open, bytes 1 to 4
  type 1, the add-on's type 0: function () -> (), final, bytes 1 to 3
  type 2, the add-on's type 1: struct (), final, supertype 0, bytes 4 to 8
";
    assert_eq!(said, wanted);
    // A library of no types moves no number; without one nothing is said of it.
    let empty = yes(&["check", "--library", "00", FINAL]);
    assert_eq!(empty, "yes: 1 type, 0 of the library\n  type 0: struct (), final, bytes 1 to 2\n");
    let none = yes(&["check", FINAL]);
    assert_eq!(none, "yes: 1 type\n  type 0: struct (), final, bytes 1 to 2\n");
    // A library alone: an add-on without types of its own.
    let alone = yes(&["check", "--library", FINAL, "00"]);
    assert!(alone.starts_with("yes: 1 type, 1 of the library\n"), "{alone}");
}

/// The library's bytes are the ones shown, and nothing is said of the add-on's, which are wrong too.
#[test]
fn byte_faults_of_the_library_come_first() {
    let wrong = "01 7A";
    let said = refused("01 5F 01 7B 00", wrong, "3 at byte 3 of the library");
    assert_marked(&said, "01 5f 01 7b 00", "7b");
    told(&said, "7b is v128, which is not accepted yet", &[]);
    assert!(!said.contains("7a"), "{said}");
    let cases = [
        ("", "1 at byte 0", "the bytes end where the count of groups has to begin"),
        ("02 5F 00", "1 at byte 3", "the bytes end where group 2 of 2 has to begin"),
        ("80 80 80 80 80", "2 at byte 0", "the count of groups goes on after 5 bytes"),
        ("00 00", "5 at byte 1", "1 byte is left over"),
        ("81 00 5F 00", "32 at byte 0", "the count of groups has more bytes than it needs"),
    ];
    for (library, headline, cause) in cases {
        let said = refused(library, wrong, &format!("{headline} of the library"));
        assert!(said.contains(cause), "{said}");
    }
    let fields = format!("01 5F 41 {}", "7F 00 ".repeat(65));
    let said = refused(&fields, wrong, "4 at byte 131 of the library");
    told(&said, "a field beyond the 64 that type 0 may have begins here", &[]);
    let types = format!("81 08 {}", "5F 00 ".repeat(1_025));
    let said = refused(&types, wrong, "4 at byte 2050 of the library");
    told(&said, "a type beyond the 1,024 that a section may have begins here", &[]);
    let long = OwnFile::new("long-library", &[0; 40_000]);
    let said = refused(long.name(), wrong, "4 at byte 0 of the library, for the whole input");
    told(&said, "a library has at most 32768 bytes", &[]);
}

#[test]
fn byte_faults_of_the_add_on() {
    let said = refused(FINAL, "01 5F 01 7B 00", "3 at byte 3 of the add-on");
    assert_marked(&said, "01 5f 01 7b 00", "7b");
    let fields = format!("01 5F 41 {}", "7F 00 ".repeat(65));
    let said = refused(FINAL, &fields, "4 at byte 131 of the add-on");
    told(&said, "a field beyond the 64 that type 1 may have begins here", &[]);
    let long = OwnFile::new("long-add-on", &[0; 40_000]);
    let said = refused(FINAL, long.name(), "4 at byte 0 of the add-on, for the whole input");
    told(&said, "a section has at most 32768 bytes", &[]);
    // The size of the add-on comes after every rule of the library.
    refused("01 4C 00 60 00 00", long.name(), "9 at type 0 of the library");
    refused(FINAL, "", "1 at byte 0 of the add-on");
    refused("00", "00 00", "5 at byte 1 of the add-on");
}

/// Of each rule one case, with an add-on whose bytes are wrong: the library is judged by itself.
#[test]
fn rules_of_the_library() {
    let chain: String = (0..64).map(|supertype| format!("50 01 {supertype:02X} 5F 00 ")).collect();
    let chain = format!("41 50 00 5F 00 {chain}");
    let cases = [
        (
            "01 5F 01 63 01 00",
            "6 at type 0",
            "field 0 of type 0 names type 1: there is no type 1; the library has 1 type",
        ),
        (
            "02 5F 01 63 01 00 5F 00",
            "6 at type 0",
            "field 0 of type 0 names type 1: type 1 stands in a later group; the last of its own group is 0",
        ),
        ("01 4F 01 00 5F 00", "7 at type 0", "type 0 has supertype 0, which is not earlier"),
        ("02 5F 00 4F 01 00 5F 00", "7 at type 1", "type 0, the supertype of type 1, is final"),
        (
            &chain,
            "4 at type 64",
            "64 steps up the supertype chain of type 64; 63 are the most",
        ),
        (
            "02 50 00 5F 01 7F 00 4F 01 00 5F 00",
            "8 at type 1",
            "type 1 has 0 fields and its supertype, type 0, has 1 field",
        ),
        ("01 4C 00 60 00 00", "9 at type 0", "type 0 is a function and says describes 0"),
        ("01 4C 00 5F 00", "10 at type 0", "type 0 describes type 0, which is not earlier"),
        ("01 4D 00 5F 00", "11 at type 0", "type 0 has descriptor 0, but type 0 describes nothing"),
        (
            "02 4E 02 50 00 4D 01 5F 00 50 00 4C 00 5F 00 4F 01 00 5F 00",
            "12 at type 2",
            "type 0, its supertype, has descriptor 1; type 2 has none",
        ),
        (
            "02 50 00 5F 00 4E 02 4D 02 5F 00 4F 01 00 4C 01 5F 00",
            "13 at type 2",
            "type 2 describes 1; type 0, its supertype, describes nothing",
        ),
    ];
    for (library, headline, cause) in cases {
        let said = refused(library, "01 7A", &format!("{headline} of the library"));
        told(&said, cause, &[]);
        assert!(said.contains("^^") && !said.contains("add-on"), "{said}");
    }
}

/// Out of reach: the library cannot name the add-on's types, and the add-on none after its own group.
#[test]
fn numbers_out_of_reach() {
    let said = refused("01 5F 01 63 01 00", FINAL, "6 at type 0 of the library");
    let cause =
        "field 0 of type 0 names type 1: that would be the add-on's type 0, and the library \
                 cannot name the add-on's types; the library has 1 type";
    told(&said, cause, &["3 63 01 00 type 0: field 0 names 1"]);
    assert_marked(&said, "01 5f 01 63 01 00", "5f 01 63 01 00");
    let said = refused(OPEN, "02 5F 01 63 02 00 5F 00", "6 at type 1, the add-on's type 0");
    let cause = "field 0 of type 1 names type 2: type 2 stands in a later group; the last of its own group is 1";
    told(&said, cause, &["3 63 02 00 type 1, the add-on's type 0: field 0 names 2"]);
    let said = refused(OPEN, "01 5F 01 63 05 00", "6 at type 1, the add-on's type 0");
    told(
        &said,
        "field 0 of type 1 names type 5: there is no type 5; the library has 1 type and the add-on 1",
        &[],
    );
    // In the library's reach and the add-on's: its own number and the library's.
    yes(&["check", "--library", OPEN, "01 5F 02 63 00 00 63 01 00"]);
}

#[test]
fn a_supertype_in_the_library() {
    let said = refused(FINAL, "01 4F 01 00 5F 00", "7 at type 1, the add-on's type 0");
    told(
        &said,
        "type 0 of the library, the supertype of type 1, is final",
        &[
            "1 4f 01 00 type 1, the add-on's type 0: final, supertype 0",
            "in the library:",
            "1 5f 00 type 0: neither 50 nor 4f before it, so final, no supertype",
        ],
    );
    assert_marked(&said, "01 4f 01 00 5f 00", "4f 01 00 5f 00");
    let at = "8 at type 1, the add-on's type 0";
    told(
        &refused(ONE_FIELD, "01 4F 01 00 5F 01 7E 00", at),
        "field 0 of type 1 is i64 and its supertype, type 0 of the library, has i32 there: i64 is not below i32",
        &[
            "6 7e 00 type 1, the add-on's type 0: field 0: i64",
            "in the library:",
            "5 7f 00 type 0, its supertype: field 0: i32",
        ],
    );
    told(
        &refused(ONE_FIELD, "01 4F 01 00 5F 00", at),
        "type 1 has 0 fields and its supertype, type 0 of the library, has 1 field",
        &[
            "4 5f 00 type 1, the add-on's type 0: 0 fields",
            "3 5f 01 type 0, its supertype: 1 field",
        ],
    );
    told(
        &refused(ONE_FIELD, "01 4F 01 00 60 00 00", at),
        "type 1 is a function and its supertype, type 0 of the library, a struct",
        &["4 60 00 type 1, the add-on's type 0: function", "3 5f 01 type 0, its supertype: struct"],
    );
    told(
        &refused("01 50 00 60 01 6D 00", "01 4F 01 00 60 01 6B 00", at),
        "parameter 0 of type 1 is (ref null struct) and its supertype, type 0 of the library, has \
         (ref null eq) there: (ref null eq) is not below (ref null struct)",
        &["6 6b type 1, the add-on's type 0: parameter 0: (ref null struct)"],
    );
    // Of two types of the add-on nothing is said of the library.
    let own = refused(OPEN, "02 5F 00 4F 01 01 5F 00", "7 at type 2, the add-on's type 1");
    told(
        &own,
        "type 1, the supertype of type 2, is final",
        &["3 4f 01 01 type 2, the add-on's type 1: final, supertype 1"],
    );
    assert!(!own.contains("library"), "{own}");
}

/// A descriptor and what it describes stand in one section; each answers the other.
#[test]
fn descriptors_across_the_sections() {
    told(
        &refused(DESCRIBED, "01 4D 01 5F 00", "11 at type 2, the add-on's type 0"),
        "type 2 has descriptor 1, but type 1 of the library describes 0; a type of the library cannot \
         describe one of the add-on",
        &[
            "1 4d 01 type 2, the add-on's type 0: descriptor 1",
            "in the library:",
            "11 4c 00 type 1: describes 0",
        ],
    );
    told(
        &refused(FINAL, "01 4C 00 5F 00", "11 at type 1, the add-on's type 0"),
        "type 1 describes 0, but the descriptor of type 0 of the library is none; a type of the library \
         cannot have its descriptor in the add-on",
        &[
            "1 4c 00 type 1, the add-on's type 0: describes 0",
            "in the library:",
            "1 5f 00 type 0: no descriptor clause",
        ],
    );
    let own = refused(FINAL, "01 4D 01 5F 00", "11 at type 1, the add-on's type 0");
    told(&own, "type 1 has descriptor 1, but type 1 describes nothing", &[]);
    assert!(!own.contains("library"), "{own}");
    told(
        &refused(FINAL, "01 4C 01 60 00 00", "9 at type 1, the add-on's type 0"),
        "type 1 is a function and says describes 1",
        &["1 4c 01 type 1, the add-on's type 0: describes 1"],
    );
    told(
        &refused(FINAL, "01 4C 01 5F 00", "10 at type 1, the add-on's type 0"),
        "type 1 describes type 1, which is not earlier",
        &[],
    );
}

/// Rules 4 and 5 with the supertype in the library: its descriptor binds what stands below it.
#[test]
fn descriptors_follow_the_librarys() {
    told(
        &refused(DESCRIBED, "01 4F 01 00 5F 00", "12 at type 2, the add-on's type 0"),
        "type 0 of the library, its supertype, has descriptor 1; type 2 has none",
        &[
            "1 4f 01 00 5f 00 type 2, the add-on's type 0: no descriptor clause",
            "in the library:",
            "5 4d 01 type 0: descriptor 1",
        ],
    );
    let beside = "01 4E 02 4F 01 00 4D 03 5F 00 4C 02 5F 00";
    told(
        &refused(DESCRIBED, beside, "12 at type 2, the add-on's type 0"),
        "type 0 of the library, its supertype, has descriptor 1; type 2 has descriptor 3, whose \
         supertype is none and not 1",
        &[
            "6 4d 03 type 2, the add-on's type 0: descriptor 3",
            "12 5f 00 type 3, the add-on's type 1: neither 50 nor 4f before it, so final, no supertype",
            "in the library:",
            "5 4d 01 type 0: descriptor 1",
        ],
    );
    told(
        &refused(DESCRIBED, "01 4F 01 01 5F 00", "13 at type 2, the add-on's type 0"),
        "type 2 describes nothing; type 1 of the library, its supertype, describes 0",
        &["in the library:", "11 4c 00 type 1: describes 0"],
    );
    let stranger = "01 4E 02 4D 03 5F 00 4F 01 01 4C 02 5F 00";
    told(
        &refused(DESCRIBED, stranger, "13 at type 3, the add-on's type 1"),
        "type 3 describes 2; type 1 of the library, its supertype, describes 0, but the supertype of \
         type 2 is none",
        &["10 4c 02 type 3, the add-on's type 1: describes 2", "in the library:"],
    );
    yes(&["check", "--library", DESCRIBED, "01 4E 02 4F 01 00 4D 03 5F 00 4F 01 01 4C 02 5F 00"]);
}

/// 1,024 types in both together, and what may still stand after them.
#[test]
fn types_are_counted_through_both() {
    let of = |count: &str, types: usize| format!("{count} {}", "5F 00 ".repeat(types));
    let (almost, full) = (of("FF 07", 1_023), of("80 08", 1_024));
    assert!(yes(&["check", "--library", &almost, FINAL]).starts_with("yes: 1024 types, 1023 of"));
    let said = refused(&almost, "02 5F 00 5F 00", "4 at byte 3 of the add-on");
    told(
        &said,
        "a type beyond the 1,024 that the library and the add-on may have together begins here; the \
         library has 1023",
        &[],
    );
    assert!(yes(&["check", "--library", &full, "01 4E 00"]).starts_with("yes: 1024 types, 1024 of"));
    refused(&full, "01", "1 at byte 1 of the add-on");
    refused(&full, "01 00", "4 at byte 1 of the add-on");
    refused(&full, "01 4E 01", "4 at byte 3 of the add-on");
    assert!(yes(&["check", &full]).starts_with("yes: 1024 types\n"));
}

/// Type n stands n steps below type 0; the library has types 0 to 39.
#[test]
fn a_chain_through_both() {
    let open = |from: usize, to: usize| -> String {
        (from..to).map(|number| format!("50 01 {:02X} 5F 00 ", number - 1)).collect()
    };
    let library = format!("28 50 00 5F 00 {}", open(1, 40));
    yes(&["check", "--library", &library, &format!("18 {}", open(40, 64))]);
    let said =
        refused(&library, &format!("19 {}", open(40, 65)), "4 at type 64, the add-on's type 24");
    told(
        &said,
        "64 steps up the supertype chain of type 64, 39 of them in the library; 63 are the most",
        &["121 50 01 3f type 64, the add-on's type 24: open, supertype 63"],
    );
}

/// Parts of types are shown by the section that holds them; places in a body are the body's alone.
#[test]
fn bodies_over_both() {
    let check = |library: &str, section: &str, body: &str, number: &str| {
        no(&["check", "--library", library, section, body, number])
    };
    let absent = check(FINAL, V, "00 D0 02 1A 0B", "1");
    assert!(absent.starts_with("no: refusal 6 at byte 1 of the body\n"), "{absent}");
    told(&absent, "there is no type 2; the library has 1 type and the add-on 1", &[]);
    let number = check(FINAL, V, "00 0B", "2");
    assert!(number.starts_with("no: refusal 27 at 0, for the type's number\n"), "{number}");
    told(&number, "there is no type 2; the library has 1 type and the add-on 1", &[]);
    let shown = ["in the library:", "1 5f 00 type 0: struct"];
    told(&check(FINAL, V, "00 0B", "0"), "type 0 of the library is a struct", &shown);
    assert_eq!(yes(&["check", "--library", FINAL, V, "00 0B", "1"]), "yes: 1 instruction\n");
    told(
        &check(DESCRIBED, V, "00 FB 00 00 1A 0B", "2"),
        "type 0 of the library has descriptor 1, struct.new takes none that has",
        &["1 fb 00 00 struct.new 0", "in the library:", "5 4d 01 type 0: descriptor 1"],
    );
    told(
        &check(DESCRIBED, V, "00 FB 20 01 1A 0B", "2"),
        "type 1 of the library has no descriptor, struct.new_desc takes a type that has one",
        &["in the library:", "9 50 00 4c 00 5f 00 type 1: no descriptor clause"],
    );
    told(
        &check(V, FINAL, "00 FB 00 00 1A 0B", "0"),
        "type 0 of the library is a function, struct.new takes a struct",
        &["in the library:", "1 60 00 type 0: function"],
    );
    told(
        &check(ONE_FIELD, V, "00 D0 00 FB 02 00 03 1A 0B", "1"),
        "type 0 of the library has 1 field, and no field 3",
        &["in the library:", "3 5f 01 type 0: 1 field"],
    );
    told(
        &check(ONE_FIELD, V, "00 D0 00 41 00 FB 05 00 00 0B", "1"),
        "field 0 of type 0 of the library is fixed",
        &["in the library:", "5 7f 00 type 0: field 0: i32, fixed"],
    );
    told(
        &check("01 5F 01 64 00 00", V, "00 FB 01 00 1A 0B", "1"),
        "field 0 of type 0 of the library, (ref 0), has no default",
        &["in the library:", "3 64 00 00 type 0: field 0: (ref 0)"],
    );
    told(
        &check(FINAL, "02 5F 01 7F 00 60 00 00", "00 D0 01 41 00 FB 05 01 00 0B", "2"),
        "field 0 of type 1 is fixed",
        &["in the add-on:", "3 7f 00 type 1, the add-on's type 0: field 0: i32, fixed"],
    );
    // Operands name types of both.
    told(
        &check(OPEN, "02 4F 01 00 5F 00 60 00 01 64 01", "00 FB 00 00 0B", "2"),
        "end wants (ref 1) on top and finds (ref (exact 0))",
        &[],
    );
    yes(&["check", "--library", OPEN, "02 4F 01 00 5F 00 60 00 01 64 00", "00 FB 00 01 0B", "2"]);
}

/// A run's own refusals, and whose fault it is where the body was not looked at.
#[test]
fn runs_over_both() {
    let function = "02 5F 00 60 01 64 00 00";
    let parameters = no(&["run", "--library", function, "00", "00 0B", "1", "9"]);
    assert!(parameters.starts_with("no: refusal 29 at 0, for the parameters\n"), "{parameters}");
    told(
        &parameters,
        "a run starts with zero or null parameters, and parameter 0 is (ref 0) without a default",
        &["in the library:", "5 64 00 type 1: parameter 0: (ref 0)"],
    );
    let library = no(&["run", "--library", "00 00", V, "00 0B", "0", "9"]);
    assert!(library.starts_with("no: refusal 5 at byte 1 of the library\n"), "{library}");
    assert!(library.ends_with("  the library itself is refused; the body was not looked at\n"));
    let section = no(&["run", "--library", V, "00 00", "00 0B", "0", "9"]);
    assert!(section.starts_with("no: refusal 5 at byte 1 of the add-on\n"), "{section}");
    assert!(section.ends_with("  the section itself is refused; the body was not looked at\n"));
    // Objects have the numbers of the joined list: 0 of the library, 1 of the add-on.
    let body = "00 FB 00 00 1A FB 00 01 1A 0B";
    let wanted = "\
done after 5 steps, results: nothing

  place     10, the body's end
  heap      object 0: type 0
            object 1: type 1
  locals    nothing
  operands  nothing
  blocks    nothing
";
    let section = "02 5F 00 60 00 00";
    assert_eq!(yes(&["run", "--library", FINAL, section, body, "2", "9"]), wanted);
}

/// The bytes, and which section holds them, as a comment.
#[test]
fn a_types_bytes_and_their_section() {
    let section = "01 4F 01 00 5F 00";
    assert_eq!(yes(&["type", "--library", OPEN, section, "1"]), "4f 01 00 5f 00 # of the add-on\n");
    assert_eq!(yes(&["type", "--library", OPEN, section, "0"]), "50 00 5f 00 # of the library\n");
    assert_eq!(yes(&["type", "--library", "00", FINAL, "0"]), "5f 00 # of the add-on\n");
    let absent = no(&["type", "--library", OPEN, section, "2"]);
    assert!(absent.starts_with("no: refusal 6 at type 2\n"), "{absent}");
    told(&absent, "the library has 1 type and the add-on 1; there is no type 2", &[]);
    let refused = no(&["type", "--library", "01 7B", section, "0"]);
    assert!(refused.starts_with("no: refusal 3 at byte 1 of the library\n"), "{refused}");
}

#[test]
fn a_pair_is_listed() {
    let section = "02 4F 01 00 5F 00 60 00 01 63 01";
    let wanted = "\
the library
     0  01                      1 group
     1  50 00                   type 0: open
     3  5f 00                   struct of 0 fields

the add-on
     0  02                      2 groups
     1  4f 01 00                type 1: final, supertype 0
     4  5f 00                   struct of 0 fields
     6  60 00                   type 2: function of 0 parameters
     8  01                      1 result
     9  63 01                     result 0: (ref null 1)
";
    assert_eq!(yes(&["dump", "section", "--library", OPEN, section]), wanted);
    let broken = no(&["dump", "section", "--library", "01 7B", FINAL]);
    assert!(broken.contains("     1  the listing breaks off here: 7b is neither"), "{broken}");
    assert!(broken.ends_with("     1  5f 00                   type 0: struct of 0 fields\n"));
    assert_eq!(chelbugan(&["dump", "-q", "section", "--library", OPEN, "01 7B"]).status, 1);
}

/// The text of a section that runs on after a library, and back.
#[test]
fn a_section_after_a_library_is_printed_and_assembled() {
    let section = "02 4f 01 00 5f 00 60 00 01 63 01";
    let text = "\
;; type 0 is the library's
(type $1 (sub final 0 (struct)))
(type $2 (func (result (ref null $1))))
";
    assert_eq!(yes(&["print", "section", "--library", OPEN, section]), text);
    let assemble = |text: &str| yes(&["assemble", "section", "--library", OPEN, text]);
    assert_eq!(assemble(text), format!("{section}\n"));
    let named = "(type $leg (sub final 0 (struct))) (type (func (result (ref null $leg))))";
    assert_eq!(assemble(named), format!("{section}\n"));
    let unread = chelbugan(&["print", "section", "--library", "01 7B", section]);
    assert_eq!((unread.status, unread.out.as_str()), (1, ""));
    assert!(unread.err.starts_with("chelbugan: byte 1 of the library: 7b is "), "{}", unread.err);
}

/// A line each, with one library for all; it may be standard input.
#[test]
fn many_files_after_one_library() {
    let good = OwnFile::new("below.hex", b"01 4F 01 00 5F 00");
    let bad = OwnFile::new("cut-below.hex", b"01 4F 01 00");
    let lines = format!(
        "{}: yes: 2 types, 1 of the library\n{}: no: refusal 1 at byte 4 of the add-on: the bytes end \
         where 5F, a struct, or 60, a function, has to begin\n",
        good.name(),
        bad.name()
    );
    let names = [good.name(), bad.name(), good.name()];
    let said = chelbugan(&[&["check", "--library", OPEN], &names[..]].concat());
    let first = format!("{}: yes: 2 types, 1 of the library\n", good.name());
    assert_eq!((said.status, said.out.as_str()), (1, &*(lines + &first)));
    let fed =
        chelbugan_fed(&["check", "--library", "-", good.name(), good.name()], b"01 50 00 5F 00");
    assert_eq!((fed.status, fed.out), (0, first.repeat(2)));
    // The library's own fault is every file's.
    let said = chelbugan(&["check", "--library", FINAL, good.name(), good.name()]);
    let line = format!(
        "{}: no: refusal 7 at type 1, the add-on's type 0: type 0 of the library, the supertype of \
         type 1, is final\n",
        good.name()
    );
    assert_eq!((said.status, said.out), (1, line.repeat(2)));
    let said = chelbugan(&["check", "--library", "00 00", good.name(), good.name()]);
    let line =
        format!("{}: no: refusal 5 at byte 1 of the library: 1 byte is left over\n", good.name());
    assert_eq!((said.status, said.out), (1, line.repeat(2)));
}

/// Written as any other input, and the option may stand anywhere.
#[test]
fn a_library_is_an_input_like_any_other() {
    let section = "01 4F 01 00 5F 00";
    let wanted = yes(&["check", "--library", OPEN, section]);
    let raw = OwnFile::new("library", &[0x01, 0x50, 0x00, 0x5F, 0x00]);
    let text = OwnFile::new("library.hex", b"01 50 00 # open\n5F 00\n");
    for library in
        ["0150005f00", "hex:01 50 00 5F 00", "0x01,0x50,0x00,0x5F,0x00", raw.name(), text.name()]
    {
        assert_eq!(yes(&["check", section, "--library", library]), wanted, "{library}");
        assert_eq!(yes(&[&format!("--library={library}"), "check", section]), wanted, "{library}");
    }
    let fed = chelbugan_fed(&["check", "--library", "-", section], b"\x01\x50\x00\x5F\x00");
    assert_eq!(fed.out, wanted);
    let quiet = chelbugan(&["check", "-q", "--library", FINAL, section]);
    assert_eq!((quiet.status, quiet.out.as_str(), quiet.err.as_str()), (1, "", ""));
    // A module, or hex digits in a file of another name, is recognised in the library too.
    let digits = OwnFile::new("digits-library.txt", b"01 5F 00\n");
    assert!(no(&["check", "--library", digits.name(), section]).contains("hex digits in text"));
}
