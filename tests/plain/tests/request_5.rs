//! Request 5 of document 02: a library of types before an add-on's section. Worked out by
//! hand from the papers, with every example of READINGS-02.md, "Request 5", that needs no
//! module. Types asked for, bodies and runs are in request_5_bodies.rs.

mod common;
use common::*;

/// An open struct; and one with its descriptor, both open.
const OPEN: &str = "01 50 00 5F 00";
const PAIR: &str = "01 4E 02 50 00 4D 01 5F 00 50 00 4C 00 5F 00";

/// One byte more than an input may have.
fn too_long() -> String {
    times(32_769, "00")
}

/// So many structs, each a group of its own, after their count.
fn structs(count: &str, types: usize) -> String {
    format!("{count} {}", times(types, "5F 00"))
}

/// 64 fields and the count of 65.
fn too_many_fields() -> String {
    format!("01 5F 41 {}", times(64, "7F 00"))
}

#[test]
fn no_types_in_either() {
    assert_eq!(sections("00", "00"), "yes 0");
    assert_eq!(sections("01 4E 00", "02 4E 00 4E 00"), "yes 0");
    assert_eq!(sections("", "00"), "no 1 0 library");
    assert_eq!(sections("00", ""), "no 1 0 addon");
    assert_eq!(sections("", ""), "no 1 0 library");
    assert_eq!(sections("00 00", "00"), "no 5 1 library");
    assert_eq!(sections("00", "00 00"), "no 5 1 addon");
}

#[test]
fn reading_1_in_which_input() {
    assert_eq!(sections("01 5F 00", "01 7B"), "no 3 1 addon");
    assert_eq!(sections("01 5F 00", "01 4C 00 60 00 00"), "no 9 1");
    assert_eq!(sections("", "00"), "no 1 0 library");
    assert_eq!(body_over("01 60 00 00", "01 5F 00", 0, "00 FB 01 02 1A 0B"), "no 6 1");
}

#[test]
fn reading_2_library_first() {
    let long = too_long();
    assert_eq!(sections("01 7B", &long), "no 3 1 library");
    // Its rules too, of both passes; and its size before anything of the add-on's.
    assert_eq!(sections("01 5F 01 63 01 00", &long), "no 6 0");
    assert_eq!(sections("01 4C 00 60 00 00", &long), "no 9 0");
    assert_eq!(sections("01 4C 00 60 00 00", ""), "no 9 0");
    assert_eq!(sections(&long, &long), "no 4 0 library");
    assert_eq!(sections(&long, "01 7B"), "no 4 0 library");
    // An accepted one lets the add-on's size be said, before its bytes.
    assert_eq!(sections("01 5F 00", &long), "no 4 0 addon");
    assert_eq!(sections("01 5F 00", &format!("7B {long}")), "no 4 0 addon");
}

#[test]
fn reading_3_bytes_of_each() {
    // 16,383 empty groups after a count of two bytes.
    let full = format!("FF 7F {}", times(16_383, "4E 00"));
    let one_more = format!("{full} 00");
    assert_eq!(sections(&full, &full), "yes 0");
    assert_eq!(sections(&one_more, &full), "no 4 0 library");
    assert_eq!(sections(&full, &one_more), "no 4 0 addon");
    assert_eq!(sections(&one_more, &one_more), "no 4 0 library");
    // One byte less is read, and is left over.
    let left_over = format!("FE 7F {} 00", times(16_382, "4E 00"));
    assert_eq!(sections(&left_over, &full), "no 5 32766 library");
    assert_eq!(sections(&full, &left_over), "no 5 32766 addon");
}

#[test]
fn reading_3_types_of_both() {
    // 1,000 and 24, the number that the add-on may have then.
    let thousand = structs("E8 07", 1_000);
    assert_eq!(count_only(&sections(&thousand, &structs("18", 24))), "yes 1024");
    assert_eq!(sections(&thousand, &structs("19", 25)), "no 4 49 addon");
    assert_eq!(sections(&thousand, &structs("01 4E 19", 25)), "no 4 51 addon");
    assert_eq!(count_only(&sections(&thousand, &structs("01 4E 18", 24))), "yes 1024");
    // After them: no byte, a byte, an empty group, one that is not.
    let twenty_four = structs("19", 24);
    assert_eq!(sections(&thousand, &twenty_four), "no 1 49 addon");
    assert_eq!(sections(&thousand, &format!("{twenty_four} 00")), "no 4 49 addon");
    let empty = sections(&thousand, &format!("{twenty_four} 4E 00"));
    assert_eq!(count_only(&empty), "yes 1024");
    assert_eq!(sections(&thousand, &format!("{twenty_four} 4E 01")), "no 4 51 addon");
    // 1,023 and one or two; one or none and 1,024.
    let all_but_one = structs("FF 07", 1_023);
    assert_eq!(count_only(&sections(&all_but_one, "01 5F 00")), "yes 1024");
    assert_eq!(sections(&all_but_one, "02 5F 00 5F 00"), "no 4 3 addon");
    let all = structs("80 08", 1_024);
    assert_eq!(count_only(&sections("00", &all)), "yes 1024");
    assert_eq!(sections("01 5F 00", &all), "no 4 2048 addon");
    assert_eq!(sections("00", &structs("81 08", 1_025)), "no 4 2050 addon");
    assert_eq!(sections(&structs("81 08", 1_025), "00"), "no 4 2050 library");
    assert_eq!(sections(&structs("01 4E 81 08", 1_025), "01 7B"), "no 4 2052 library");
}

#[test]
fn reading_4_after_a_full_library() {
    let full = structs("80 08", 1_024);
    assert_eq!(sections(&full, "01"), "no 1 1 addon");
    assert_eq!(sections(&full, "01 00"), "no 4 1 addon");
    assert_eq!(count_only(&sections(&full, "01 4E 00")), "yes 1024");
    assert_eq!(sections(&full, "01 4E 01"), "no 4 3 addon");
    assert_eq!(count_only(&sections(&full, "00")), "yes 1024");
    assert_eq!(sections(&full, ""), "no 1 0 addon");
    assert_eq!(sections(&full, "01 4E"), "no 1 2 addon");
    assert_eq!(sections(&full, "01 4E 81 00"), "no 32 2 addon");
    assert_eq!(sections(&full, "02 4E 00 5F 00"), "no 4 3 addon");
    assert_eq!(sections(&full, "00 00"), "no 5 1 addon");
}

/// Steps from the last type up to the first, wherever the boundary lies.
#[test]
fn reading_3_chain_over_both() {
    let links = |numbers: std::ops::Range<usize>| -> String {
        let link = |number: usize| format!("50 01 {:02X} 5F 00", number - 1);
        numbers.map(link).collect::<Vec<_>>().join(" ")
    };
    // Type 63 has 63 steps, 64 has 64. All but the last in the library; half; all but the first.
    let library = |count: usize| format!("{count:02X} 50 00 5F 00 {}", links(1..count));
    let section =
        |first: usize, after: usize| format!("{:02X} {}", after - first, links(first..after));
    for first in [1, 2, 32, 62, 63] {
        let accepted = sections(&library(first), &section(first, 64));
        assert_eq!(count_only(&accepted), "yes 64", "{first}");
        assert_eq!(sections(&library(first), &section(first, 65)), "no 4 64", "{first}");
    }
    assert_eq!(sections(&library(64), &section(64, 65)), "no 4 64");
    assert_eq!(sections(&library(65), "01 7B"), "no 4 64");
}

#[test]
fn reading_6_the_library_names_none_of_the_add_ons() {
    assert_eq!(sections("01 5F 01 63 01 00", "01 5F 00"), "no 6 0");
    assert_eq!(sections("01 5F 01 64 62 01 00", "01 5F 00"), "no 6 0");
    assert_eq!(sections("01 60 01 63 01 00", "01 5F 00"), "no 6 0");
    assert_eq!(sections("01 60 00 01 63 01", "01 5F 00"), "no 6 0");
    assert_eq!(sections("01 4F 01 01 5F 00", OPEN), "no 6 0");
    assert_eq!(sections("01 4D 01 5F 00", "01 4C 00 5F 00"), "no 6 0");
    assert_eq!(sections("01 4C 01 5F 00", "01 4D 00 5F 00"), "no 6 0");
    // The same types in one section, where they are one group.
    let one_group = "01 4E 02 4D 01 5F 00 4C 00 5F 00";
    assert_eq!(count_only(&sections("00", one_group)), "yes 2");
    assert_eq!(count_only(&sections(one_group, "00")), "yes 2");
}

#[test]
fn reading_7_places_count_in_the_section_that_holds() {
    assert_eq!(
        sections(OPEN, "01 4F 01 00 5F 00"),
        "yes 2 struct open super=- describes=- descriptor=- 1..5 library;\
         struct final super=0 describes=- descriptor=- 1..6 addon"
    );
    assert_eq!(
        sections(PAIR, "01 4E 02 4F 01 00 4D 03 5F 00 4F 01 01 4C 02 5F 00"),
        "yes 4 struct open super=- describes=- descriptor=1 3..9 library;\
         struct open super=- describes=0 descriptor=- 9..15 library;\
         struct final super=0 describes=- descriptor=3 3..10 addon;\
         struct final super=1 describes=2 descriptor=- 10..17 addon"
    );
    assert_eq!(
        sections("01 60 00 00", "00"),
        "yes 1 func final super=- describes=- descriptor=- 1..4 library"
    );
    assert_eq!(
        sections("00", "01 60 00 00"),
        "yes 1 func final super=- describes=- descriptor=- 1..4 addon"
    );
}

/// Each number with its place where it stands in a section by itself.
fn faults_of_bytes() -> Vec<(String, &'static str)> {
    vec![
        ("".to_string(), "1 0"),
        ("01".to_string(), "1 1"),
        ("01 5F 01 63".to_string(), "1 4"),
        ("80 80 80 80 10".to_string(), "2 0"),
        ("01 5F 80 80 80 80 80 00".to_string(), "2 2"),
        ("01 7B".to_string(), "3 1"),
        ("01 5F 01 63 7F 00".to_string(), "3 4"),
        ("01 5F 01 7F 02".to_string(), "3 4"),
        (too_many_fields(), "4 131"),
        (too_long(), "4 0"),
        ("00 00".to_string(), "5 1"),
        ("01 5F 00 00".to_string(), "5 3"),
        ("81 00 5F 00".to_string(), "32 0"),
        ("01 5F 01 63 80 00 00".to_string(), "32 4"),
    ]
}

#[test]
fn byte_faults_of_either() {
    let addons = ["00", "01 5F 00", "", "01 7B", "01 5F 01 63 09 00", "01 4C 00 60 00 00"];
    for (bytes, fault) in faults_of_bytes() {
        for addon in addons.map(String::from).into_iter().chain([too_long(), bytes.clone()]) {
            assert_eq!(sections(&bytes, &addon), format!("no {fault} library"));
        }
        for library in ["00", OPEN, PAIR] {
            assert_eq!(sections(library, &bytes), format!("no {fault} addon"));
        }
        assert_eq!(section(&bytes), format!("no {fault}"));
    }
}

/// A library against each rule, at this type's number.
const AGAINST_RULES: [(&str, &str); 10] = [
    ("01 5F 01 63 01 00", "6 0"),
    ("01 4F 01 00 5F 00", "7 0"),
    ("02 5F 00 4F 01 00 5F 00", "7 1"),
    ("02 50 00 5F 00 4F 01 00 60 00 00", "8 1"),
    ("01 4C 00 60 00 00", "9 0"),
    ("01 4C 00 5F 00", "10 0"),
    ("02 5F 00 4C 00 5F 00", "11 1"),
    ("01 4E 02 4D 01 5F 00 5F 00", "11 0"),
    ("02 4E 02 50 00 4D 01 5F 00 50 00 4C 00 5F 00 4F 01 00 5F 00", "12 2"),
    ("02 4E 02 50 00 4D 01 5F 00 50 00 4C 00 5F 00 4F 01 01 5F 00", "13 2"),
];

#[test]
fn rules_of_the_library() {
    let addons = ["00", "01 5F 00", "", "01 7B", "80", "01 5F 01 63 09 00", "01 4F 02 00 00 5F 00"];
    for (library, fault) in AGAINST_RULES {
        for addon in addons.map(String::from).into_iter().chain([too_long()]) {
            assert_eq!(sections(library, &addon), format!("no {fault}"));
        }
    }
}

/// An add-on against each rule, with what it is about in the library.
#[test]
fn rules_of_the_add_on() {
    // Number 1 is the add-on's own type, 2 is nobody's.
    assert_eq!(sections(OPEN, "01 5F 01 63 02 00"), "no 6 1");
    assert_eq!(sections(OPEN, "01 4F 01 01 5F 00"), "no 7 1");
    assert_eq!(sections("01 5F 00", "01 4F 01 00 5F 00"), "no 7 1");
    assert_eq!(sections(OPEN, "01 4F 02 00 00 5F 00"), "no 7 1");
    assert_eq!(sections(OPEN, "01 4F 01 00 60 00 00"), "no 8 1");
    assert_eq!(sections(OPEN, "01 4C 00 60 00 00"), "no 9 1");
    assert_eq!(sections(OPEN, "01 4C 01 5F 00"), "no 10 1");
    assert_eq!(sections(OPEN, "01 4C 00 5F 00"), "no 11 1");
    assert_eq!(sections(PAIR, "01 4F 01 00 5F 00"), "no 12 2");
    assert_eq!(sections(PAIR, "01 4F 01 01 5F 00"), "no 13 2");
    // Both passes go over the add-on's types alone: 7 of a later one before 8 of an earlier.
    assert_eq!(sections(OPEN, "02 4F 01 00 60 00 00 4F 01 02 5F 00"), "no 7 2");
    assert_eq!(sections(OPEN, "02 4F 01 00 60 00 00 4C 00 60 00 00"), "no 8 1");
}

#[test]
fn numbers_run_on() {
    // 0 is a struct of an i32, 1 a function; the add-on's first is 2.
    let library = "02 50 00 5F 01 7F 00 60 00 00";
    let judged = |section: &str| sections(library, section);
    let accepted = |section: &str| count_only(&judged(section));
    for number in ["00", "01", "02", "62 00", "62 01", "62 02"] {
        assert_eq!(accepted(&format!("01 5F 01 63 {number} 00")), "yes 3", "{number}");
        assert_eq!(accepted(&format!("01 60 01 64 {number} 00")), "yes 3", "{number}");
        assert_eq!(accepted(&format!("01 60 00 01 63 {number}")), "yes 3", "{number}");
    }
    for number in ["03", "62 03", "04"] {
        assert_eq!(judged(&format!("01 5F 01 63 {number} 00")), "no 6 2", "{number}");
        assert_eq!(judged(&format!("01 60 00 01 63 {number}")), "no 6 2", "{number}");
    }
    // Up to the end of the own group.
    assert_eq!(accepted("01 4E 02 5F 01 63 03 00 5F 00"), "yes 4");
    assert_eq!(judged("02 5F 01 63 03 00 5F 00"), "no 6 2");
    assert_eq!(judged("02 5F 00 5F 01 63 04 00"), "no 6 3");
    // Supertypes: 0 is the library's, whose field is asked for; 1 is final.
    assert_eq!(accepted("01 4F 01 00 5F 01 7F 00"), "yes 3");
    assert_eq!(accepted("02 50 01 00 5F 01 7F 00 4F 01 02 5F 02 7F 00 7E 01"), "yes 4");
    assert_eq!(judged("01 4F 01 00 5F 00"), "no 8 2");
    assert_eq!(judged("01 4F 01 00 5F 01 7E 00"), "no 8 2");
    assert_eq!(judged("01 4F 01 00 5F 01 7F 01"), "no 8 2");
    assert_eq!(judged("01 4F 01 01 60 00 00"), "no 7 2");
    assert_eq!(judged("01 4F 01 02 5F 00"), "no 7 2");
    assert_eq!(judged("01 4F 01 03 5F 00"), "no 6 2");
}

/// Fields, parameters and results below the library's, by types of both sections.
#[test]
fn rule_2_over_the_boundary() {
    // 0 is open; 1 has a field of it; 2 takes and gives it. The add-on's 3 is below 0.
    let library = "03 50 00 5F 00 50 00 5F 01 63 00 00 50 00 60 01 63 00 01 63 00";
    let judged = |last: &str| sections(library, &format!("02 50 01 00 5F 00 {last}"));
    let accepted = |last: &str| count_only(&judged(last));
    for below in ["63 00", "64 00", "63 03", "63 62 03", "63 62 00", "63 71"] {
        assert_eq!(accepted(&format!("4F 01 01 5F 01 {below} 00")), "yes 5", "{below}");
        assert_eq!(accepted(&format!("4F 01 02 60 01 63 00 01 {below}")), "yes 5", "{below}");
    }
    for other in ["63 01", "63 6B", "7F"] {
        assert_eq!(judged(&format!("4F 01 01 5F 01 {other} 00")), "no 8 4", "{other}");
        assert_eq!(judged(&format!("4F 01 02 60 01 63 00 01 {other}")), "no 8 4", "{other}");
    }
    // Parameters go the other way.
    assert_eq!(accepted("4F 01 02 60 01 63 6B 01 63 00"), "yes 5");
    assert_eq!(judged("4F 01 02 60 01 63 03 01 63 00"), "no 8 4");
    // Two numbers are the same type only when equal: 2 has the shape of 0.
    let library = "02 5F 00 50 00 5F 01 63 00 01";
    let mutable =
        |named: &str| sections(library, &format!("02 5F 00 4F 01 01 5F 01 63 {named} 01"));
    assert_eq!(count_only(&mutable("00")), "yes 4");
    assert_eq!(mutable("02"), "no 8 3");
}

#[test]
fn rules_3_to_5_over_the_boundary() {
    let judged = |section: &str| sections(PAIR, section);
    // A pair below the pair.
    let whole = "01 4E 02 4F 01 00 4D 03 5F 00 4F 01 01 4C 02 5F 00";
    assert_eq!(count_only(&judged(whole)), "yes 4");
    // Its descriptor below none; itself below none; the other way round.
    assert_eq!(judged("01 4E 02 4F 01 00 4D 03 5F 00 4C 02 5F 00"), "no 12 2");
    assert_eq!(judged("01 4E 02 4D 03 5F 00 4F 01 01 4C 02 5F 00"), "no 13 3");
    assert_eq!(judged("01 4E 02 4F 01 01 4D 03 5F 00 4F 01 00 4C 02 5F 00"), "no 13 2");
    // Clauses that name the library's types, which name each other.
    assert_eq!(judged("01 4D 01 5F 00"), "no 11 2");
    assert_eq!(judged("01 4C 00 5F 00"), "no 11 2");
    assert_eq!(judged("01 4C 01 5F 00"), "no 11 2");
    assert_eq!(judged("01 4F 01 00 4D 01 5F 00"), "no 11 2");
    // The same bytes as the library's: their numbers are the library's types.
    assert_eq!(judged(PAIR), "no 11 2");
    let renumbered = "01 4E 02 50 00 4D 03 5F 00 50 00 4C 02 5F 00";
    assert_eq!(count_only(&judged(renumbered)), "yes 4");
    // A supertype without a descriptor allows either.
    assert_eq!(count_only(&sections(OPEN, "01 4E 02 4F 01 00 4D 02 5F 00 4C 01 5F 00")), "yes 3");
    assert_eq!(count_only(&sections(OPEN, "01 4F 01 00 5F 00")), "yes 2");
    // 001's stranger: the descriptor's subtype describes a type that is not below.
    let stranger = "01 4E 02 4D 03 5F 00 50 01 01 4C 02 5F 00";
    assert_eq!(judged(stranger), "no 13 3");
    // A descriptor's descriptor: three in the library, two in the add-on.
    let three = "01 4E 03 50 00 4D 01 5F 00 50 00 4C 00 4D 02 5F 00 50 00 4C 01 5F 00";
    let two = "01 4E 02 4F 01 00 4D 04 5F 00 4F 01 01 4C 03 5F 00";
    assert_eq!(sections(three, two), "no 12 4");
    let below = "01 4E 03 4F 01 00 4D 04 5F 00 4F 01 01 4C 03 4D 05 5F 00 4F 01 02 4C 04 5F 00";
    assert_eq!(count_only(&sections(three, below)), "yes 6");
}
