//! Branching casts after request 4 of document 02: source and target lie in one
//! hierarchy, and nothing else is asked between them. Worked by hand, with every
//! byte example of READINGS-02.md, "Request 4".

mod common;
use common::*;
use plain::lines::read_bytes;
use plain::order::{reference_fit, share_supertype, Fit, TABLE};
use plain::section::{judge_section, EMPTY_LIBRARY};
use plain::syntax::{Heap, Reference};

const FORMS: [&str; 4] = ["18", "19", "25", "26"];
const FLAGS: [&str; 4] = ["00", "01", "02", "03"];

/// An open struct, then a function with result (ref null struct).
const STRUCT: &str = "02 50 00 5F 00 60 00 01 6B";

#[test]
fn reading_1_null_does_not_matter() {
    let result = "02 50 00 5F 00 60 00 01 63 00";
    assert_eq!(body(result, 1, "01 01 64 00 FB 01 00 FB 18 02 00 00 00 0B"), "yes 3");
}

#[test]
fn reading_2_what_25_keeps() {
    assert_eq!(body("01 60 00 01 6E", 0, "00 D0 6E FB 18 03 00 6E 70 0B"), "no 25 3");
    assert_eq!(body("01 60 00 01 6B", 0, "00 D0 71 FB 18 03 00 6B 6C 0B"), "no 25 3");
}

/// Source nullable type 0, target nullable struct, label result nullable struct. With
/// a descriptor: a source below its target, since a target has to have one.
#[test]
fn reading_3_the_new_case() {
    assert_eq!(body(STRUCT, 1, "00 D0 00 FB 18 03 00 00 6B 0B"), "yes 3");
    assert_eq!(body(STRUCT, 1, "00 D0 00 FB 19 03 00 00 6B 0B"), "yes 3");
    let described = described("6B");
    assert_eq!(body(&described, 4, "00 D0 02 D0 01 FB 25 03 00 02 00 0B"), "yes 4");
    assert_eq!(body(&described, 4, "00 D0 02 D0 01 FB 26 03 00 02 00 0B"), "yes 4");
    assert_eq!(body(&described, 4, "00 D0 00 D0 01 FB 25 03 00 00 6B 0B"), "no 23 5");
    assert_eq!(body(&described, 4, "00 D0 00 D0 01 FB 26 03 00 00 6B 0B"), "no 23 5");
}

/// The other answers of docs/DECISIONS.md, "What document 02 amends".
#[test]
fn decisions() {
    assert_eq!(body("01 60 00 01 6B", 0, "00 D0 71 FB 18 03 00 71 6B 0B"), "yes 3");
    assert_eq!(body("01 60 00 01 70", 0, "00 D0 6E FB 18 03 00 6E 70 0B"), "no 25 3");
    assert_eq!(body(&described("6B"), 4, "00 D0 70 D0 01 FB 25 03 00 70 00 0B"), "no 25 5");
}

/// The operand is below the source, which may be null where its flag says so.
#[test]
fn all_flags_are_accepted() {
    for (flags, null) in FLAGS.iter().zip(["no 31 3", "yes 3", "no 31 3", "yes 3"]) {
        for form in ["18", "19"] {
            let cast = |object: &str| format!("00 {object} FB {form} {flags} 00 00 6B 0B");
            assert_eq!(body(STRUCT, 1, &cast("FB 01 00")), "yes 3", "{form} {flags}");
            assert_eq!(body(STRUCT, 1, &cast("D0 00")), null, "{form} {flags}");
        }
    }
    let operand = ["no 31 5", "yes 4", "no 31 5", "yes 4"];
    for (flags, null) in FLAGS.iter().zip(operand) {
        for form in ["25", "26"] {
            let cast = format!("00 D0 02 D0 01 FB {form} {flags} 00 02 00 0B");
            assert_eq!(body(&described("6B"), 4, &cast), null, "{form} {flags}");
        }
    }
}

/// The fail forms carry the rest to a label that takes no null; it is null only where
/// the source may be and the target may not.
#[test]
fn the_rest_is_as_before() {
    let result = "02 50 00 5F 00 60 00 01 64 00";
    for (flags, answer) in FLAGS.iter().zip(["yes 4", "no 25 4", "yes 4", "yes 4"]) {
        let cast = format!("00 FB 01 00 FB 19 {flags} 00 00 6B 00 0B");
        assert_eq!(body(result, 1, &cast), answer, "{flags}");
    }
    let result = described("64 02");
    for (flags, answer) in FLAGS.iter().zip(["yes 4", "no 25 2", "yes 4", "yes 4"]) {
        let cast = format!("00 00 FB 26 {flags} 00 02 00 00 0B");
        assert_eq!(body(&result, 4, &cast), answer, "{flags}");
    }
}

/// A struct with its descriptor and two functions.
const ALL_KINDS: &str = "03 4E 02 4D 01 5F 00 4C 00 5F 00 60 00 00 60 00 01 7F";
/// The top of each hierarchy and heap types of it, the bottom among them.
const HIERARCHIES: [(&str, &[&str]); 3] = [
    ("6E", &["6E", "6D", "6C", "6B", "6A", "71", "00", "01", "62 00", "62 01"]),
    ("70", &["70", "73", "02", "03", "62 02", "62 03"]),
    ("6F", &["6F", "72"]),
];

/// In a block whose result is the nullable top of what is carried.
fn in_dead_code(label: &str, form: &str, flags: &str, source: &str, target: &str) -> String {
    let cast = format!("00 02 {label} 00 FB {form} {flags} 00 {source} {target} 1A 00 0B 1A 0B");
    body(ALL_KINDS, 2, &cast)
}

fn by_kind(form: &str, flags: &str, targets: &[(&str, &[&str])]) {
    for (source_top, sources) in HIERARCHIES {
        for (target_top, targets) in targets {
            let label = if matches!(form, "18" | "25") { target_top } else { source_top };
            let answer = if source_top == *target_top { "yes 8" } else { "no 25 4" };
            for (source, target) in sources.iter().flat_map(|s| targets.iter().map(move |t| (s, t)))
            {
                let judged = in_dead_code(label, form, flags, source, target);
                assert_eq!(judged, answer, "{form} {flags} from {source} to {target}");
            }
        }
    }
}

#[test]
fn one_hierarchy_or_25() {
    for flags in FLAGS {
        by_kind("18", flags, &HIERARCHIES);
        by_kind("19", flags, &HIERARCHIES);
        by_kind("25", flags, &[("6E", &["00", "62 00"])]);
        by_kind("26", flags, &[("6E", &["00", "62 00"])]);
    }
}

#[test]
fn bottoms_of_a_real_operand() {
    let cast = |form: &str, label: &str, source: &str, target: &str| {
        let operand = format!("D0 {source} FB {form} 03 00 {source} {target}");
        body(ALL_KINDS, 2, &format!("00 02 {label} {operand} 1A D0 {label} 0B 1A 0B"))
    };
    for form in ["18", "19"] {
        for (label, source, target) in [
            ("6B", "71", "6B"),
            ("6C", "71", "6C"),
            ("70", "73", "70"),
            ("70", "73", "02"),
            ("6F", "72", "6F"),
            ("6E", "6B", "71"),
        ] {
            assert_eq!(cast(form, label, source, target), "yes 8", "{form} {source} {target}");
        }
        // The bottoms of two hierarchies.
        assert_eq!(cast(form, if form == "18" { "73" } else { "71" }, "71", "73"), "no 25 5");
        assert_eq!(cast(form, if form == "18" { "72" } else { "71" }, "71", "72"), "no 25 5");
    }
}

/// Type 1 is below type 0; each against the other, exact or not.
#[test]
fn exact_types() {
    let two = "03 50 00 5F 00 50 01 00 5F 00 60 00 01 63 00";
    let heaps = ["00", "01", "62 00", "62 01"];
    for (source, target) in heaps.iter().flat_map(|s| heaps.iter().map(move |t| (s, t))) {
        for form in ["18", "19"] {
            let cast = format!("00 D0 {source} FB {form} 03 00 {source} {target} 0B");
            assert_eq!(body(two, 2, &cast), "yes 3", "{form} {source} {target}");
        }
    }
    // An exact target asks for an exact descriptor, whatever the source.
    let cast = |form: &str, descriptor: &str| {
        format!("00 D0 62 02 D0 {descriptor} FB {form} 03 00 62 02 62 00 0B")
    };
    for form in ["25", "26"] {
        assert_eq!(body(&described("63 00"), 4, &cast(form, "62 01")), "yes 4");
        assert_eq!(body(&described("63 00"), 4, &cast(form, "01")), "no 20 6");
    }
}

#[test]
fn the_label_takes_what_is_carried() {
    // The target struct is carried, or the rest (ref 0); the label takes (ref null 0).
    let result = "02 50 00 5F 00 60 00 01 63 00";
    assert_eq!(body(result, 1, "00 D0 00 FB 18 03 00 00 6B 0B"), "no 25 3");
    assert_eq!(body(result, 1, "00 D0 00 FB 19 03 00 00 6B 00 0B"), "yes 4");
    assert_eq!(body(result, 1, "00 D0 00 FB 19 03 00 00 6B 0B"), "no 20 9");
    let below = described("63 02");
    assert_eq!(body(&below, 4, "00 D0 02 D0 01 FB 25 03 00 02 00 0B"), "no 25 5");
    assert_eq!(body(&below, 4, "00 D0 02 D0 01 FB 26 03 00 02 00 00 0B"), "yes 5");
    // A loop's label has no types; a number takes no reference.
    for form in FORMS {
        let section = described("7F");
        let to_loop = format!("00 03 40 00 FB {form} 03 00 02 00 1A 0B 41 00 0B");
        assert_eq!(body(&section, 4, &to_loop), "no 25 4", "{form}");
        let to_number = format!("00 00 FB {form} 03 00 02 00 0B");
        assert_eq!(body(&section, 4, &to_number), "no 25 2", "{form}");
    }
}

/// 6, 21, 23, 25, then operands; source and target are of two hierarchies throughout.
#[test]
fn other_refusals_keep_their_turn() {
    let section = described("6E");
    for form in ["25", "26"] {
        let cast = |rest: &str| body(&section, 4, &format!("00 FB {form} {rest} 0B"));
        assert_eq!(cast("03 07 70 05"), "no 6 1");
        assert_eq!(cast("03 07 62 05 01"), "no 6 1");
        assert_eq!(cast("03 07 70 01"), "no 21 1");
        assert_eq!(cast("03 00 70 01"), "no 23 1");
        assert_eq!(cast("03 00 70 6B"), "no 23 1");
        assert_eq!(cast("03 00 70 04"), "no 23 1");
        assert_eq!(cast("03 00 70 00"), "no 25 1");
        // One hierarchy: only the operands are missing.
        assert_eq!(cast("03 00 01 00"), "no 20 1");
    }
    for form in ["18", "19"] {
        let cast = |rest: &str| body(&section, 4, &format!("00 FB {form} {rest} 0B"));
        assert_eq!(cast("03 07 05 70"), "no 6 1");
        assert_eq!(cast("03 07 6E 70"), "no 21 1");
        assert_eq!(cast("03 00 6E 70"), "no 25 1");
        assert_eq!(cast("03 00 6B 6C"), "no 20 1");
    }
}

/// Some reference type is above both exactly where both are of one hierarchy.
#[test]
fn a_supertype_in_common_is_one_hierarchy() {
    let section =
        "05 50 00 5F 00 50 01 00 5F 00 4E 02 4D 03 5F 00 4C 02 5F 00 60 00 00 60 00 01 7F";
    let bytes = read_bytes(&section.replace(' ', "")).expect("hex");
    let types = judge_section(EMPTY_LIBRARY, &bytes).expect("accepted");
    let numbers = 0..types.len() as u32;
    let heaps: Vec<Heap> = TABLE
        .iter()
        .map(|row| Heap::Abstract(row.heap))
        .chain(numbers.flat_map(|number| [Heap::Defined(number), Heap::Exact(number)]))
        .collect();
    let references: Vec<Reference> = heaps
        .iter()
        .flat_map(|&heap| [Reference::nullable(heap), Reference::non_null(heap)])
        .collect();
    for &one in &references {
        for &other in &references {
            let above = |&upper: &Reference| {
                [one, other].iter().all(|&it| reference_fit(&types, it, upper) == Fit::Fits)
            };
            let shared = references.iter().any(above);
            assert_eq!(share_supertype(&types, one.heap, other.heap), shared, "{one:?} {other:?}");
        }
    }
}
