//! Request 9 of document 02: 31 where only null is wrong with an operand. The answers
//! are worked out by hand from the papers.

mod common;

use common::{body, described, run, section, V};
use plain::lines::read_bytes;
use plain::order::{reference_fit, value_fit, Fit, TABLE};
use plain::section::{judge_section, EMPTY_LIBRARY};
use plain::syntax::{Heap, Reference, Type, ValueType};

/// A struct, and a function that gives a (ref 0).
const TO_REF: &str = "02 5F 00 60 00 01 64 00";

/// The same with a struct that is open.
const TO_REF_OF_OPEN: &str = "02 50 00 5F 00 60 00 01 64 00";

/// 0 a struct, 1 a struct of a fixed (ref 0) and a mutable (ref 0), 2 a function of nothing.
const WITH_FIELDS: &str = "03 5F 00 5F 02 64 00 00 64 00 01 60 00 00";

#[test]
fn only_operand_tests() {
    // The label's last type of a branching cast: 25. Its operand: 31.
    assert_eq!(body(TO_REF, 1, "00 D0 00 FB 18 03 00 00 00 00 0B"), "no 25 3");
    assert_eq!(body(TO_REF, 1, "00 D0 00 FB 18 00 00 00 00 00 0B"), "no 31 3");
    // Rule 2: 8, of a field and of a function's lists.
    assert_eq!(section("03 5F 00 50 00 5F 01 64 00 00 4F 01 01 5F 01 63 00 00"), "no 8 2");
    assert_eq!(section("03 5F 00 50 00 60 00 01 64 00 4F 01 01 60 00 01 63 00"), "no 8 2");
    assert_eq!(section("03 5F 00 50 00 60 01 63 00 00 4F 01 01 60 01 64 00 00"), "no 8 2");
}

#[test]
fn through_a_bottom_too() {
    assert_eq!(body(TO_REF, 1, "00 D0 71 0B"), "no 31 3");
    // Null and heap wrong.
    assert_eq!(body("02 50 00 5F 00 60 00 01 64 62 00", 1, "00 D0 00 0B"), "no 20 3");
    // Nothing there.
    assert_eq!(body(TO_REF, 1, "00 0B"), "no 20 1");
}

#[test]
fn the_first_at_fault_from_the_top_decides() {
    assert_eq!(body(TO_REF, 1, "00 41 00 D0 00 0B"), "no 31 5");
    // In unreachable code.
    assert_eq!(body(TO_REF, 1, "00 00 D0 00 0B"), "no 31 4");
    // Two results, each a (ref 0).
    let two = "02 5F 00 60 00 02 64 00 64 00";
    assert_eq!(body(two, 1, "00 41 00 D0 00 0B"), "no 31 5");
    assert_eq!(body(two, 1, "00 D0 00 41 00 0B"), "no 20 5");
    assert_eq!(body(two, 1, "00 D0 00 0B"), "no 31 3");
    assert_eq!(body(two, 1, "00 FB 01 00 0B"), "no 20 4");
    assert_eq!(body(two, 1, "00 D0 00 FB 01 00 0B"), "no 31 6");
}

/// Fields from the last to the first; br_if's i32 first; a branching cast: the descriptor,
/// the object, then the values below.
#[test]
fn operands_from_the_top() {
    assert_eq!(body(WITH_FIELDS, 2, "00 41 00 D0 00 FB 00 01 1A 0B"), "no 31 5");
    assert_eq!(body(WITH_FIELDS, 2, "00 D0 00 41 00 FB 00 01 1A 0B"), "no 20 5");
    assert_eq!(body(TO_REF, 1, "00 D0 00 D0 00 0D 00 0B"), "no 20 5");
    let below = "02 5F 00 60 00 02 64 00 63 00";
    assert_eq!(body(below, 1, "00 41 00 D0 00 FB 18 02 00 00 00 0B"), "no 31 5");
    assert_eq!(body(below, 1, "00 D0 00 D0 6B FB 18 02 00 00 00 0B"), "no 20 5");
    let to_struct = described("6B");
    assert_eq!(body(&to_struct, 4, "00 D0 02 D0 00 FB 25 00 00 02 00 0B"), "no 20 5");
}

#[test]
fn what_is_an_operand() {
    assert_eq!(body(TO_REF, 1, "01 01 64 00 D0 00 21 00 00 0B"), "no 31 6");
    assert_eq!(body(TO_REF, 1, "01 01 64 00 D0 00 22 00 0B"), "no 31 6");
    // br, return, kept by br_if, below a branching cast.
    assert_eq!(body(TO_REF, 1, "00 D0 00 0C 00 0B"), "no 31 3");
    assert_eq!(body(TO_REF, 1, "00 D0 00 0F 0B"), "no 31 3");
    assert_eq!(body(TO_REF, 1, "00 D0 00 41 00 0D 00 0B"), "no 31 5");
    let below = "02 5F 00 60 00 02 64 00 63 00";
    assert_eq!(body(below, 1, "00 D0 00 D0 00 FB 18 03 00 00 00 0B"), "no 31 5");
    // Fields, made and set; the object of a set may be null.
    assert_eq!(body(WITH_FIELDS, 2, "00 FB 01 00 D0 00 FB 00 01 1A 0B"), "no 31 6");
    assert_eq!(body(WITH_FIELDS, 2, "00 D0 00 FB 01 00 FB 00 01 1A 0B"), "no 31 6");
    assert_eq!(body(WITH_FIELDS, 2, "00 D0 01 D0 00 FB 05 01 01 0B"), "no 31 5");
    // A block's result.
    assert_eq!(body(TO_REF, 1, "00 02 64 00 D0 00 0B 0B"), "no 31 6");
    // ref.as_non_null before it would do, in each place.
    assert_eq!(body(TO_REF, 1, "00 D0 00 D4 0B"), "yes 3");
    assert_eq!(body(TO_REF, 1, "01 01 64 00 D0 00 D4 21 00 00 0B"), "yes 5");
    assert_eq!(body(TO_REF, 1, "00 D0 00 D4 41 00 0D 00 0B"), "yes 5");
    assert_eq!(body(WITH_FIELDS, 2, "00 D0 01 D0 00 D4 FB 05 01 01 0B"), "yes 5");
}

#[test]
fn any_reference_is_any_reference() {
    assert_eq!(body(V, 0, "00 41 00 D1 1A 0B"), "no 20 3");
    assert_eq!(body(V, 0, "00 41 00 D4 1A 0B"), "no 20 3");
    // ref.get_desc of a (ref null 0) gives a (ref 1), not exact: 20 for an exact 1.
    assert_eq!(body(&described("64 62 01"), 4, "00 D0 00 FB 22 00 0B"), "no 20 6");
    assert_eq!(body(&described("64 62 01"), 4, "00 D0 62 00 FB 22 00 0B"), "yes 3");
}

/// Descriptors, compared references and the objects of get and set may be null: 31 is
/// never told of them.
#[test]
fn a_nullable_want_is_never_31() {
    let section = described("64 62 00");
    assert_eq!(body(&section, 4, "00 D0 62 01 FB 21 00 0B"), "yes 3");
    assert_eq!(body(&section, 4, "00 D0 01 FB 21 00 0B"), "no 20 3");
    assert_eq!(body(&section, 4, "00 D0 6F FB 21 00 0B"), "no 20 3");
    // The descriptor above the object: the descriptor, wrong, decides; else the object.
    let to_struct = described("6B");
    assert_eq!(body(&to_struct, 4, "00 D0 02 D0 01 FB 25 00 00 02 00 0B"), "no 31 5");
    assert_eq!(body(&to_struct, 4, "00 D0 02 D0 00 FB 25 00 00 02 00 0B"), "no 20 5");
    assert_eq!(body(&to_struct, 4, "00 D0 6E D0 01 FB 25 00 00 02 00 0B"), "no 20 5");
}

/// 28 comes after 31; 23, 24 and 25 before it. No instruction that can be 31 leaves more
/// operands or frames than there were, so 4 is never in question.
#[test]
fn its_turn_among_the_others() {
    assert_eq!(body(TO_REF, 1, "00 41 00 FB 01 00 0B"), "no 28 6");
    assert_eq!(body(TO_REF, 1, "00 41 00 D0 00 0B"), "no 31 5");
    // The first field of 1 is fixed: 24 before the operand.
    assert_eq!(body(WITH_FIELDS, 2, "00 D0 01 D0 00 FB 05 01 00 0B"), "no 24 5");
    // A type with a descriptor: 23 before the operand.
    assert_eq!(body(&described("64 00"), 4, "00 D0 00 FB 00 00 0B"), "no 23 3");
}

#[test]
fn unreachable_code_and_unknowns() {
    // An unknown is no null; ref.as_non_null of one fits every reference.
    assert_eq!(body(TO_REF, 1, "00 00 0B"), "yes 2");
    assert_eq!(body(TO_REF, 1, "00 00 D4 0B"), "yes 3");
    assert_eq!(body(TO_REF, 1, "01 01 64 00 00 D0 71 21 00 0B"), "no 31 7");
    assert_eq!(body(TO_REF, 1, "00 00 D0 00 41 00 0D 00 0B"), "no 31 6");
    // Of another hierarchy: 20.
    assert_eq!(body(TO_REF, 1, "00 00 D0 70 0B"), "no 20 4");
    let two = "02 5F 00 60 00 02 64 00 64 00";
    assert_eq!(body(two, 1, "00 00 D0 00 0B"), "no 31 4");
}

/// A run is refused as its body is, before its budget.
#[test]
fn runs_too() {
    assert_eq!(run(TO_REF_OF_OPEN, 1, "00 D0 00 0B", 9), "no 31 3");
    assert_eq!(run(TO_REF_OF_OPEN, 1, "00 D0 00 0B", 1_000_001), "no 31 3");
}

fn some_types() -> Vec<Type> {
    let section = "04 50 00 5F 00 50 01 00 5F 00 4E 02 4D 03 5F 00 4C 02 5F 00 60 00 00";
    let bytes = read_bytes(&section.replace(' ', "")).expect("hex");
    judge_section(EMPTY_LIBRARY, &bytes).expect("accepted")
}

/// By the order alone: one of three for every pair, 31's exactly where the same type made
/// non-null fits and the type does not.
#[test]
fn three_outcomes() {
    let types = some_types();
    let numbers = 0..types.len() as u32;
    let heaps: Vec<Heap> = TABLE
        .iter()
        .map(|row| Heap::Abstract(row.heap))
        .chain(numbers.flat_map(|number| [Heap::Defined(number), Heap::Exact(number)]))
        .collect();
    for &lower in &heaps {
        for &upper in &heaps {
            let fit = |null: bool, takes: bool| {
                let (lower, upper) = (
                    Reference { nullable: null, heap: lower },
                    Reference { nullable: takes, heap: upper },
                );
                reference_fit(&types, lower, upper)
            };
            // Of a non-null one there is nothing but yes and no; where null is taken too.
            let held = fit(false, false);
            assert_ne!(held, Fit::ButForNull);
            assert_eq!([fit(false, true), fit(true, true)], [held; 2]);
            let but_for_null = match held {
                Fit::Fits => Fit::ButForNull,
                other => other,
            };
            assert_eq!(fit(true, false), but_for_null, "{lower:?} {upper:?}");
        }
    }
    let (number, reference) = (ValueType::I32, ValueType::nullable(heaps[0]));
    assert_eq!(value_fit(&types, number, number), Fit::Fits);
    assert_eq!(value_fit(&types, number, ValueType::I64), Fit::DoesNotFit);
    assert_eq!(value_fit(&types, number, reference), Fit::DoesNotFit);
    assert_eq!(value_fit(&types, reference, number), Fit::DoesNotFit);
}
