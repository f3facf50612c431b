//! Rule 6: the order of heap types and of value types. Every number that is named is within the types, and every supertype is
//! earlier: 6 and 7 come before every use of the order.

use crate::syntax::{Abstract, Form, Heap, Reference, Type, ValueType};

fn top(heap: Abstract) -> Abstract {
    match heap {
        Abstract::NoFunc | Abstract::Func => Abstract::Func,
        Abstract::NoExtern | Abstract::Extern => Abstract::Extern,
        _ => Abstract::Any,
    }
}

/// Which of the tops has it as its bottom.
fn is_bottom_of(heap: Abstract) -> Option<Abstract> {
    match heap {
        Abstract::None => Some(Abstract::Any),
        Abstract::NoFunc => Some(Abstract::Func),
        Abstract::NoExtern => Some(Abstract::Extern),
        _ => None,
    }
}

fn abstract_below(lower: Abstract, upper: Abstract) -> bool {
    lower == upper
        || top(lower) == top(upper)
            && (is_bottom_of(lower).is_some()
                || top(upper) == upper
                || upper == Abstract::Eq && lower != Abstract::Any)
}

/// Struct or func, by its form.
fn above(types: &[Type], number: u32) -> Abstract {
    match types[number as usize].form {
        Form::Struct(_) => Abstract::Struct,
        Form::Function { .. } => Abstract::Func,
    }
}

/// The top of the hierarchy that a heap type belongs to.
pub fn top_of(types: &[Type], heap: Heap) -> Abstract {
    match heap {
        Heap::Abstract(heap) => top(heap),
        Heap::Defined(number) | Heap::Exact(number) => top(above(types, number)),
    }
}

/// Whether the supertypes of `lower`, itself counted, reach `upper`.
fn climbs(types: &[Type], lower: u32, upper: u32) -> bool {
    let mut step = Some(lower);
    while let Some(number) = step {
        if number == upper {
            return true;
        }
        step = types[number as usize].supertype().filter(|&supertype| supertype < number);
    }
    false
}

fn heap_below(types: &[Type], lower: Heap, upper: Heap) -> bool {
    match (lower, upper) {
        (Heap::Abstract(lower), Heap::Abstract(upper)) => abstract_below(lower, upper),
        (Heap::Abstract(lower), Heap::Defined(number) | Heap::Exact(number)) => {
            is_bottom_of(lower) == Some(top(above(types, number)))
        }
        (Heap::Defined(number) | Heap::Exact(number), Heap::Abstract(upper)) => {
            abstract_below(above(types, number), upper)
        }
        (Heap::Exact(lower), Heap::Exact(upper)) => lower == upper,
        (Heap::Defined(_), Heap::Exact(_)) => false,
        (Heap::Defined(lower) | Heap::Exact(lower), Heap::Defined(upper)) => {
            climbs(types, lower, upper)
        }
    }
}

/// Whether one type fits another.
#[allow(clippy::enum_variant_names)] // Document 02's words for the three outcomes.
#[derive(Clone, Copy, Debug, PartialEq, Eq)]
pub enum Fit {
    /// It is below the other.
    Fits,
    /// It would be if it could not be null.
    ButForNull,
    DoesNotFit,
}

pub fn reference_fit(types: &[Type], lower: Reference, upper: Reference) -> Fit {
    match heap_below(types, lower.heap, upper.heap) {
        false => Fit::DoesNotFit,
        true if lower.nullable && !upper.nullable => Fit::ButForNull,
        true => Fit::Fits,
    }
}

pub fn value_fit(types: &[Type], lower: ValueType, upper: ValueType) -> Fit {
    match (lower, upper) {
        (ValueType::Ref(lower), ValueType::Ref(upper)) => reference_fit(types, lower, upper),
        _ if lower == upper => Fit::Fits,
        _ => Fit::DoesNotFit,
    }
}
