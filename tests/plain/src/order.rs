//! Rule 6: the order of heap types and of value types.
//!
//! Supertypes are the declared ones, whether their types are judged yet or not.
//! A caller has made sure that every number named is within the types and that
//! every supertype is earlier (6 and 7 come before every use of the order).

use crate::syntax::{Abstract, Form, Heap, Reference, Type, ValueType};

/// One row of the fixed table of abstract heap types.
pub struct Row {
    pub code: u8,
    pub heap: Abstract,
    pub top: Abstract,
    pub bottom: Abstract,
    pub directly_above: &'static [Abstract],
}

const fn row(
    code: u8,
    heap: Abstract,
    top: Abstract,
    bottom: Abstract,
    directly_above: &'static [Abstract],
) -> Row {
    Row { code, heap, top, bottom, directly_above }
}

use Abstract as A;
pub const TABLE: [Row; 10] = [
    row(0x73, A::NoFunc, A::Func, A::NoFunc, &[A::Func]),
    row(0x72, A::NoExtern, A::Extern, A::NoExtern, &[A::Extern]),
    row(0x71, A::None, A::Any, A::None, &[A::I31, A::Struct, A::Array]),
    row(0x70, A::Func, A::Func, A::NoFunc, &[]),
    row(0x6F, A::Extern, A::Extern, A::NoExtern, &[]),
    row(0x6E, A::Any, A::Any, A::None, &[]),
    row(0x6D, A::Eq, A::Any, A::None, &[A::Any]),
    row(0x6C, A::I31, A::Any, A::None, &[A::Eq]),
    row(0x6B, A::Struct, A::Any, A::None, &[A::Eq]),
    row(0x6A, A::Array, A::Any, A::None, &[A::Eq]),
];

pub fn abstract_of_code(code: u8) -> Option<Abstract> {
    TABLE.iter().find(|row| row.code == code).map(|row| row.heap)
}

pub fn row_of(heap: Abstract) -> &'static Row {
    &TABLE[heap as usize]
}

/// The abstract type straight above a defined one: struct or func, by its own form.
fn abstract_above(types: &[Type], number: u32) -> Abstract {
    match types[number as usize].definition.form {
        Form::Struct(_) => A::Struct,
        Form::Function { .. } => A::Func,
    }
}

/// The top of the hierarchy that a heap type belongs to.
pub fn top_of(types: &[Type], heap: Heap) -> Abstract {
    match heap {
        Heap::Abstract(heap) => row_of(heap).top,
        Heap::Defined(number) | Heap::Exact(number) => row_of(abstract_above(types, number)).top,
    }
}

/// Whether some heap type is above both. The top of a hierarchy is above all of it
/// and is always valid, so this is to lie in one hierarchy.
pub fn share_supertype(types: &[Type], one: Heap, other: Heap) -> bool {
    top_of(types, one) == top_of(types, other)
}

fn abstract_below(lower: Abstract, upper: Abstract) -> bool {
    lower == upper || row_of(lower).directly_above.iter().any(|&above| abstract_below(above, upper))
}

/// Whether the supertypes of `lower`, itself counted, reach `upper`.
fn climbs(types: &[Type], lower: u32, upper: u32) -> bool {
    let mut step = Some(lower);
    while let Some(number) = step {
        if number == upper {
            return true;
        }
        step = types[number as usize].definition.supertype();
    }
    false
}

pub fn heap_below(types: &[Type], lower: Heap, upper: Heap) -> bool {
    match (lower, upper) {
        (Heap::Abstract(lower), Heap::Abstract(upper)) => abstract_below(lower, upper),
        // Of the abstract types only the hierarchy's bottom is below a defined one.
        (Heap::Abstract(lower), Heap::Defined(number) | Heap::Exact(number)) => {
            lower == row_of(abstract_above(types, number)).bottom
        }
        (Heap::Defined(number) | Heap::Exact(number), Heap::Abstract(upper)) => {
            abstract_below(abstract_above(types, number), upper)
        }
        (Heap::Exact(lower), Heap::Exact(upper)) => lower == upper,
        (Heap::Defined(_), Heap::Exact(_)) => false,
        (Heap::Defined(lower) | Heap::Exact(lower), Heap::Defined(upper)) => {
            climbs(types, lower, upper)
        }
    }
}

fn reference_below(types: &[Type], lower: Reference, upper: Reference) -> bool {
    (upper.nullable || !lower.nullable) && heap_below(types, lower.heap, upper.heap)
}

/// Whether one type fits another. Each caller says which of the three it relies on.
#[derive(Clone, Copy, Debug, PartialEq, Eq)]
pub enum Fit {
    /// It is below the other.
    Fits,
    /// It is not, and the same type made non-null is.
    ButForNull,
    /// Neither is.
    DoesNotFit,
}

pub fn reference_fit(types: &[Type], lower: Reference, upper: Reference) -> Fit {
    if reference_below(types, lower, upper) {
        return Fit::Fits;
    }
    if reference_below(types, Reference::non_null(lower.heap), upper) {
        return Fit::ButForNull;
    }
    Fit::DoesNotFit
}

/// A number fits itself alone, and null is nothing that it could be.
pub fn value_fit(types: &[Type], lower: ValueType, upper: ValueType) -> Fit {
    match (lower, upper) {
        (ValueType::Ref(lower), ValueType::Ref(upper)) => reference_fit(types, lower, upper),
        _ if lower == upper => Fit::Fits,
        _ => Fit::DoesNotFit,
    }
}
