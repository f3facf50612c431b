//! The operands and frames of the check, each operand with the instruction that put it there.

use super::order::{value_fit, Fit};
use crate::syntax::{Type, ValueType};
use std::fmt;

/// What lies on the stack.
#[derive(Clone, Copy, Debug)]
pub struct Operand {
    pub kind: Kind,
    /// The part of the body that put it there.
    pub by: usize,
    /// How many that part put above it at once.
    pub above: usize,
}

#[derive(Clone, Copy, Debug, PartialEq, Eq)]
pub enum Kind {
    Known(ValueType),
    /// What ref.as_non_null makes of an unknown.
    UnknownHeap,
    /// What an unreachable frame yields where it has no operand left; never on the stack.
    Unknown,
}

/// What an instruction takes.
#[derive(Clone, Copy, Debug)]
pub enum Wanted {
    Of(ValueType),
    Reference,
    Anything,
}

pub struct Frame {
    /// What a branch to it carries; a loop's carries nothing.
    pub label: Vec<ValueType>,
    pub results: Vec<ValueType>,
    /// Operands below the frame.
    pub height: usize,
    pub unreachable: bool,
    /// The part of the body that opened it; none for the function's own.
    pub opened: Option<usize>,
    /// For each local, by which part it was set when the frame began.
    pub set_before: Vec<Option<usize>>,
}

impl Kind {
    pub fn fit(self, types: &[Type], upper: ValueType) -> Fit {
        match (self, upper) {
            (Kind::Known(lower), _) => value_fit(types, lower, upper),
            (Kind::Unknown, _) | (Kind::UnknownHeap, ValueType::Ref(_)) => Fit::Fits,
            (Kind::UnknownHeap, _) => Fit::DoesNotFit,
        }
    }

    pub fn fits(self, types: &[Type], wanted: Wanted) -> Fit {
        match (wanted, self) {
            (Wanted::Of(upper), _) => self.fit(types, upper),
            (
                Wanted::Reference,
                Kind::Known(ValueType::I32 | ValueType::I64 | ValueType::F32 | ValueType::F64),
            ) => Fit::DoesNotFit,
            (Wanted::Reference | Wanted::Anything, _) => Fit::Fits,
        }
    }
}

impl fmt::Display for Kind {
    fn fmt(&self, to: &mut fmt::Formatter) -> fmt::Result {
        match self {
            Kind::Known(value) => write!(to, "{value}"),
            Kind::UnknownHeap => write!(to, "(ref unknown)"),
            Kind::Unknown => write!(to, "unknown"),
        }
    }
}

impl fmt::Display for Operand {
    fn fmt(&self, to: &mut fmt::Formatter) -> fmt::Result {
        write!(to, "{}", self.kind)
    }
}

impl fmt::Display for Wanted {
    fn fmt(&self, to: &mut fmt::Formatter) -> fmt::Result {
        match self {
            Wanted::Of(value) => write!(to, "{value}"),
            Wanted::Reference => write!(to, "any reference"),
            Wanted::Anything => write!(to, "any value"),
        }
    }
}
