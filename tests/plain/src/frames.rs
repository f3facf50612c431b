//! The checker's operands and frames.
//!
//! An operand is a type, or less than one where code is unreachable. Unknowns
//! belong to the frame that became unreachable and are never on the stack.

use crate::order::{value_fit, Fit};
use crate::refusal::{Number, ONLY_NULL, OPERAND};
use crate::syntax::{Reference, Type, ValueType};

#[derive(Clone, Copy, Debug, PartialEq, Eq)]
pub enum Operand {
    /// Below every type.
    Unknown,
    /// A non-null reference of unknown heap: below every reference type.
    UnknownHeap,
    Known(ValueType),
}

pub struct Frame {
    /// What a branch to the frame carries: nothing for a loop.
    pub label: Vec<ValueType>,
    pub results: Vec<ValueType>,
    /// Operands below the frame.
    pub height: usize,
    pub unreachable: bool,
    /// Which locals were set when the frame began.
    pub set_before: Vec<bool>,
}

pub struct Stack<'a> {
    pub types: &'a [Type],
    pub operands: Vec<Operand>,
    pub frames: Vec<Frame>,
}

impl Stack<'_> {
    pub fn frame(&self) -> &Frame {
        self.frames.last().expect("the function's frame is open while instructions are left")
    }

    /// Label 0 is the innermost frame.
    pub fn label(&self, label: u32) -> Option<&Frame> {
        self.frames.iter().rev().nth(label as usize)
    }

    pub fn push(&mut self, value: ValueType) {
        self.operands.push(Operand::Known(value));
    }

    pub fn push_all(&mut self, values: &[ValueType]) {
        values.iter().for_each(|&value| self.push(value));
    }

    pub fn pop_any(&mut self) -> Result<Operand, Number> {
        if self.operands.len() > self.frame().height {
            return self.operands.pop().ok_or(OPERAND);
        }
        if self.frame().unreachable {
            return Ok(Operand::Unknown);
        }
        Err(OPERAND)
    }

    /// 20 where the operand is missing or wrong, 31 where only null is wrong with it.
    pub fn pop(&mut self, wanted: ValueType) -> Result<Operand, Number> {
        let operand = self.pop_any()?;
        match self.fit(operand, wanted) {
            Fit::Fits => Ok(operand),
            Fit::ButForNull => Err(ONLY_NULL),
            Fit::DoesNotFit => Err(OPERAND),
        }
    }

    /// From the last type to the first: the top operand is looked at first, and the
    /// first at fault decides.
    pub fn pop_all(&mut self, wanted: &[ValueType]) -> Result<(), Number> {
        wanted.iter().rev().try_for_each(|&value| self.pop(value).map(|_| ()))
    }

    /// A reference of any hierarchy.
    pub fn pop_reference(&mut self) -> Result<Operand, Number> {
        match self.pop_any()? {
            Operand::Known(ValueType::Ref(reference)) => {
                Ok(Operand::Known(ValueType::Ref(reference)))
            }
            Operand::Known(_) => Err(OPERAND),
            unknown => Ok(unknown),
        }
    }

    pub fn fit(&self, operand: Operand, wanted: ValueType) -> Fit {
        match (operand, wanted) {
            (Operand::Unknown, _) | (Operand::UnknownHeap, ValueType::Ref(_)) => Fit::Fits,
            (Operand::UnknownHeap, _) => Fit::DoesNotFit,
            (Operand::Known(value), _) => value_fit(self.types, value, wanted),
        }
    }

    /// After unreachable, br and return: the frame's own operands are gone.
    pub fn become_unreachable(&mut self) {
        let height = self.frame().height;
        self.operands.truncate(height);
        let frame = self.frames.last_mut().expect("the frame just asked");
        frame.unreachable = true;
    }
}

/// The operand once it is known not to be null.
pub fn as_non_null(operand: Operand) -> Operand {
    match operand {
        Operand::Known(ValueType::Ref(Reference { heap, .. })) => {
            Operand::Known(ValueType::non_null(heap))
        }
        _ => Operand::UnknownHeap,
    }
}
