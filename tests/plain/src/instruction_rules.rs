//! What an instruction asks before its operands are looked at: 6, 21, 23, 24,
//! 25, 29 and 22, each a rule of its own.
//!
//! A rule answers whether the instruction keeps it. Where a rule's own subject is
//! missing, an earlier rule has refused already.

use crate::body::Checker;
use crate::order::{reference_fit, share_supertype, Fit};
use crate::refusal::{
    Number, BRANCHING_CAST, FIELD_FIXED, LABEL_OR_LOCAL_ABSENT, LOCAL_NOT_SET, NO_DEFAULT,
    OUT_OF_REACH, STRUCT_FIELD_DESCRIPTOR,
};
use crate::syntax::{BranchingCast, Definition, Field, Heap, Instruction, Reference, ValueType};

type Rule = fn(&Checker, &Instruction) -> bool;

pub const RULES: [(Number, Rule); 7] = [
    (OUT_OF_REACH, numbers_in_reach),
    (LABEL_OR_LOCAL_ABSENT, label_or_local_present),
    (STRUCT_FIELD_DESCRIPTOR, struct_field_and_descriptor),
    (FIELD_FIXED, field_mutable),
    (BRANCHING_CAST, branching_cast_fits),
    (NO_DEFAULT, fields_have_defaults),
    (LOCAL_NOT_SET, local_is_set),
];

/// 6: every type number that the instruction names.
fn numbers_in_reach(checker: &Checker, instruction: &Instruction) -> bool {
    let count = checker.stack.types.len();
    numbers_of(instruction).iter().flatten().all(|&number| (number as usize) < count)
}

fn numbers_of(instruction: &Instruction) -> [Option<u32>; 2] {
    match *instruction {
        Instruction::Block(value) | Instruction::Loop(value) => {
            [value.and_then(ValueType::number), None]
        }
        Instruction::RefNull(heap) => [heap.number(), None],
        Instruction::RefTest(target)
        | Instruction::RefCast(target)
        | Instruction::RefCastDescEq(target) => [target.heap.number(), None],
        Instruction::BranchingCast(cast) => [cast.source.heap.number(), cast.target.heap.number()],
        Instruction::StructNew(number)
        | Instruction::StructNewDefault(number)
        | Instruction::StructGet(number, _)
        | Instruction::StructSet(number, _)
        | Instruction::StructNewDesc(number)
        | Instruction::StructNewDefaultDesc(number)
        | Instruction::RefGetDesc(number) => [Some(number), None],
        _ => [None, None],
    }
}

/// 21: the label or the local exists.
fn label_or_local_present(checker: &Checker, instruction: &Instruction) -> bool {
    match *instruction {
        Instruction::Br(label)
        | Instruction::BrIf(label)
        | Instruction::BranchingCast(BranchingCast { label, .. }) => {
            checker.stack.label(label).is_some()
        }
        Instruction::LocalGet(local)
        | Instruction::LocalSet(local)
        | Instruction::LocalTee(local) => (local as usize) < checker.locals.len(),
        _ => true,
    }
}

/// 23: a struct, with the field, its descriptor there or not as is asked.
fn struct_field_and_descriptor(checker: &Checker, instruction: &Instruction) -> bool {
    match *instruction {
        Instruction::StructNew(number) | Instruction::StructNewDefault(number) => {
            let definition = checker.definition(number);
            definition.fields().is_some() && definition.descriptor.is_none()
        }
        Instruction::StructGet(number, field) | Instruction::StructSet(number, field) => {
            checker.field(number, field).is_some()
        }
        Instruction::StructNewDesc(number)
        | Instruction::StructNewDefaultDesc(number)
        | Instruction::RefGetDesc(number) => has_descriptor(checker.definition(number)),
        Instruction::RefCastDescEq(target)
        | Instruction::BranchingCast(BranchingCast { by_descriptor: true, target, .. }) => {
            target_has_descriptor(checker, target)
        }
        _ => true,
    }
}

fn has_descriptor(definition: &Definition) -> bool {
    definition.fields().is_some() && definition.descriptor.is_some()
}

fn target_has_descriptor(checker: &Checker, target: Reference) -> bool {
    target.heap.number().is_some_and(|number| has_descriptor(checker.definition(number)))
}

/// 24: only a mutable field is set.
fn field_mutable(checker: &Checker, instruction: &Instruction) -> bool {
    match *instruction {
        Instruction::StructSet(number, field) => {
            checker.field(number, field).is_some_and(|found| found.mutable)
        }
        _ => true,
    }
}

/// 25: every condition on a branching cast's types. Of source and target it asks for
/// a supertype in common; the nullable one of a hierarchy's top is above both, so
/// that they may be null or not does not matter here. Nothing is carried yet: that only
/// null is wrong for the label is 25 as well.
fn branching_cast_fits(checker: &Checker, instruction: &Instruction) -> bool {
    let Instruction::BranchingCast(cast) = instruction else {
        return true;
    };
    let last = checker.stack.label(cast.label).and_then(|frame| frame.label.last());
    let types = checker.stack.types;
    match last {
        // The last type of a label takes what is carried; a number takes none.
        Some(&ValueType::Ref(taken)) => {
            share_supertype(types, cast.source.heap, cast.target.heap)
                && reference_fit(types, carried(cast), taken) == Fit::Fits
        }
        _ => false,
    }
}

/// What a branching cast takes to its label.
pub fn carried(cast: &BranchingCast) -> Reference {
    if cast.fail {
        rest(cast)
    } else {
        cast.target
    }
}

/// What a branching cast falls through with.
pub fn fallen_through(cast: &BranchingCast) -> Reference {
    if cast.fail {
        cast.target
    } else {
        rest(cast)
    }
}

/// The source, not null where the target may be null.
fn rest(cast: &BranchingCast) -> Reference {
    Reference { nullable: cast.source.nullable && !cast.target.nullable, heap: cast.source.heap }
}

/// 29: a default allocation needs a default for each field.
fn fields_have_defaults(checker: &Checker, instruction: &Instruction) -> bool {
    match *instruction {
        Instruction::StructNewDefault(number) | Instruction::StructNewDefaultDesc(number) => {
            checker.fields(number).iter().all(|field: &Field| field.value.has_default())
        }
        _ => true,
    }
}

/// 22: a local without a default is set before it is read.
fn local_is_set(checker: &Checker, instruction: &Instruction) -> bool {
    match *instruction {
        Instruction::LocalGet(local) => checker.set[local as usize],
        _ => true,
    }
}

/// The type of the descriptor operand of a cast: exact when the target is.
pub fn descriptor_wanted(checker: &Checker, target: Reference) -> Option<ValueType> {
    let number = target.heap.number()?;
    let descriptor = checker.definition(number).descriptor?;
    let heap = match target.heap {
        Heap::Exact(_) => Heap::Exact(descriptor),
        _ => Heap::Defined(descriptor),
    };
    Some(ValueType::nullable(heap))
}
