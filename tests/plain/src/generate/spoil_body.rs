//! Near misses of a body: one thing of valid code is changed.

use super::make_body::DraftBody;
use super::numbers::{constant, KINDS};
use super::random::Random;
use super::spoil_section::{other_exactness, spoil_value};
use super::value_types::random_heap;
use crate::numeric::TABLE;
use crate::syntax::{Abstract, Heap, Instruction, Reference, ValueType};

pub fn spoil_body(random: &mut Random, body: &mut DraftBody, types: usize) {
    let index = random.below(body.code.len());
    let next = (index + 1) % body.code.len();
    match random.below(26) {
        0 => drop(body.code.remove(index)),
        1 => body.code.insert(index, body.code[index]),
        2 => body.code.swap(index, next),
        3 => body.code.insert(index, random_instruction(random, types)),
        4 => body.code[index] = random_instruction(random, types),
        5 => spoil_local(random, body),
        6..=10 => read_local(random, body, index),
        11..=13 => body.code.insert(index, random_field_use(random, types)),
        14..=16 => leave_to_defaults(random, body),
        17..=19 => body.code.insert(index, random_default(random, types)),
        20 => spoil_dead_code(random, body),
        _ => spoil_likely(random, body, types),
    }
}

/// Reads a local somewhere, which may be before it is set; where all have defaults, one
/// that is never set or is absent.
fn read_local(random: &mut Random, body: &mut DraftBody, index: usize) {
    let without_default: Vec<usize> =
        (0..body.locals.len()).filter(|&local| !body.locals[local].has_default()).collect();
    let local = random.pick_from(&without_default).unwrap_or(body.locals.len());
    if local == body.locals.len() && random.one_in(2) {
        body.locals.push(ValueType::non_null(Heap::Abstract(Abstract::Struct)));
    }
    body.code.insert(index, Instruction::LocalGet(local as u32));
    body.code.insert(index + 1, Instruction::Drop);
}

/// A field's use without its operands: 23 and 24 are looked at before them.
fn random_field_use(random: &mut Random, types: usize) -> Instruction {
    let (number, field) = (random.below(types) as u32, random.below(3) as u32);
    if random.one_in(4) {
        return Instruction::StructGet(number, field);
    }
    Instruction::StructSet(number, field)
}

/// A default allocation that nothing asked for: 23 and 29 are looked at before operands.
fn random_default(random: &mut Random, types: usize) -> Instruction {
    let number = random.below(types) as u32;
    if random.one_in(4) {
        return Instruction::StructNewDefaultDesc(number);
    }
    Instruction::StructNewDefault(number)
}

/// An allocation's fields become defaults, which its type may not have.
fn leave_to_defaults(random: &mut Random, body: &mut DraftBody) {
    let defaulted = |instruction: &Instruction| match *instruction {
        Instruction::StructNew(number) => Some(Instruction::StructNewDefault(number)),
        Instruction::StructNewDesc(number) => Some(Instruction::StructNewDefaultDesc(number)),
        _ => None,
    };
    let found: Vec<(usize, Instruction)> = (0..body.code.len())
        .filter_map(|index| defaulted(&body.code[index]).map(|default| (index, default)))
        .collect();
    if let Some((index, default)) = random.pick_from(&found) {
        body.code[index] = default;
    }
}

/// After unreachable, br or return: a number where a reference is wanted, or left over.
fn spoil_dead_code(random: &mut Random, body: &mut DraftBody) {
    let ends = |&index: &usize| {
        matches!(
            body.code[index],
            Instruction::Unreachable | Instruction::Br(_) | Instruction::Return
        )
    };
    let found: Vec<usize> = (0..body.code.len()).filter(ends).collect();
    let Some(index) = random.pick_from(&found) else {
        return;
    };
    let then = [Instruction::RefIsNull, Instruction::RefAsNonNull, Instruction::Nop];
    let then = random.pick(&then);
    body.code.splice(index + 1..index + 1, [Instruction::I32Const(1), then]);
}

fn spoil_local(random: &mut Random, body: &mut DraftBody) {
    let own = body.locals.len() - body.parameters;
    if own == 0 {
        return;
    }
    let index = body.parameters + random.below(own);
    if random.one_in(2) {
        body.locals.remove(index);
    } else {
        spoil_value(random, &mut body.locals[index]);
    }
}

/// An instruction with immediates or a close relative, where there is one.
fn spoil_likely(random: &mut Random, body: &mut DraftBody, types: usize) {
    let related = |&index: &usize| relative(&body.code[index]).is_some();
    let casts = |&index: &usize| matches!(body.code[index], Instruction::BranchingCast(_));
    let likely: Vec<usize> = (0..body.code.len()).filter(related).collect();
    let branching: Vec<usize> = (0..body.code.len()).filter(casts).collect();
    let index = random.pick_from(&branching).or(random.pick_from(&likely)).unwrap_or(0);
    let instruction = body.code[index];
    body.code[index] = match relative(&instruction) {
        Some(relative) if random.one_in(2) => relative,
        _ => spoil_immediate(random, instruction, types),
    };
}

fn flipped(target: Reference) -> Reference {
    Reference { nullable: !target.nullable, ..target }
}

/// The instruction that is easily taken for this one.
fn relative(instruction: &Instruction) -> Option<Instruction> {
    Some(match *instruction {
        Instruction::StructNew(number) => Instruction::StructNewDefault(number),
        Instruction::StructNewDefault(number) => Instruction::StructNewDefaultDesc(number),
        Instruction::StructNewDesc(number) => Instruction::StructNew(number),
        Instruction::StructNewDefaultDesc(number) => Instruction::StructNewDefault(number),
        Instruction::StructGet(number, field) => Instruction::StructSet(number, field),
        Instruction::StructSet(number, field) => Instruction::StructSet(number, field ^ 1),
        Instruction::LocalSet(_) => Instruction::Drop,
        Instruction::LocalTee(local) => Instruction::LocalSet(local),
        Instruction::LocalGet(local) => Instruction::LocalTee(local),
        Instruction::RefGetDesc(number) => {
            Instruction::RefCastDescEq(Reference::non_null(Heap::Defined(number)))
        }
        Instruction::RefTest(target) => Instruction::RefCast(target),
        Instruction::RefCast(target) => Instruction::RefCast(flipped(target)),
        Instruction::RefCastDescEq(target) => Instruction::RefCastDescEq(flipped(target)),
        Instruction::Br(label) => Instruction::BrIf(label),
        Instruction::BrIf(label) => Instruction::Br(label),
        Instruction::I32Const(number) => Instruction::I64Const(i64::from(number)),
        Instruction::I64Const(number) => Instruction::F64Const(number as u64),
        Instruction::F32Const(bits) => Instruction::I32Const(bits as i32),
        Instruction::F64Const(bits) => Instruction::F32Const(bits as u32),
        // The next code; after the last it is none.
        Instruction::Numeric(code) => Instruction::Numeric(code + 1),
        Instruction::BranchingCast(mut cast) => {
            cast.fail = !cast.fail;
            Instruction::BranchingCast(cast)
        }
        _ => return None,
    })
}

fn near(random: &mut Random, number: u32) -> u32 {
    match random.below(6) {
        0..=2 => number.wrapping_add(1),
        3 | 4 => number.saturating_sub(1),
        _ => random.draw() as u32 >> random.below(32),
    }
}

fn near_reference(random: &mut Random, reference: Reference, types: usize) -> Reference {
    match random.below(4) {
        0 => flipped(reference),
        1 => Reference { heap: other_exactness(random, reference.heap), ..reference },
        2 => Reference { heap: random_heap(random, types + 1), ..reference },
        _ => match reference.heap {
            Heap::Defined(number) => {
                Reference { heap: Heap::Defined(near(random, number)), ..reference }
            }
            Heap::Exact(number) => {
                Reference { heap: Heap::Exact(near(random, number)), ..reference }
            }
            heap => Reference { heap, nullable: !reference.nullable },
        },
    }
}

fn spoil_immediate(random: &mut Random, instruction: Instruction, types: usize) -> Instruction {
    match instruction {
        Instruction::Br(label) => Instruction::Br(near(random, label)),
        Instruction::BrIf(label) => Instruction::BrIf(near(random, label)),
        Instruction::LocalGet(local) => Instruction::LocalGet(near(random, local)),
        Instruction::LocalSet(local) => Instruction::LocalSet(near(random, local)),
        Instruction::LocalTee(local) => Instruction::LocalTee(near(random, local)),
        Instruction::StructNew(number) => Instruction::StructNew(near(random, number)),
        Instruction::StructNewDefault(number) => {
            Instruction::StructNewDefault(near(random, number))
        }
        Instruction::StructNewDesc(number) => Instruction::StructNewDesc(near(random, number)),
        Instruction::StructNewDefaultDesc(number) => {
            Instruction::StructNewDefaultDesc(near(random, number))
        }
        Instruction::RefGetDesc(number) => Instruction::RefGetDesc(near(random, number)),
        Instruction::StructGet(number, field) if random.one_in(2) => {
            Instruction::StructGet(number, near(random, field))
        }
        Instruction::StructGet(number, field) => {
            Instruction::StructGet(near(random, number), field)
        }
        Instruction::StructSet(number, field) if random.one_in(2) => {
            Instruction::StructSet(number, near(random, field))
        }
        Instruction::StructSet(number, field) => {
            Instruction::StructSet(near(random, number), field)
        }
        _ => spoil_target(random, instruction, types),
    }
}

fn spoil_target(random: &mut Random, instruction: Instruction, types: usize) -> Instruction {
    match instruction {
        Instruction::RefTest(target) => Instruction::RefTest(near_reference(random, target, types)),
        Instruction::RefCast(target) => Instruction::RefCast(near_reference(random, target, types)),
        Instruction::RefCastDescEq(target) => {
            Instruction::RefCastDescEq(near_reference(random, target, types))
        }
        Instruction::BranchingCast(mut cast) => {
            match random.below(4) {
                0 => cast.label = near(random, cast.label),
                1 => cast.by_descriptor = !cast.by_descriptor,
                2 => cast.source = near_reference(random, cast.source, types),
                _ => cast.target = near_reference(random, cast.target, types),
            }
            Instruction::BranchingCast(cast)
        }
        other => other,
    }
}

pub fn random_instruction(random: &mut Random, types: usize) -> Instruction {
    let number = random.below(types + 1) as u32;
    let small = random.below(3) as u32;
    let target = Reference { nullable: random.one_in(2), heap: random_heap(random, types) };
    let kind = random.pick(&KINDS);
    let code = TABLE[random.below(TABLE.len())].code;
    let choices = [
        constant(random, kind),
        Instruction::Numeric(code),
        Instruction::Unreachable,
        Instruction::Nop,
        Instruction::Block(None),
        Instruction::Loop(None),
        Instruction::End,
        Instruction::Br(small),
        Instruction::BrIf(small),
        Instruction::Return,
        Instruction::Drop,
        Instruction::LocalGet(small),
        Instruction::LocalSet(small),
        Instruction::LocalTee(small),
        Instruction::I32Const(number as i32 - 1),
        Instruction::RefNull(target.heap),
        Instruction::RefIsNull,
        Instruction::RefEq,
        Instruction::RefAsNonNull,
        Instruction::StructNew(number),
        Instruction::StructNewDefault(number),
        Instruction::StructGet(number, small),
        Instruction::StructSet(number, small),
        Instruction::RefTest(target),
        Instruction::RefCast(target),
        Instruction::StructNewDesc(number),
        Instruction::StructNewDefaultDesc(number),
        Instruction::RefGetDesc(number),
        Instruction::RefCastDescEq(target),
    ];
    random.pick(&choices)
}
