//! Operands that only null is wrong with, beside those that fit, are wrong or are
//! missing, for every instruction that may want a non-null one.

use super::make_section::Draft;
use super::random::Random;
use super::thin::{about_body, alone, body_of, open_function, open_struct, section_of};
use super::value_types::{heaps_below, random_heap};
use crate::syntax::{
    Abstract, BranchingCast, Definition, Field, Form, Heap, Instruction, Reference, Type, ValueType,
};

/// 0 and 1 are structs, 1 below 0; then a struct of two fields and a function of two
/// results, and two locals, all of the same two types.
const HOLDER: u32 = 2;
const FUNCTION: u32 = 3;

/// An instruction, what it takes, bottom first, and what stands before that.
struct Use {
    before: Option<Instruction>,
    takes: Vec<ValueType>,
    instruction: Instruction,
}

pub fn nulls(random: &mut Random) -> String {
    let held = [wanted(random), wanted(random)];
    let values = held.map(ValueType::Ref);
    let fields = values.map(|value| Field { value, mutable: true });
    let holder = Definition { form: Form::Struct(fields.to_vec()), ..open_struct(None) };
    let function = open_function(Vec::new(), values.to_vec());
    let types = vec![open_struct(None), open_struct(Some(0)), holder, function];
    let draft = Draft { groups: alone(types), function: FUNCTION };
    let code = code_of(random, &draft.types(), held);
    let section = section_of(random, &draft.groups);
    let body = body_of(random, &values, &code);
    about_body(random, &section, FUNCTION as usize, &body)
}

/// Mostly not null.
fn wanted(random: &mut Random) -> Reference {
    let heaps = [
        Heap::Defined(0),
        Heap::Exact(0),
        Heap::Defined(1),
        Heap::Exact(1),
        Heap::Abstract(Abstract::Struct),
        Heap::Abstract(Abstract::Any),
    ];
    Reference { nullable: random.one_in(4), heap: random.pick(&heaps) }
}

/// Now and then in unreachable code, or with one operand more than is taken.
fn code_of(random: &mut Random, types: &[Type], held: [Reference; 2]) -> Vec<Instruction> {
    let used = any_use(random, types, held);
    let mut code: Vec<Instruction> = used.before.into_iter().collect();
    if random.one_in(5) {
        code.push(Instruction::Unreachable);
    }
    if random.one_in(5) {
        code.push(Instruction::I32Const(7));
    }
    used.takes.iter().for_each(|&value| operand(random, types, value, &mut code));
    code.push(used.instruction);
    let ended = used.before.is_none() && used.instruction == Instruction::End;
    if !ended {
        code.extend([Instruction::Unreachable, Instruction::End]);
    }
    code
}

fn any_use(random: &mut Random, types: &[Type], held: [Reference; 2]) -> Use {
    let [first, second] = held.map(ValueType::Ref);
    let both = vec![first, second];
    let (takes, instruction) = match random.below(13) {
        0 => (both, Instruction::End),
        1 => (both, Instruction::Br(0)),
        2 => (both, Instruction::Return),
        3 | 4 => (vec![first, second, ValueType::I32], Instruction::BrIf(0)),
        5 => (vec![first], Instruction::LocalSet(0)),
        6 => (vec![second], Instruction::LocalTee(1)),
        7 => (both, Instruction::StructNew(HOLDER)),
        8 | 12 => {
            let object = ValueType::nullable(Heap::Defined(HOLDER));
            (vec![object, second], Instruction::StructSet(HOLDER, 1))
        }
        9 => {
            let before = Some(Instruction::Block(Some(first)));
            return Use { before, takes: vec![first], instruction: Instruction::End };
        }
        _ => {
            let cast = any_cast(random, types, held[1]);
            (vec![first, ValueType::Ref(cast.source)], Instruction::BranchingCast(cast))
        }
    };
    Use { before: None, takes, instruction }
}

/// To the function's label, whose last type takes what is carried.
fn any_cast(random: &mut Random, types: &[Type], taken: Reference) -> BranchingCast {
    let heap = random.pick(&heaps_below(types, Heap::Abstract(Abstract::Any)));
    let other = Reference { nullable: random.one_in(3), heap };
    let fail = random.one_in(2);
    let (source, target) = if fail { (taken, other) } else { (other, taken) };
    BranchingCast { by_descriptor: false, fail, label: 0, source, target }
}

fn operand(random: &mut Random, types: &[Type], value: ValueType, code: &mut Vec<Instruction>) {
    let ValueType::Ref(reference) = value else {
        return code.push(Instruction::I32Const(random.below(2) as i32));
    };
    let heap = random.pick(&heaps_below(types, reference.heap));
    match random.below(12) {
        0..=4 => code.extend([Instruction::RefNull(heap), Instruction::RefAsNonNull]),
        5..=8 => code.push(Instruction::RefNull(heap)),
        9 => code.push(Instruction::RefNull(random_heap(random, types.len()))),
        10 => code.push(Instruction::I32Const(1)),
        _ => {}
    }
}
