//! Bodies of a library's function over types of the add-on: made, asked for, cast and given
//! where the library's type is wanted. Accepted or refused, run to their end or into a trap.

use super::random::Random;
use super::thin::{alone, body_of, open_function, open_struct, section_of};
use crate::lines::{Asked, Request};
use crate::syntax::{Abstract, Definition, Field, Form, Heap, Instruction, Reference, ValueType};

/// The library's: a struct, and a function that gives it.
const SHARED: u32 = 0;
const FUNCTION: u32 = 1;
/// The add-on's: a struct of one field below the library's, and one that is not.
const BELOW: u32 = 2;
const BESIDE: u32 = 3;
/// The first that is nobody's.
const ABSENT: u32 = 4;

pub fn body_of_library(random: &mut Random) -> Request {
    let given = ValueType::nullable(Heap::Defined(SHARED));
    let library = vec![open_struct(None), open_function(Vec::new(), vec![given])];
    let field = Field { value: ValueType::I32, mutable: true };
    let below = Definition { form: Form::Struct(vec![field]), ..open_struct(Some(SHARED)) };
    let library = section_of(random, &alone(library));
    let section = section_of(random, &alone(vec![below, open_struct(None)]));
    let local = ValueType::nullable(heap(random));
    let mut code = any_code(random);
    code.push(Instruction::End);
    let body = body_of(random, &[local], &code);
    let asked = match random.one_in(3) {
        true => Asked::Body(FUNCTION, body),
        false => Asked::Run(FUNCTION, body, random.pick(&[1000, 1000, 3, 2])),
    };
    Request { library: Some(library), section, asked }
}

/// Mostly the type below the library's.
fn number(random: &mut Random) -> u32 {
    random.pick(&[BELOW, BELOW, BELOW, BELOW, SHARED, SHARED, BESIDE, FUNCTION, ABSENT])
}

fn heap(random: &mut Random) -> Heap {
    let number = number(random);
    let heaps = [Heap::Defined(number), Heap::Exact(number), Heap::Abstract(Abstract::Struct)];
    random.pick(&heaps)
}

/// Leaves one reference, where it is accepted.
fn any_code(random: &mut Random) -> Vec<Instruction> {
    let made = Instruction::StructNewDefault(number(random));
    let target = Reference { nullable: random.one_in(2), heap: heap(random) };
    match random.below(6) {
        0 => vec![made],
        1 => vec![made, Instruction::RefCast(target)],
        2 => vec![made, Instruction::LocalTee(0)],
        3 => vec![made, Instruction::RefTest(target), Instruction::Drop, made],
        4 => vec![Instruction::RefNull(heap(random))],
        _ => vec![made, Instruction::StructGet(number(random), 0), Instruction::Drop, made],
    }
}
