//! The one cause of a trap: what the instruction found. The state that the run left has all of it, for a trapping step changes
//! nothing.

use crate::read;
use crate::syntax::{Heap, Instruction, Item};
use chelbugan::state::{Object, Value};
use chelbugan::State;

/// Sizes of the heap.
const OBJECTS: usize = 1_024;
const CELLS: usize = 4_096;

/// None where the number or the instruction is none that traps so.
pub fn cause(body: &[u8], number: u64, place: usize, state: &State) -> Option<String> {
    let parts = read::body::read(body).parts;
    let part = parts.iter().find(|part| part.bytes.start == place)?;
    let Item::Instruction(instruction) = part.what else { return None };
    let name = instruction.name();
    match number {
        41 => Some("unreachable".to_string()),
        42 => Some(format!("{name} found null")),
        43 => Some(format!("{name} found null as the descriptor")),
        44 => failed_cast(&instruction, state),
        45 => Some(no_room(&state.objects())),
        46 => Some(format!("{name} is a numeric code that the trial run does not do")),
        _ => None,
    }
}

fn failed_cast(instruction: &Instruction, state: &State) -> Option<String> {
    let (operands, objects) = (state.operands(), state.objects());
    let of_object = |value: &Value| match value {
        Value::Object(number) => objects.get(*number as usize).map(|object| (*number, object)),
        _ => None,
    };
    match *instruction {
        Instruction::Cast(target) => Some(match of_object(operands.last()?) {
            None => format!("null, and {target} is not null"),
            Some((number, object)) => {
                let of = object.type_number;
                format!("object {number} is of type {of}, which is not below {}", heap(target.heap))
            }
        }),
        Instruction::CastByDescriptor(target) => {
            let [.., object, descriptor] = &operands[..] else { return None };
            Some(match (of_object(object), descriptor) {
                (Some((number, object)), Value::Object(given)) => {
                    let has = match object.descriptor {
                        Some(own) => format!("descriptor object {own}"),
                        None => "no descriptor".to_string(),
                    };
                    format!("object {number} has {has}, and object {given} was given")
                }
                _ => format!("null, and {target} is not null"),
            })
        }
        _ => None,
    }
}

fn heap(heap: Heap) -> String {
    match heap {
        Heap::Defined(number) => format!("type {number}"),
        Heap::Exact(number) => format!("exactly type {number}"),
        Heap::Abstract(heap) => heap.name().to_string(),
    }
}

fn no_room(objects: &[Object]) -> String {
    let used: usize = objects.iter().map(|object| object.fields.len()).sum();
    match objects.len() < OBJECTS {
        false => "1,024 objects exist, the most that there may be".to_string(),
        true => format!(
            "its fields need more cells than are left: {} of 4,096",
            CELLS - used.min(CELLS)
        ),
    }
}
