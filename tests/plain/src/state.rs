//! The state of a trial run: heap, locals, operands, open blocks and place.

use crate::order::heap_below;
use crate::sizes;
use crate::syntax::{Heap, Reference, Type, ValueType};

/// A float is its bits.
#[derive(Clone, Copy, Debug, PartialEq, Eq)]
pub enum Value {
    I32(i32),
    I64(i64),
    F32(u32),
    F64(u64),
    Null,
    Object(usize),
}

#[derive(Clone, Debug, PartialEq, Eq)]
pub struct Object {
    pub type_number: u32,
    pub descriptor: Option<usize>,
    pub fields: Vec<Value>,
}

#[derive(Clone, Copy, Debug, PartialEq, Eq)]
pub enum BlockKind {
    Block,
    Loop,
}

/// An open block; the function's own frame is not one.
#[derive(Clone, Copy, Debug, PartialEq, Eq)]
pub struct OpenBlock {
    pub kind: BlockKind,
    /// Which instruction of the body opened it.
    pub opened_by: usize,
    /// Operands below it.
    pub height: usize,
    /// How many values a branch to it carries.
    pub carried: usize,
}

pub struct State {
    pub heap: Vec<Object>,
    /// Cells that the objects of the heap need, one for each field.
    pub cells: usize,
    /// A local that holds no value yet is None.
    pub locals: Vec<Option<Value>>,
    pub operands: Vec<Value>,
    pub blocks: Vec<OpenBlock>,
    /// The next instruction, counted from the body's first.
    pub next: usize,
}

/// Zero or null; a non-null reference has none.
pub fn default_of(value: ValueType) -> Option<Value> {
    match value {
        ValueType::I32 => Some(Value::I32(0)),
        ValueType::I64 => Some(Value::I64(0)),
        ValueType::F32 => Some(Value::F32(0)),
        ValueType::F64 => Some(Value::F64(0)),
        ValueType::Ref(reference) => reference.nullable.then_some(Value::Null),
    }
}

impl State {
    pub fn start(locals: &[ValueType]) -> State {
        State {
            heap: Vec::new(),
            cells: 0,
            locals: locals.iter().map(|&local| default_of(local)).collect(),
            operands: Vec::new(),
            blocks: Vec::new(),
            next: 0,
        }
    }

    /// The operand so many below the top. A checked body always has it.
    pub fn operand(&self, below_top: usize) -> Value {
        self.operands[self.operands.len() - 1 - below_top]
    }

    pub fn pop(&mut self) -> Value {
        self.operands.pop().expect("a checked body has its operands")
    }

    pub fn pop_many(&mut self, count: usize) -> Vec<Value> {
        self.operands.split_off(self.operands.len() - count)
    }

    pub fn pop_object(&mut self) -> usize {
        object_of(self.pop()).expect("a null operand has trapped before")
    }

    /// Room for one more object of so many fields.
    pub fn has_room(&self, fields: usize) -> bool {
        self.heap.len() < sizes::OBJECTS && sizes::CELLS - self.cells >= fields
    }

    pub fn allocate(&mut self, type_number: u32, descriptor: Option<usize>, fields: Vec<Value>) {
        let number = self.heap.len();
        self.cells += fields.len();
        self.heap.push(Object { type_number, descriptor, fields });
        self.operands.push(Value::Object(number));
    }

    /// Whether a value passes a test for the target: its object's exact type is
    /// below the target's heap type, or it is null and the target may be.
    pub fn is_of(&self, types: &[Type], value: Value, target: Reference) -> bool {
        match object_of(value) {
            None => target.nullable,
            Some(object) => {
                heap_below(types, Heap::Exact(self.heap[object].type_number), target.heap)
            }
        }
    }

    /// Whether a value passes a descriptor cast: its object's descriptor is the
    /// very object given, or it is null and the target may be.
    pub fn is_described_by(&self, value: Value, descriptor: Value, target: Reference) -> bool {
        match object_of(value) {
            None => target.nullable,
            Some(object) => {
                let own = self.heap[object].descriptor;
                own.is_some() && own == object_of(descriptor)
            }
        }
    }
}

pub fn object_of(value: Value) -> Option<usize> {
    match value {
        Value::Object(number) => Some(number),
        _ => None,
    }
}
