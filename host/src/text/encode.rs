//! What is said, as bytes: each number as short as it can be.

use crate::syntax::{Heap, Instruction, New, Reference, ValueType, NUMBERS, PLAIN};

pub fn unsigned(to: &mut Vec<u8>, number: u32) {
    let mut left = number;
    while left >= 0x80 {
        to.push(left as u8 | 0x80);
        left >>= 7;
    }
    to.push(left as u8);
}

pub fn signed(to: &mut Vec<u8>, number: i64) {
    let mut left = number;
    while !(-0x40..0x40).contains(&left) {
        to.push(left as u8 & 0x7F | 0x80);
        left >>= 7;
    }
    to.push(left as u8 & 0x7F);
}

pub fn heap(to: &mut Vec<u8>, heap: Heap) {
    match heap {
        Heap::Abstract(heap) => to.push(heap.code()),
        Heap::Defined(number) => signed(to, i64::from(number)),
        Heap::Exact(number) => {
            to.push(0x62);
            unsigned(to, number);
        }
    }
}

/// A value type as it is written: an abstract reference has a short form.
#[derive(Clone, Copy, Debug, PartialEq, Eq)]
pub struct Written {
    pub value: ValueType,
    pub short: bool,
}

pub fn value(to: &mut Vec<u8>, written: Written) {
    match written.value {
        ValueType::Ref(Reference { heap: Heap::Abstract(code), .. }) if written.short => {
            to.push(code.code());
        }
        ValueType::Ref(reference) => {
            to.push(if reference.nullable { 0x63 } else { 0x64 });
            heap(to, reference.heap);
        }
        number => to.extend(NUMBERS.iter().find(|row| row.0 == number).map(|row| row.1)),
    }
}

pub fn block(to: &mut Vec<u8>, is_loop: bool, result: Option<Written>) {
    to.push(if is_loop { 0x03 } else { 0x02 });
    match result {
        None => to.push(0x40),
        Some(result) => value(to, result),
    }
}

fn with(to: &mut Vec<u8>, code: u8, numbers: &[u32]) {
    to.push(code);
    numbers.iter().for_each(|&number| unsigned(to, number));
}

fn after_fb(to: &mut Vec<u8>, code: u8, numbers: &[u32]) {
    to.push(0xFB);
    with(to, code, numbers);
}

/// Every instruction but for blocks, whose type has a short form.
pub fn instruction(to: &mut Vec<u8>, instruction: &Instruction) {
    let cast = |to: &mut Vec<u8>, code: u8, target: Reference| {
        after_fb(to, code + target.nullable as u8, &[]);
        heap(to, target.heap);
    };
    match *instruction {
        Instruction::Plain(plain) => to.push(PLAIN[plain as usize].1),
        Instruction::Block(result) => block(to, false, result.map(long)),
        Instruction::Loop(result) => block(to, true, result.map(long)),
        Instruction::Br(label) => with(to, 0x0C, &[label]),
        Instruction::BrIf(label) => with(to, 0x0D, &[label]),
        Instruction::LocalGet(local) => with(to, 0x20, &[local]),
        Instruction::LocalSet(local) => with(to, 0x21, &[local]),
        Instruction::LocalTee(local) => with(to, 0x22, &[local]),
        Instruction::Constant(number) => {
            to.push(0x41);
            signed(to, i64::from(number));
        }
        Instruction::Constant64(number) => {
            to.push(0x42);
            signed(to, number);
        }
        Instruction::Float32(bits) => {
            to.push(0x43);
            to.extend(bits.to_le_bytes());
        }
        Instruction::Float64(bits) => {
            to.push(0x44);
            to.extend(bits.to_le_bytes());
        }
        Instruction::Numeric(numeric) => to.push(numeric.code()),
        Instruction::Null(of) => {
            to.push(0xD0);
            heap(to, of);
        }
        Instruction::New(New { number, default, by_descriptor }) => {
            let code = if by_descriptor { 0x20 } else { 0x00 } + default as u8;
            after_fb(to, code, &[number]);
        }
        Instruction::GetField(number, field) => after_fb(to, 0x02, &[number, field]),
        Instruction::SetField(number, field) => after_fb(to, 0x05, &[number, field]),
        Instruction::GetDescriptor(number) => after_fb(to, 0x22, &[number]),
        Instruction::Test(target) => cast(to, 0x14, target),
        Instruction::Cast(target) => cast(to, 0x16, target),
        Instruction::CastByDescriptor(target) => cast(to, 0x23, target),
        Instruction::BranchingCast(cast) => {
            let code = if cast.by_descriptor { 0x25 } else { 0x18 } + cast.fail as u8;
            after_fb(to, code, &[]);
            to.push(cast.source.nullable as u8 + 2 * cast.target.nullable as u8);
            unsigned(to, cast.label);
            heap(to, cast.source.heap);
            heap(to, cast.target.heap);
        }
    }
}

fn long(value: ValueType) -> Written {
    Written { value, short: false }
}
