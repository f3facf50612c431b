//! The bytes of a body: locals entries and instructions with their immediates.
//!
//! Only byte faults (1, 2, 3 and 32) are given here.

use crate::number::Reader;
use crate::numeric::row_of_code;
use crate::refusal::{refuse, Refusal, NOT_LISTED};
use crate::section_reader::{read_heap, read_value_type};
use crate::syntax::{BranchingCast, Heap, Instruction, Placed, Reference, ValueType};

pub const NO_BLOCK_TYPE: u8 = 0x40;
pub const PREFIX: u8 = 0xFB;

/// One entry of the locals list: so many locals of one type.
pub struct LocalsEntry {
    pub place: usize,
    pub count: u32,
    pub value: ValueType,
}

pub fn read_locals_entry(reader: &mut Reader) -> Result<LocalsEntry, Refusal> {
    let place = reader.place();
    let count = reader.u32()?;
    let value = read_value_type(reader)?;
    Ok(LocalsEntry { place, count, value })
}

pub fn read_instruction(reader: &mut Reader) -> Result<Placed, Refusal> {
    let place = reader.place();
    let code = reader.byte()?;
    let instruction = match code {
        PREFIX => read_prefixed(reader)?,
        _ => read_plain(reader, code, place)?,
    };
    Ok(Placed { place, instruction })
}

fn read_plain(reader: &mut Reader, code: u8, place: usize) -> Result<Instruction, Refusal> {
    Ok(match code {
        0x00 => Instruction::Unreachable,
        0x01 => Instruction::Nop,
        0x02 => Instruction::Block(read_block_type(reader)?),
        0x03 => Instruction::Loop(read_block_type(reader)?),
        0x0B => Instruction::End,
        0x0C => Instruction::Br(reader.u32()?),
        0x0D => Instruction::BrIf(reader.u32()?),
        0x0F => Instruction::Return,
        0x1A => Instruction::Drop,
        0x20 => Instruction::LocalGet(reader.u32()?),
        0x21 => Instruction::LocalSet(reader.u32()?),
        0x22 => Instruction::LocalTee(reader.u32()?),
        0x41 => Instruction::I32Const(reader.s32()?),
        0x42 => Instruction::I64Const(reader.s64()?),
        0x43 => Instruction::F32Const(u32::from_le_bytes(reader.bytes()?)),
        0x44 => Instruction::F64Const(u64::from_le_bytes(reader.bytes()?)),
        0xD0 => Instruction::RefNull(read_heap(reader)?),
        0xD1 => Instruction::RefIsNull,
        0xD3 => Instruction::RefEq,
        0xD4 => Instruction::RefAsNonNull,
        _ if row_of_code(code).is_some() => Instruction::Numeric(code),
        _ => return refuse(NOT_LISTED, place),
    })
}

/// After FB: a number whose own first byte is the place when it is not listed.
fn read_prefixed(reader: &mut Reader) -> Result<Instruction, Refusal> {
    let place = reader.place();
    let number = reader.u32()?;
    Ok(match number {
        0x00 => Instruction::StructNew(reader.u32()?),
        0x01 => Instruction::StructNewDefault(reader.u32()?),
        0x02 => Instruction::StructGet(reader.u32()?, reader.u32()?),
        0x05 => Instruction::StructSet(reader.u32()?, reader.u32()?),
        0x14 => Instruction::RefTest(Reference::non_null(read_heap(reader)?)),
        0x15 => Instruction::RefTest(Reference::nullable(read_heap(reader)?)),
        0x16 => Instruction::RefCast(Reference::non_null(read_heap(reader)?)),
        0x17 => Instruction::RefCast(Reference::nullable(read_heap(reader)?)),
        0x18 => read_branching_cast(reader, false, false)?,
        0x19 => read_branching_cast(reader, false, true)?,
        0x20 => Instruction::StructNewDesc(reader.u32()?),
        0x21 => Instruction::StructNewDefaultDesc(reader.u32()?),
        0x22 => Instruction::RefGetDesc(reader.u32()?),
        0x23 => Instruction::RefCastDescEq(Reference::non_null(read_heap(reader)?)),
        0x24 => Instruction::RefCastDescEq(Reference::nullable(read_heap(reader)?)),
        0x25 => read_branching_cast(reader, true, false)?,
        0x26 => read_branching_cast(reader, true, true)?,
        _ => return refuse(NOT_LISTED, place),
    })
}

fn read_block_type(reader: &mut Reader) -> Result<Option<ValueType>, Refusal> {
    if reader.takes(NO_BLOCK_TYPE) {
        return Ok(None);
    }
    read_value_type(reader).map(Some)
}

/// Flags (bit 0 source null, bit 1 target null), label, source, target.
fn read_branching_cast(
    reader: &mut Reader,
    by_descriptor: bool,
    fail: bool,
) -> Result<Instruction, Refusal> {
    let flags = read_flags(reader)?;
    let label = reader.u32()?;
    let source = read_flagged(reader, flags & 1 != 0)?;
    let target = read_flagged(reader, flags & 2 != 0)?;
    Ok(Instruction::BranchingCast(BranchingCast { by_descriptor, fail, label, source, target }))
}

fn read_flags(reader: &mut Reader) -> Result<u8, Refusal> {
    let place = reader.place();
    match reader.byte()? {
        flags @ 0..=3 => Ok(flags),
        _ => refuse(NOT_LISTED, place),
    }
}

fn read_flagged(reader: &mut Reader, nullable: bool) -> Result<Reference, Refusal> {
    let heap: Heap = read_heap(reader)?;
    Ok(Reference { nullable, heap })
}
