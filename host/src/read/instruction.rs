//! An instruction with its immediates.

use super::reader::{Fault, Reader, NOT_LISTED};
use super::types;
use crate::syntax::{
    others, BranchingCast, Instruction, New, Numeric, Reference, ValueType, PLAIN,
};

const LABEL: &str = "a label";
const LOCAL: &str = "a local's number";
const TYPE: &str = "a type's number";
const FIELD: &str = "a field's number";

pub fn instruction(reader: &mut Reader) -> Result<Instruction, Fault> {
    let start = reader.place;
    let code = reader.byte("an instruction")?;
    if let Some(row) = PLAIN.iter().find(|row| row.1 == code) {
        return Ok(Instruction::Plain(row.0));
    }
    if let Some(numeric) = Numeric::of_code(code) {
        return Ok(Instruction::Numeric(numeric));
    }
    Ok(match code {
        0x02 => Instruction::Block(block_type(reader)?),
        0x03 => Instruction::Loop(block_type(reader)?),
        0x0C => Instruction::Br(reader.unsigned(LABEL)?),
        0x0D => Instruction::BrIf(reader.unsigned(LABEL)?),
        0x20 => Instruction::LocalGet(reader.unsigned(LOCAL)?),
        0x21 => Instruction::LocalSet(reader.unsigned(LOCAL)?),
        0x22 => Instruction::LocalTee(reader.unsigned(LOCAL)?),
        0x41 => Instruction::Constant(reader.signed(32, "a constant")? as i32),
        0x42 => Instruction::Constant64(reader.signed(64, "a constant")?),
        0x43 => Instruction::Float32(u32::from_le_bytes(reader.bytes("a float")?)),
        0x44 => Instruction::Float64(u64::from_le_bytes(reader.bytes("a float")?)),
        0xD0 => Instruction::Null(types::heap(reader)?),
        0xFB => after_fb(reader)?,
        _ => return Err(Fault::new(NOT_LISTED, start, unlisted(reader, code))),
    })
}

/// What a code is in WebAssembly, where it is something; of FC with the number behind it.
fn unlisted(reader: &Reader, code: u8) -> String {
    let number = reader.peek().filter(|_| code == 0xFC);
    let after = number.and_then(|number| Some((number, others::name(&others::AFTER_FC, number)?)));
    match (after, others::name(&others::INSTRUCTIONS, code)) {
        (Some((number, name)), _) => others::not_yet(format!("{code:02x} {number:02x}"), name),
        (None, Some(name)) => others::not_yet(format!("{code:02x}"), name),
        (None, None) => format!("{code:02x} begins no instruction"),
    }
}

fn after_fb(reader: &mut Reader) -> Result<Instruction, Fault> {
    let start = reader.place;
    let number = reader.unsigned("the number after FB")?;
    Ok(match number {
        0x00 => new(reader, false, false)?,
        0x01 => new(reader, true, false)?,
        0x02 => Instruction::GetField(reader.unsigned(TYPE)?, reader.unsigned(FIELD)?),
        0x05 => Instruction::SetField(reader.unsigned(TYPE)?, reader.unsigned(FIELD)?),
        0x14 => Instruction::Test(reference(reader, false)?),
        0x15 => Instruction::Test(reference(reader, true)?),
        0x16 => Instruction::Cast(reference(reader, false)?),
        0x17 => Instruction::Cast(reference(reader, true)?),
        0x18 => branching(reader, false, false)?,
        0x19 => branching(reader, false, true)?,
        0x20 => new(reader, false, true)?,
        0x21 => new(reader, true, true)?,
        0x22 => Instruction::GetDescriptor(reader.unsigned(TYPE)?),
        0x23 => Instruction::CastByDescriptor(reference(reader, false)?),
        0x24 => Instruction::CastByDescriptor(reference(reader, true)?),
        0x25 => branching(reader, true, false)?,
        0x26 => branching(reader, true, true)?,
        _ => {
            let why = match others::name(&others::AFTER_FB, number) {
                Some(name) => others::not_yet(format!("fb {number:02x}"), name),
                None => format!("no instruction has the number {number:x} after FB"),
            };
            return Err(Fault::new(NOT_LISTED, start, why));
        }
    })
}

fn block_type(reader: &mut Reader) -> Result<Option<ValueType>, Fault> {
    if reader.takes(0x40) {
        return Ok(None);
    }
    types::value(reader).map(Some)
}

fn new(reader: &mut Reader, default: bool, by_descriptor: bool) -> Result<Instruction, Fault> {
    Ok(Instruction::New(New { number: reader.unsigned(TYPE)?, default, by_descriptor }))
}

fn reference(reader: &mut Reader, nullable: bool) -> Result<Reference, Fault> {
    Ok(Reference { nullable, heap: types::heap(reader)? })
}

/// Flags, label, source, target. Bit 0: the source may be null; bit 1: the target may.
fn branching(reader: &mut Reader, by_descriptor: bool, fail: bool) -> Result<Instruction, Fault> {
    let start = reader.place;
    let flags = reader.byte("a cast's flags")?;
    if flags > 3 {
        let why = format!("a cast's flags are 00 to 03, and not {flags:02x}");
        return Err(Fault::new(NOT_LISTED, start, why));
    }
    let label = reader.unsigned(LABEL)?;
    let source = reference(reader, flags & 1 != 0)?;
    let target = reference(reader, flags & 2 != 0)?;
    Ok(Instruction::BranchingCast(BranchingCast { by_descriptor, fail, label, source, target }))
}
