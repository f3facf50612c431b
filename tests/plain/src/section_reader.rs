//! The bytes of a section: groups, definitions, value types and heap types.
//!
//! The types read come after those that are there already: numbers run on.
//! Faults 1 to 5 and 32 are given here, in reading order; the rules come later.

use crate::number::Reader;
use crate::order::abstract_of_code;
use crate::refusal::{refuse, Input, Refusal, NOT_LISTED, SIZE_EXCEEDED};
use crate::sizes;
use crate::syntax::{Definition, Field, Form, Heap, Reference, Type, ValueType};

pub const GROUP: u8 = 0x4E;
pub const OPEN: u8 = 0x50;
pub const FINAL: u8 = 0x4F;
pub const DESCRIBES: u8 = 0x4C;
pub const DESCRIPTOR: u8 = 0x4D;
pub const STRUCT: u8 = 0x5F;
pub const FUNCTION: u8 = 0x60;
pub const FIXED: u8 = 0x00;
pub const MUTABLE: u8 = 0x01;
pub const I32: u8 = 0x7F;
pub const I64: u8 = 0x7E;
pub const F32: u8 = 0x7D;
pub const F64: u8 = 0x7C;
pub const REF_NULL: u8 = 0x63;
pub const REF: u8 = 0x64;
pub const EXACT: u8 = 0x62;

pub fn read_section(types: &mut Vec<Type>, input: Input, bytes: &[u8]) -> Result<(), Refusal> {
    let mut reader = Reader::new(bytes);
    let groups = reader.u32()?;
    for _ in 0..groups {
        read_group(&mut reader, input, types)?;
    }
    reader.finish()
}

pub fn read_group(reader: &mut Reader, input: Input, types: &mut Vec<Type>) -> Result<(), Refusal> {
    let first = types.len();
    if reader.takes(GROUP) {
        let count = reader.u32()?;
        for _ in 0..count {
            room_for_type(reader, types)?;
            types.push(read_type(reader, input)?);
        }
    } else {
        // A missing byte is said before the size is: nothing says what starts here.
        if reader.peek().is_some() {
            room_for_type(reader, types)?;
        }
        types.push(read_type(reader, input)?);
    }
    let reach = types.len();
    types[first..].iter_mut().for_each(|member| member.reach = reach);
    Ok(())
}

fn room_for_type(reader: &Reader, types: &[Type]) -> Result<(), Refusal> {
    if types.len() >= sizes::TYPES {
        return refuse(SIZE_EXCEEDED, reader.place());
    }
    Ok(())
}

fn read_type(reader: &mut Reader, input: Input) -> Result<Type, Refusal> {
    let start = reader.place();
    let definition = read_definition(reader)?;
    let end = reader.place();
    // The reach is known when the group has been read.
    Ok(Type { definition, input, start, end, reach: 0 })
}

fn read_definition(reader: &mut Reader) -> Result<Definition, Refusal> {
    let (open, supertypes) = read_openness(reader)?;
    let describes = read_clause(reader, DESCRIBES)?;
    let descriptor = read_clause(reader, DESCRIPTOR)?;
    let form = read_form(reader)?;
    Ok(Definition { open, supertypes, describes, descriptor, form })
}

fn read_openness(reader: &mut Reader) -> Result<(bool, Vec<u32>), Refusal> {
    if reader.takes(OPEN) {
        return Ok((true, read_supertypes(reader)?));
    }
    if reader.takes(FINAL) {
        return Ok((false, read_supertypes(reader)?));
    }
    Ok((false, Vec::new()))
}

fn read_supertypes(reader: &mut Reader) -> Result<Vec<u32>, Refusal> {
    let count = reader.u32()?;
    let mut supertypes = Vec::new();
    for _ in 0..count {
        supertypes.push(reader.u32()?);
    }
    Ok(supertypes)
}

fn read_clause(reader: &mut Reader, code: u8) -> Result<Option<u32>, Refusal> {
    if !reader.takes(code) {
        return Ok(None);
    }
    reader.u32().map(Some)
}

fn read_form(reader: &mut Reader) -> Result<Form, Refusal> {
    let place = reader.place();
    match reader.byte()? {
        STRUCT => Ok(Form::Struct(read_entries(reader, read_field)?)),
        FUNCTION => {
            let parameters = read_entries(reader, read_value_type)?;
            let results = read_entries(reader, read_value_type)?;
            Ok(Form::Function { parameters, results })
        }
        _ => refuse(NOT_LISTED, place),
    }
}

/// A list whose first entry beyond the size is refused before its bytes are read.
fn read_entries<T>(
    reader: &mut Reader,
    read_entry: fn(&mut Reader) -> Result<T, Refusal>,
) -> Result<Vec<T>, Refusal> {
    let count = reader.u32()?;
    let mut entries = Vec::new();
    for _ in 0..count {
        if entries.len() >= sizes::ENTRIES {
            return refuse(SIZE_EXCEEDED, reader.place());
        }
        entries.push(read_entry(reader)?);
    }
    Ok(entries)
}

fn read_field(reader: &mut Reader) -> Result<Field, Refusal> {
    let value = read_value_type(reader)?;
    let place = reader.place();
    match reader.byte()? {
        FIXED => Ok(Field { value, mutable: false }),
        MUTABLE => Ok(Field { value, mutable: true }),
        _ => refuse(NOT_LISTED, place),
    }
}

pub fn read_value_type(reader: &mut Reader) -> Result<ValueType, Refusal> {
    let place = reader.place();
    match reader.byte()? {
        I32 => Ok(ValueType::I32),
        I64 => Ok(ValueType::I64),
        F32 => Ok(ValueType::F32),
        F64 => Ok(ValueType::F64),
        REF_NULL => Ok(ValueType::Ref(Reference::nullable(read_heap(reader)?))),
        REF => Ok(ValueType::Ref(Reference::non_null(read_heap(reader)?))),
        code => match abstract_of_code(code) {
            Some(heap) => Ok(ValueType::nullable(Heap::Abstract(heap))),
            None => refuse(NOT_LISTED, place),
        },
    }
}

pub fn read_heap(reader: &mut Reader) -> Result<Heap, Refusal> {
    if reader.takes(EXACT) {
        return reader.u32().map(Heap::Exact);
    }
    if let Some(heap) = reader.peek().and_then(abstract_of_code) {
        reader.byte()?;
        return Ok(Heap::Abstract(heap));
    }
    let place = reader.place();
    let number = reader.s33()?;
    // Every other negative number is no listed code.
    u32::try_from(number).map(Heap::Defined).or_else(|_| refuse(NOT_LISTED, place))
}
