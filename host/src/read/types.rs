//! Heap types, value types and fields, read from their bytes.

use super::reader::{Fault, Reader, NOT_LISTED};
use crate::syntax::{others, Abstract, Field, Heap, Reference, ValueType, NUMBERS};

pub const EXACT: u8 = 0x62;
pub const NULLABLE: u8 = 0x63;
pub const NON_NULL: u8 = 0x64;

pub fn heap(reader: &mut Reader) -> Result<Heap, Fault> {
    if reader.takes(EXACT) {
        return Ok(Heap::Exact(reader.unsigned("the number of an exact type")?));
    }
    if let Some(heap) = reader.peek().and_then(Abstract::of_code) {
        reader.place += 1;
        return Ok(Heap::Abstract(heap));
    }
    let start = reader.place;
    let met = reader.peek();
    let number = reader.signed(33, "a heap type")?;
    u32::try_from(number)
        .map(Heap::Defined)
        .map_err(|_| Fault::new(NOT_LISTED, start, no_heap(met, number)))
}

/// A negative number is an abstract heap type's code, a number type's, or nothing's.
fn no_heap(met: Option<u8>, number: i64) -> String {
    let met = met.unwrap_or(0);
    let value = NUMBERS.iter().find(|row| row.1 == met).map(|row| row.2);
    match (others::name(&others::HEAPS, met), value) {
        (Some(name), _) => others::not_yet(format!("{met:02x}"), name),
        (None, Some(name)) => format!("{met:02x} is {name}, and a heap type is wanted"),
        (None, None) => format!("{number} is a negative number as a type's number"),
    }
}

pub fn value(reader: &mut Reader) -> Result<ValueType, Fault> {
    let start = reader.place;
    let byte = reader.byte("a value type")?;
    if let Some(row) = NUMBERS.iter().find(|row| row.1 == byte) {
        return Ok(row.0);
    }
    match byte {
        NULLABLE => Ok(ValueType::Ref(Reference { nullable: true, heap: heap(reader)? })),
        NON_NULL => Ok(ValueType::Ref(Reference { nullable: false, heap: heap(reader)? })),
        _ => Abstract::of_code(byte)
            .map(|heap| ValueType::nullable(Heap::Abstract(heap)))
            .ok_or_else(|| {
                let why = match others::name(&others::VALUES, byte) {
                    Some(name) => others::not_yet(format!("{byte:02x}"), name),
                    None => format!("{byte:02x} begins no value type"),
                };
                Fault::new(NOT_LISTED, start, why)
            }),
    }
}

pub fn field(reader: &mut Reader) -> Result<Field, Fault> {
    let value = value(reader)?;
    let start = reader.place;
    match reader.byte("00, fixed, or 01, mutable,")? {
        0x00 => Ok(Field { mutable: false, value }),
        0x01 => Ok(Field { mutable: true, value }),
        byte => Err(Fault::new(
            NOT_LISTED,
            start,
            format!("a field ends in 00, fixed, or 01, mutable, and not in {byte:02x}"),
        )),
    }
}
