//! The state of a trial run, part by part: place, heap, locals, operands, open blocks.

use super::{counted, stacked};
use crate::syntax::float;
use chelbugan::state::{Block, Object, Value};
use chelbugan::State;

/// Objects, locals or blocks that are shown; `chelbugan lines` writes all of them.
const SHOWN: usize = 16;

/// With what stands at its place.
pub fn state_text(state: &State, at_place: &str) -> String {
    let objects = state.objects();
    let objects = objects.iter().enumerate().map(|(number, object)| object_text(number, object));
    let locals = state.locals().into_iter().enumerate();
    let locals = locals.map(|(number, local)| format!("local {number}: {}", local_text(local)));
    let parts = [
        part("place", vec![format!("{}, {at_place}", state.place())]),
        part("heap", objects.collect()),
        part("locals", locals.collect()),
        part("operands", vec![stacked(&told(&state.operands()))]),
        part("blocks", state.blocks().into_iter().map(block_text).collect()),
    ];
    parts.concat()
}

/// A line for each entry, the part's name before the first; no entry is told as such.
fn part(name: &str, mut entries: Vec<String>) -> String {
    let hidden = entries.len().saturating_sub(SHOWN);
    entries.truncate(SHOWN);
    if entries.is_empty() {
        entries.push("nothing".to_string());
    }
    if hidden > 0 {
        entries.push(format!("and {hidden} more"));
    }
    let named = std::iter::once(name).chain(std::iter::repeat(""));
    named.zip(entries).map(|(name, entry)| format!("  {name:<10}{entry}\n")).collect()
}

fn object_text(number: usize, object: &Object) -> String {
    let mut text = format!("object {number}: type {}", object.type_number);
    if let Some(descriptor) = object.descriptor {
        text += &format!(", descriptor object {descriptor}");
    }
    if !object.fields.is_empty() {
        text += &format!(", fields ({})", told(&object.fields).join(", "));
    }
    text
}

fn local_text(local: Option<Value>) -> String {
    local.map_or("no value".to_string(), value_text)
}

/// Each value in words.
pub fn told(values: &[Value]) -> Vec<String> {
    values.iter().map(|&value| value_text(value)).collect()
}

fn value_text(value: Value) -> String {
    match value {
        Value::I32(number) => format!("i32 {number}"),
        Value::I64(number) => format!("i64 {number}"),
        Value::F32(bits) => format!("f32 {}", float::F32.text(u64::from(bits))),
        Value::F64(bits) => format!("f64 {}", float::F64.text(bits)),
        Value::Null => "null".to_string(),
        Value::Object(number) => format!("object {number}"),
    }
}

fn block_text(block: Block) -> String {
    let kind = if block.is_loop { "loop" } else { "block" };
    let below = counted(u64::from(block.height), "operand");
    format!("{kind} opened at {}, {below} below it", block.place)
}
