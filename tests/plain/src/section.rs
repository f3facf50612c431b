//! A library and an add-on's section judged whole, and the bytes of one of their definitions.

use crate::refusal::{refuse, Input, Refusal, OUT_OF_REACH, SIZE_EXCEEDED};
use crate::section_reader::read_section;
use crate::sizes;
use crate::syntax::Type;
use crate::type_rules::judge_types;

/// A library of no types: what a request without a library means.
pub const EMPTY_LIBRARY: &[u8] = &[0x00];

/// Everything about the library first; then the add-on's section, whose types have the
/// numbers after the library's. The answer is the joined list.
pub fn judge_section(library: &[u8], section: &[u8]) -> Result<Vec<Type>, Refusal> {
    let mut types = Vec::new();
    judge_after(&mut types, Input::Library, library)?;
    judge_after(&mut types, Input::Addon, section)?;
    Ok(types)
}

/// Whole size, then bytes, then rules of the types that come after those judged already.
fn judge_after(types: &mut Vec<Type>, input: Input, bytes: &[u8]) -> Result<(), Refusal> {
    let first = types.len();
    within_input_size(bytes).map_err(|refusal| refusal.of(input))?;
    read_section(types, input, bytes).map_err(|refusal| refusal.of(input))?;
    judge_types(types, first)
}

pub fn within_input_size(input: &[u8]) -> Result<(), Refusal> {
    if input.len() > sizes::INPUT_BYTES {
        return refuse(SIZE_EXCEEDED, 0);
    }
    Ok(())
}

/// The very bytes of a definition, a part of the section that holds it, and which one that
/// is; an absent number is its own place.
pub fn definition_bytes<'a>(
    library: &'a [u8],
    section: &'a [u8],
    number: u32,
) -> Result<(&'a [u8], Input), Refusal> {
    let types = judge_section(library, section)?;
    let Some(found) = types.get(number as usize) else {
        return refuse(OUT_OF_REACH, number as usize);
    };
    let holder = match found.input {
        Input::Library => library,
        Input::Addon => section,
    };
    Ok((&holder[found.start..found.end], found.input))
}
