//! A whole module, as far as it takes to say where its parts lie. Nothing of it is judged.

use super::reader::{Padding, Reader};
use std::ops::Range;

pub const MAGIC: &[u8] = b"\0asm";

/// The magic bytes and the version.
const HEADER: usize = 8;

const TYPE_SECTION: u8 = 1;
const CODE_SECTION: u8 = 10;

/// The content of the type section.
pub fn type_section(bytes: &[u8]) -> Option<Range<usize>> {
    content(bytes, TYPE_SECTION)
}

/// The first body of the code section behind its size, and how many bodies there are.
pub fn first_body(bytes: &[u8]) -> Option<(Range<usize>, u64)> {
    let content = content(bytes, CODE_SECTION)?;
    let mut reader = Reader::new(&bytes[..content.end], Padding::Noted);
    reader.place = content.start;
    let count = reader.unsigned("").ok()?;
    let body = sized(&mut reader)?;
    (count > 0).then_some((body, u64::from(count)))
}

fn content(bytes: &[u8], wanted: u8) -> Option<Range<usize>> {
    let mut reader = Reader::new(bytes, Padding::Noted);
    reader.place = HEADER;
    loop {
        let kind = reader.byte("").ok()?;
        let content = sized(&mut reader)?;
        if kind == wanted {
            return Some(content);
        }
        reader.place = content.end;
    }
}

/// What a size tells the length of.
fn sized(reader: &mut Reader) -> Option<Range<usize>> {
    let size = reader.unsigned("").ok()? as usize;
    let end = reader.place.checked_add(size).filter(|&end| end <= reader.bytes.len())?;
    Some(reader.place..end)
}
