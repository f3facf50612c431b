//! A readable listing of a section's or a body's bytes, line by line with offsets. It judges nothing, and shows every byte:
//! behind the one that fits nowhere, the rest as it is. A padded number is listed, and the listing says so.

use crate::hex;
use crate::read::section::Line;
use crate::read::{self, Fault, Padded, Padding};
use crate::syntax::{Instruction, Item, Placed, Plain};

pub struct Listing {
    pub lines: Vec<Line>,
    /// Where the item begins that could not be read, and why.
    pub fault: Option<(usize, Fault)>,
}

/// Bytes that stand on one line; the rest of a longer item goes below.
const BYTES_A_LINE: usize = 8;

/// Of bytes that mean nothing.
const REST_A_LINE: usize = 16;

/// Blocks inside one another beyond these are not moved further to the right, so that a listing stays some sixty times as
/// long as its bytes.
const INDENT_AT_MOST: usize = 8;

/// The library, and how many types it has, as far as they can be read.
pub fn library(bytes: &[u8]) -> (Listing, usize) {
    let read = read::section::read_library(bytes, Padding::Noted);
    let count = read.types.len();
    (of_section(bytes, read), count)
}

/// A section whose types are numbered on after so many of the library.
pub fn section(bytes: &[u8], before: usize) -> Listing {
    of_section(bytes, read::section::read_addon(bytes, before, Padding::Noted))
}

fn of_section(bytes: &[u8], read: read::section::Section) -> Listing {
    let read::section::Section { lines, fault, padded, .. } = read;
    Listing { lines, fault }.with_remarks(bytes, &padded)
}

pub fn body(bytes: &[u8]) -> Listing {
    let read::body::Body { parts, fault, padded } = read::body::read_with(bytes, Padding::Noted);
    let mut lines = Vec::new();
    let mut frames = 1;
    for part in &parts {
        if ends(part) {
            frames -= 1;
        }
        let indent = match part.what {
            Item::Entries(_) => 0,
            Item::Locals(..) => 1,
            Item::Instruction(_) => frames,
        };
        lines.push(Line { bytes: part.bytes.clone(), indent, text: part.what.to_string() });
        if opens(part) {
            frames += 1;
        }
    }
    Listing { lines, fault }.with_remarks(bytes, &padded)
}

impl Listing {
    /// Behind what a line says, how each of its padded numbers would be written; so too where the listing breaks off.
    fn with_remarks(mut self, bytes: &[u8], padded: &[Padded]) -> Listing {
        for number in padded {
            let remark = format!(" (padded: {})", number.mend(bytes));
            let line = self.lines.iter_mut().find(|line| line.bytes.contains(&number.bytes.start));
            match (line, &mut self.fault) {
                (Some(line), _) => line.text += &remark,
                (None, Some((_, fault))) => fault.why += &remark,
                _ => (),
            }
        }
        self
    }
}

pub fn ends(part: &Placed<Item>) -> bool {
    matches!(part.what, Item::Instruction(Instruction::Plain(Plain::End)))
}

pub fn opens(part: &Placed<Item>) -> bool {
    matches!(part.what, Item::Instruction(Instruction::Block(_) | Instruction::Loop(_)))
}

pub fn text(bytes: &[u8], listing: &Listing) -> String {
    let mut text: String = listing.lines.iter().map(|line| line_text(bytes, line)).collect();
    if let Some((from, fault)) = &listing.fault {
        text += &broken_text(bytes, *from, fault);
    }
    text
}

/// What was read of the item, the byte where it breaks off, and the bytes behind it.
fn broken_text(bytes: &[u8], from: usize, fault: &Fault) -> String {
    let read = Line { bytes: from..fault.place, indent: 0, text: "not whole".to_string() };
    let mut text = line_text(bytes, &read);
    text += &format!("{:>6}  the listing breaks off here: {}\n", fault.place, fault.why);
    for (index, piece) in bytes[fault.place..].chunks(REST_A_LINE).enumerate() {
        text += &format!("{:>6}  {}\n", fault.place + index * REST_A_LINE, hex::spaced(piece));
    }
    text
}

pub fn line_text(bytes: &[u8], line: &Line) -> String {
    let mut text = String::new();
    let item = &bytes[line.bytes.clone()];
    for (index, piece) in item.chunks(BYTES_A_LINE).enumerate() {
        let place = line.bytes.start + index * BYTES_A_LINE;
        let meaning = if index == 0 { line.text.as_str() } else { "" };
        let digits = hex::spaced(piece);
        let indent = "  ".repeat(line.indent.min(INDENT_AT_MOST));
        let whole = format!("{place:>6}  {digits:<24}{indent}{meaning}");
        text += whole.trim_end();
        text.push('\n');
    }
    text
}
