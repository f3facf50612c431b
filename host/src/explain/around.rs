//! The bytes around a fault, with the fault marked.

use crate::read::module;
use crate::{hex, text};
use std::ops::Range;

const NUMBER_PADDED: u64 = 32;

const BYTES_A_LINE: usize = 16;

/// Lines of bytes that are shown before the fault, and at most of the fault itself.
const LINES_BEFORE: usize = 1;
const LINES_AT_MOST: usize = 3;

/// The bytes around a range with the range marked; a byte that is missing is marked behind the last one.
pub fn around(bytes: &[u8], marked: Range<usize>) -> String {
    let first = (marked.start / BYTES_A_LINE).saturating_sub(LINES_BEFORE);
    let last = (marked.end.max(1) - 1) / BYTES_A_LINE;
    let shown = first..=last.min(first + LINES_AT_MOST);
    let mut text: String =
        shown.map(|line| marked_line(bytes, line * BYTES_A_LINE, &marked)).collect();
    if last > first + LINES_AT_MOST {
        text += &format!("          and on, to byte {}\n", marked.end - 1);
    }
    if marked.start >= bytes.len() {
        text += &format!(
            "  the input ends after {} bytes; byte {} is missing\n",
            bytes.len(),
            marked.start
        );
    }
    text
}

/// A line of bytes, and below it the marks that fall on it.
fn marked_line(bytes: &[u8], from: usize, marked: &Range<usize>) -> String {
    let to = (from + BYTES_A_LINE).min(bytes.len()).max(from);
    let digits = hex::spaced(bytes.get(from..to).unwrap_or(&[]));
    let marks: Vec<&str> = (from..from + BYTES_A_LINE)
        .map(|place| if marked.contains(&place) { "^^" } else { "  " })
        .collect();
    let marks = marks.join(" ");
    let mut text = format!("{from:>8}  {digits}").trim_end().to_string() + "\n";
    if !marks.trim().is_empty() {
        text += format!("{:>8}  {marks}", "").trim_end();
        text.push('\n');
    }
    text
}

/// The bytes of a byte fault: of a padded number all of its own, else the first.
pub fn item_at(bytes: &[u8], place: usize, number: u64) -> Range<usize> {
    let more = match number {
        NUMBER_PADDED => bytes[place..].iter().take_while(|&&byte| byte >= 0x80).count(),
        _ => 0,
    };
    place..place + more + 1
}

/// What is wanted of an input.
#[derive(Clone, Copy, PartialEq, Eq)]
pub enum Wanted {
    Section,
    Body,
}

impl Wanted {
    fn word(self) -> &'static str {
        match self {
            Wanted::Section => "section",
            Wanted::Body => "body",
        }
    }
}

/// Of bytes that are another thing than a section or a body: what they are, and what to do.
pub fn remark(bytes: &[u8], wanted: Wanted) -> Option<String> {
    if bytes.starts_with(module::MAGIC) {
        return Some(of_module(bytes, wanted));
    }
    if hex::is_text(bytes) {
        let why = "these bytes are hex digits in text; a file of them has a name that ends in .hex";
        return Some(why.to_string());
    }
    let text = std::str::from_utf8(bytes).ok().filter(|text| text::is_meant(text));
    text.map(|_| {
        format!("this is WebAssembly text: chelbugan assemble {} makes bytes of it", wanted.word())
    })
}

/// Where in a module the part lies that is wanted.
fn of_module(bytes: &[u8], wanted: Wanted) -> String {
    let reads = match wanted {
        Wanted::Section => "the loader reads the content of its type section",
        Wanted::Body => "the loader reads one function's body",
    };
    let part = match wanted {
        Wanted::Section => module::type_section(bytes).map(|at| (at, String::new())),
        Wanted::Body => {
            module::first_body(bytes).map(|(at, count)| (at, format!(", the first of {count}")))
        }
    };
    match part {
        Some((at, which)) if !at.is_empty() => {
            format!(
                "this is a whole module; {reads}, its bytes {} to {}{which}",
                at.start,
                at.end - 1
            )
        }
        _ => format!("this is a whole module; {reads}"),
    }
}
