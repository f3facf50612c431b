//! The inputs: sections and bodies of 1, 5, 20 and 32 KB, ordinary ones and hostile ones; some with a library before the
//! section; some of 32 KB that differ in how their LEB numbers are written; and runs of up to 1,000,000 steps.

pub mod bodies;
pub mod libraries;
pub mod numbers;
pub mod runs;
pub mod sections;

use chelbugan::EMPTY_LIBRARY;
use plain::refusal::Refusal;
use std::fmt;

/// What is timed.
pub struct Input {
    pub kind: &'static str,
    pub size: Size,
    /// None where the section has none before it.
    pub library: Option<Vec<u8>>,
    pub section: Vec<u8>,
    /// A function type's number, and a body of it; none where the section is judged alone.
    pub body: Option<(u32, Vec<u8>)>,
    /// For a run alone.
    pub budget: Option<u64>,
    /// The answer that document 01 gives: the count of types or of instructions, the steps, or the refusal.
    pub answer: Result<usize, Refusal>,
    /// Of the section or the body; counted where the input is about them.
    pub numbers: Option<Numbers>,
}

/// LEB numbers, and those of them that have one byte.
#[derive(Clone, Copy, Default)]
pub struct Numbers {
    pub all: usize,
    pub of_one_byte: usize,
}

/// What a table calls an input's size.
#[derive(Clone, Copy)]
pub enum Size {
    Kilobytes(usize),
    Bytes(usize),
    Steps(usize),
}

impl Input {
    pub fn what(&self) -> &'static str {
        match (&self.body, self.budget) {
            (None, _) => "section",
            (Some(_), None) => "body",
            (Some(_), Some(_)) => "run",
        }
    }

    pub fn library(&self) -> &[u8] {
        self.library.as_deref().unwrap_or(EMPTY_LIBRARY)
    }

    /// The bytes or steps that a time is divided by.
    pub fn amount(&self) -> usize {
        match (self.size, &self.body) {
            (Size::Steps(steps), _) => steps,
            (_, None) => self.library.as_ref().map_or(0, Vec::len) + self.section.len(),
            (_, Some((_, body))) => body.len(),
        }
    }
}

/// As `section, ordinary, 32 KB`.
impl fmt::Display for Input {
    fn fmt(&self, to: &mut fmt::Formatter) -> fmt::Result {
        write!(to, "{}, {}, {}", self.what(), self.kind, self.size)
    }
}

impl fmt::Display for Size {
    fn fmt(&self, to: &mut fmt::Formatter) -> fmt::Result {
        match self {
            Size::Kilobytes(count) => write!(to, "{count} KB"),
            Size::Bytes(count) => write!(to, "{count} bytes"),
            Size::Steps(count) => write!(to, "{} steps", grouped(*count)),
        }
    }
}

/// With a comma before each three digits.
fn grouped(number: usize) -> String {
    match number {
        0..=999 => number.to_string(),
        _ => format!("{},{:03}", grouped(number / 1000), number % 1000),
    }
}

pub const KILOBYTES: [usize; 4] = [1, 5, 20, 32];

/// The greatest size of a section or a body, and 32 of the table's kilobytes.
const MOST_BYTES: usize = 32_768;

pub fn of_sections() -> Vec<Input> {
    of_kinds(&sections::KINDS, sections::input)
}

pub fn of_libraries() -> Vec<Input> {
    libraries::inputs()
}

pub fn of_bodies() -> Vec<Input> {
    of_kinds(&bodies::KINDS, bodies::input)
}

pub fn of_numbers() -> Vec<Input> {
    numbers::inputs()
}

pub fn of_runs() -> Vec<Input> {
    let kinds = runs::KINDS.iter();
    kinds.flat_map(|kind| runs::steps(kind).map(|steps| runs::input(kind, steps))).collect()
}

fn of_kinds(kinds: &[&'static str], input: fn(&'static str, usize) -> Input) -> Vec<Input> {
    kinds.iter().flat_map(|kind| KILOBYTES.map(|kilobytes| input(kind, kilobytes))).collect()
}

/// Bytes, and their answer.
type Judged = (Vec<u8>, Result<usize, Refusal>);

/// Made for so much room, and filling most of it.
fn of_size(kind: &str, kilobytes: usize, make: impl Fn(usize) -> Judged) -> Judged {
    let room = kilobytes * MOST_BYTES / 32;
    let (bytes, answer) = make(room);
    assert_filled(kind, bytes.len(), room);
    (bytes, answer)
}

fn assert_filled(kind: &str, length: usize, room: usize) {
    assert!(length <= room && length > room * 3 / 4, "{kind}: {length} of {room}");
}

fn leb(number: usize) -> Vec<u8> {
    let low = (number % 0x80) as u8;
    match number / 0x80 {
        0 => vec![low],
        rest => [vec![low | 0x80], leb(rest)].concat(),
    }
}

/// A type's number where a heap type stands: a number with a sign.
fn heap(number: usize) -> Vec<u8> {
    match number < 0x40 {
        true => vec![number as u8],
        false => [vec![(number % 0x80) as u8 | 0x80], heap(number / 0x80)].concat(),
    }
}
