//! Sections: ordinary, refused at their end, and as slow as a section can be.

use super::{heap, leb, of_size, Input, Judged, Size};
use plain::refusal::{self, Refusal};

pub const KINDS: [&str; 3] = ["ordinary", "refused late", "hostile"];

pub fn input(kind: &'static str, kilobytes: usize) -> Input {
    let (section, answer) = of_size(kind, kilobytes, |room| match kind {
        "ordinary" => ordinary(room),
        "refused late" => refused_late(room),
        _ => hostile(room),
    });
    let size = Size::Kilobytes(kilobytes);
    Input { kind, size, library: None, section, body: None, budget: None, answer, numbers: None }
}

/// As many types as a section could have before version 2.0.0: the inputs stay those of before.
const TYPES: usize = 256;

/// Types of a kind that follow one another, as many as fit.
pub struct Section {
    groups: usize,
    pub types: usize,
    bytes: Vec<u8>,
}

impl Section {
    pub fn new() -> Section {
        Section { groups: 0, types: 0, bytes: Vec::new() }
    }

    pub fn push(&mut self, types: usize, group: Vec<u8>) {
        self.groups += 1;
        self.types += types;
        self.bytes.extend(group);
    }

    /// The count of groups takes two bytes at most.
    pub fn has_room(&self, types: usize, bytes: usize, room: usize) -> bool {
        self.types + types <= TYPES && self.bytes.len() + bytes + 2 <= room
    }

    pub fn finish(self) -> (Vec<u8>, usize) {
        ([leb(self.groups), self.bytes].concat(), self.types)
    }
}

/// Families as the paper's incident has them: a short and a long kind, a descriptor for each, a function over them. Larger
/// sections have more fields, so that [`TYPES`] are enough.
pub fn ordinary(room: usize) -> Judged {
    let (fields, entries) = widths(room);
    let mut section = Section::new();
    loop {
        let first = section.types;
        let (family, function) = (family(first, fields), function(first, entries));
        if !section.has_room(FAMILY, family.len() + function.len(), room) {
            let (bytes, types) = section.finish();
            return (bytes, Ok(types));
        }
        section.push(4, family);
        section.push(1, function);
    }
}

/// The fields of a short kind, and the parameters and the results of a function.
pub fn widths(room: usize) -> (usize, usize) {
    match room / 1024 {
        0..=1 => (6, 3),
        2..=5 => (10, 3),
        6..=20 => (44, 12),
        _ => (60, 60),
    }
}

/// Types of a family and of the function over it.
pub const FAMILY: usize = 5;

/// Short, its descriptor, long, its descriptor.
fn family(first: usize, fields: usize) -> Vec<u8> {
    let number = |more: usize| leb(first + more);
    let short = list(fields, |index| field(first, index));
    let long = list(fields + 2, |index| field(first, index));
    [
        [vec![0x4E, 0x04, 0x50, 0x00, 0x4D], number(1), vec![0x5F], short].concat(),
        [vec![0x50, 0x00, 0x4C], number(0), vec![0x5F, 0x00]].concat(),
        [vec![0x50, 0x01], number(0), vec![0x4D], number(3), vec![0x5F], long].concat(),
        [vec![0x4F, 0x01], number(1), vec![0x4C], number(2), vec![0x5F, 0x00]].concat(),
    ]
    .concat()
}

pub fn list(count: usize, entry: impl Fn(usize) -> Vec<u8>) -> Vec<u8> {
    [leb(count), (0..count).flat_map(entry).collect()].concat()
}

/// Numbers and references in turn; some may be written.
pub fn field(first: usize, index: usize) -> Vec<u8> {
    let mutable = index.is_multiple_of(3) as u8;
    [value(first, index), vec![mutable]].concat()
}

fn value(first: usize, index: usize) -> Vec<u8> {
    match index % 4 {
        0 => vec![0x7F],
        1 => [vec![0x63], heap(first)].concat(),
        2 => vec![0x6D],
        _ => [vec![0x64, 0x62], leb(first + 1)].concat(),
    }
}

pub fn function(first: usize, entries: usize) -> Vec<u8> {
    let values = list(entries, |index| value(first, index));
    [vec![0x60], values.clone(), values].concat()
}

/// The same, and one byte left over.
fn refused_late(room: usize) -> Judged {
    let (mut section, _) = ordinary(room - 1);
    section.push(0x00);
    let place = section.len() - 1;
    (section, Err(Refusal { number: 5, place, input: Some(refusal::Input::Addon) }))
}

/// The steps of the longest chain.
pub const CHAIN: usize = 63;

/// A chain of 63 steps, then functions whose parameters and results each walk all of it (docs/ARCHITECTURE.md).
pub fn hostile(room: usize) -> Judged {
    let mut section = Section::new();
    section.push(1, vec![0x50, 0x00, 0x5F, 0x00]);
    for supertype in 0..CHAIN {
        section.push(1, [vec![0x50, 0x01], leb(supertype), vec![0x5F, 0x00]].concat());
    }
    assert_eq!(section.types, ABOVE);
    section.push(1, [vec![0x50, 0x00], walker(BOTTOM, TOP)].concat());
    let (bytes, types) = walking(section, room).finish();
    (bytes, Ok(types))
}

/// The first and the last of the chain.
const TOP: usize = 0;
const BOTTOM: usize = CHAIN;
/// The function that all others are below.
const ABOVE: usize = CHAIN + 1;

/// As many functions as fit, each with every parameter and result as far from that above as the chain is long.
pub fn walking(mut section: Section, room: usize) -> Section {
    let below = [vec![0x4F, 0x01], leb(ABOVE), walker(TOP, BOTTOM)].concat();
    while section.has_room(1, below.len(), room) {
        section.push(1, below.clone());
    }
    section
}

/// As many parameters and results as there may be, all of one type each.
fn walker(parameter: usize, result: usize) -> Vec<u8> {
    let values = |number| list(64, |_| [vec![0x64], heap(number)].concat());
    [vec![0x60], values(parameter), values(result)].concat()
}
