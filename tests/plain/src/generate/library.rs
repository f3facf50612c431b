//! A library before the section of a request: mostly the section's own first groups, so
//! that its numbers stay and now reach across; else another section, or faults in either.

use super::at_size::leb;
use super::random::Random;
use super::section_bytes;
use super::spoil_bytes::{random_bytes, spoil_bytes};
use crate::lines::Request;
use crate::number::Reader;
use crate::refusal::Input;
use crate::section::EMPTY_LIBRARY;
use crate::section_reader::read_group;

/// A library's bytes, then those of an add-on's section.
pub type Sections = (Vec<u8>, Vec<u8>);

pub fn with_library(random: &mut Random, request: Request, small: bool) -> Request {
    let has_body = request.body().is_some();
    let (library, section) = match random.below(16) {
        0..=8 => cut(random, &request.section),
        9 => (EMPTY_LIBRARY.to_vec(), request.section),
        // A body is for types that are accepted, but for a few.
        _ if has_body && !random.one_in(16) => cut(random, &request.section),
        10..=12 => spoilt(random, &request.section),
        13 => (section_bytes(random, small), request.section),
        14 => (request.section.clone(), request.section),
        _ => (random_bytes(random, 8), request.section),
    };
    Request { library: Some(library), section, asked: request.asked }
}

/// A section by its groups.
struct Groups<'a> {
    section: &'a [u8],
    /// As many as it says.
    count: usize,
    /// Where each begins that can be read, and the end of the last.
    starts: Vec<usize>,
}

impl Groups<'_> {
    /// None where not even their count can be read.
    fn of(section: &[u8]) -> Option<Groups<'_>> {
        let mut reader = Reader::new(section);
        let count = reader.u32().ok()? as usize;
        let mut starts = vec![reader.place()];
        let mut types = Vec::new();
        for _ in 0..count {
            if read_group(&mut reader, Input::Addon, &mut types).is_err() {
                break;
            }
            starts.push(reader.place());
        }
        Some(Groups { section, count, starts })
    }

    fn read(&self) -> usize {
        self.starts.len() - 1
    }

    fn all_read(&self) -> bool {
        self.read() == self.count && self.starts[self.count] == self.section.len()
    }

    /// A section of so many groups, the first of all.
    fn first(&self, count: usize) -> Vec<u8> {
        [&leb(count)[..], &self.section[self.starts[0]..self.starts[count]]].concat()
    }

    /// A section of the others, with what cannot be read.
    fn after(&self, count: usize) -> Vec<u8> {
        [&leb(self.count - count)[..], &self.section[self.starts[count]..]].concat()
    }

    fn cut_after(&self, count: usize) -> Sections {
        (self.first(count), self.after(count))
    }
}

/// The first groups are the library's and the others the add-on's, each with their count.
/// A group that cannot be read is the add-on's, or all of the section is the library.
fn cut(random: &mut Random, section: &[u8]) -> Sections {
    let Some(groups) = Groups::of(section) else {
        return one_of_two(random, section);
    };
    let read = groups.read();
    if !groups.all_read() && random.one_in(2) {
        return (section.to_vec(), groups.first(read));
    }
    // Mostly with a group on either side.
    if read >= 2 && !random.one_in(8) {
        return groups.cut_after(random.between(1, read - 1));
    }
    groups.cut_after(random.between(0, read))
}

fn one_of_two(random: &mut Random, section: &[u8]) -> Sections {
    let (section, empty) = (section.to_vec(), EMPTY_LIBRARY.to_vec());
    match random.one_in(2) {
        true => (empty, section),
        false => (section, empty),
    }
}

/// Every way to cut a section between its groups, before the first and after the last of
/// those that can be read.
pub fn all_cuts(section: &[u8]) -> Vec<Sections> {
    let Some(groups) = Groups::of(section) else {
        return Vec::new();
    };
    (0..=groups.read()).map(|count| groups.cut_after(count)).collect()
}

/// Cut, and then with a byte wrong in the library, in the add-on's section or in both, or
/// with the two in each other's place.
fn spoilt(random: &mut Random, section: &[u8]) -> Sections {
    let (mut library, mut section) = cut(random, section);
    match random.below(7) {
        0 => return (section, library),
        1 | 2 => spoil_bytes(random, &mut library),
        3 | 4 => spoil_bytes(random, &mut section),
        _ => {
            spoil_bytes(random, &mut library);
            spoil_bytes(random, &mut section);
        }
    }
    (library, section)
}
