//! A library and a section after it: an ordinary pair, the slowest, and small ones, in which the call itself shows.

use super::sections::{self, field, function, list, walking, widths, Section, FAMILY};
use super::{assert_filled, leb, Input, Size, MOST_BYTES};

pub fn inputs() -> Vec<Input> {
    vec![ordinary(1), ordinary(16), ordinary(32), hostile(), small(), small_body()]
}

/// So many kilobytes each.
fn ordinary(kilobytes: usize) -> Input {
    let room = kilobytes * MOST_BYTES / 32;
    let (library, types) = sections::ordinary(room);
    let types = types.expect("it is accepted");
    let (section, own) = below_families(types, room);
    assert_filled("ordinary pair", library.len(), room);
    assert_filled("ordinary pair", section.len(), room);
    pair("ordinary pair", Size::Kilobytes(2 * kilobytes), library, section, types + own)
}

/// A kind below the short one of each of the library's families in turn, its descriptor, and a function over both.
fn below_families(before: usize, room: usize) -> (Vec<u8>, usize) {
    let (fields, entries) = widths(room);
    let mut section = Section::new();
    loop {
        let first = before + section.types;
        let family = section.types / 3 * FAMILY % before;
        let (kind, function) = (below_family(family, first, fields), function(first, entries));
        if !section.has_room(3, kind.len() + function.len(), room) {
            return section.finish();
        }
        section.push(2, kind);
        section.push(1, function);
    }
}

/// With the short kind's fields and two more.
fn below_family(family: usize, first: usize, fields: usize) -> Vec<u8> {
    let long = list(fields + 2, |index| field(family, index));
    let (kind, descriptor) = (leb(first), leb(first + 1));
    [
        [vec![0x4E, 0x02, 0x4F, 0x01], leb(family), vec![0x4D], descriptor, vec![0x5F], long]
            .concat(),
        [vec![0x4F, 0x01], leb(family + 1), vec![0x4C], kind, vec![0x5F, 0x00]].concat(),
    ]
    .concat()
}

/// The longest of both.
fn hostile() -> Input {
    let (library, types) = sections::hostile(MOST_BYTES);
    let types = types.expect("it is accepted");
    let (section, own) = walking(Section::new(), MOST_BYTES).finish();
    assert_filled("hostile pair", section.len(), MOST_BYTES);
    pair("hostile pair", Size::Kilobytes(64), library, section, types + own)
}

/// One family as the library; a struct of one field and a function after it.
fn small_pair() -> (Vec<u8>, Vec<u8>) {
    let (library, _) = sections::ordinary(100);
    (library, vec![0x02, 0x5F, 0x01, 0x7F, 0x01, 0x60, 0x00, 0x00])
}

fn small() -> Input {
    let (library, section) = small_pair();
    let size = Size::Bytes(library.len() + section.len());
    pair("small", size, library, section, FAMILY + 2)
}

/// struct.new_default 5; drop; end
fn small_body() -> Input {
    let (library, section) = small_pair();
    let body = vec![0x00, 0xFB, 0x01, 0x05, 0x1A, 0x0B];
    let size = Size::Bytes(body.len());
    Input {
        body: Some((6, body)),
        answer: Ok(3),
        ..pair("small, with a library", size, library, section, 0)
    }
}

fn pair(kind: &'static str, size: Size, library: Vec<u8>, section: Vec<u8>, types: usize) -> Input {
    let (library, answer) = (Some(library), Ok(types));
    Input { kind, size, library, section, body: None, budget: None, answer, numbers: None }
}
