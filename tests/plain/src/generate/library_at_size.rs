//! Libraries and add-ons on both sides of each size that counts over both, or for each.

use super::at_size::{bytes, leb, near};
use super::random::Random;
use crate::lines::{Asked, Request};
use crate::section::EMPTY_LIBRARY;
use crate::sizes;

pub fn size_request(random: &mut Random) -> Request {
    let (library, section) = match random.below(12) {
        0..=2 => many_types(random),
        3..=5 => after_full_library(random),
        6 => (structs(sizes::TYPES + 1), vec![0x01, 0x7B]),
        7..=9 => long_chain(random),
        10 => long_inputs(random),
        _ => late_fault(random),
    };
    let asked = match random.one_in(6) {
        true => Asked::TypeBytes(random.pick(&[0, 62, 63, 64, 999, 1_000, 1_023, 1_024])),
        false => Asked::Section,
    };
    Request { library: Some(library), section, asked }
}

/// Structs alone.
fn structs(count: usize) -> Vec<u8> {
    bytes(&[&leb(count), &[0x5F, 0x00].repeat(count)])
}

/// As many as there can be, or one more: a few or nearly all in the library, the others
/// alone, in one group, or with an empty group or one that is too many after them.
fn many_types(random: &mut Random) -> (Vec<u8>, Vec<u8>) {
    let shared = random.pick(&[1, 256, 512, 1_000, 1_000, 1_023]);
    let own = near(random, sizes::TYPES) - shared;
    let types = [0x5F, 0x00].repeat(own);
    let section = match random.below(5) {
        0 => bytes(&[&[0x01, 0x4E], &leb(own), &types]),
        1 => bytes(&[&leb(own + 1), &types, &[0x4E, 0x00]]),
        2 => bytes(&[&leb(own + 1), &types, &[0x4E, 0x01]]),
        3 => bytes(&[&leb(own), &types[2..], &last_naming(random, shared + own)]),
        _ => structs(own),
    };
    (structs(shared), section)
}

/// A struct that names the last type of all, which is itself, or the one after it.
fn last_naming(random: &mut Random, count: usize) -> Vec<u8> {
    let named = near(random, count - 1);
    // Numbers of two bytes whose second is small: as a heap type they are the same bytes.
    bytes(&[&[0x5F, 0x01, 0x63], &leb(named), &[0x00]])
}

/// What may stand where no type more may: nothing, a byte, an empty group, one that is not.
fn after_full_library(random: &mut Random) -> (Vec<u8>, Vec<u8>) {
    let sections: [&[u8]; 10] = [
        &[0x00],
        &[0x01],
        &[0x01, 0x00],
        &[0x01, 0x4E],
        &[0x01, 0x4E, 0x00],
        &[0x01, 0x4E, 0x01],
        &[0x01, 0x5F, 0x00],
        &[0x01, 0x7B],
        &[0x02, 0x4E, 0x00, 0x4E, 0x00],
        &[0x02, 0x4E, 0x00, 0x00],
    ];
    (structs(sizes::TYPES), random.pick(&sections).to_vec())
}

/// A type and its subtypes one below the other, some of them in the add-on.
fn long_chain(random: &mut Random) -> (Vec<u8>, Vec<u8>) {
    let steps = near(random, sizes::CHAIN_STEPS);
    let shared = random.pick(&[1, 2, 32, 63, 64]).min(steps);
    let link = |number: usize| match number.checked_sub(1) {
        None => vec![0x50, 0x00, 0x5F, 0x00],
        Some(above) => bytes(&[&[0x50, 0x01], &leb(above), &[0x5F, 0x00]]),
    };
    let links = |numbers: std::ops::Range<usize>| {
        bytes(&[&leb(numbers.len()), &numbers.map(link).collect::<Vec<_>>().concat()])
    };
    (links(0..shared), links(shared..steps + 1))
}

/// Each of at most its own size, or one byte more.
fn long_inputs(random: &mut Random) -> (Vec<u8>, Vec<u8>) {
    let library = if random.one_in(3) { EMPTY_LIBRARY.to_vec() } else { long_input(random) };
    let section = if random.one_in(3) { EMPTY_LIBRARY.to_vec() } else { long_input(random) };
    (library, section)
}

/// Empty groups to the last byte.
fn long_input(random: &mut Random) -> Vec<u8> {
    let length = near(random, sizes::INPUT_BYTES);
    // Their count takes two bytes; an odd length has one byte left over.
    let groups = (length - 2) / 2;
    let mut input = bytes(&[&leb(groups), &[0x4E, 0x00].repeat(groups)]);
    input.resize(length, 0x00);
    input
}

/// A library against a rule or cut short comes before an add-on that is too long.
fn late_fault(random: &mut Random) -> (Vec<u8>, Vec<u8>) {
    let libraries: [&[u8]; 4] =
        [&[0x01, 0x4C, 0x00, 0x60, 0x00, 0x00], &[0x01], &[0x01, 0x7B], &[0x00]];
    (random.pick(&libraries).to_vec(), vec![0x00; sizes::INPUT_BYTES + 1])
}
