//! Requests on both sides of each size, and runs that use up the room.

use super::random::Random;
use crate::lines::hex;
use crate::sizes;

pub fn leb(number: usize) -> Vec<u8> {
    let mut bytes = Vec::new();
    let mut rest = number;
    while rest >= 0x80 {
        bytes.push((rest & 0x7F) as u8 | 0x80);
        rest >>= 7;
    }
    bytes.push(rest as u8);
    bytes
}

/// Pieces of bytes one after the other.
pub fn bytes(pieces: &[&[u8]]) -> Vec<u8> {
    pieces.concat()
}

/// At the size or one beyond it.
pub fn near(random: &mut Random, size: usize) -> usize {
    size + random.below(2)
}

const V: [u8; 4] = [0x01, 0x60, 0x00, 0x00];

pub fn small_size_request(random: &mut Random) -> String {
    match random.below(5) {
        0 => many_fields(random),
        1 => many_parameters_or_results(random),
        2 | 3 => many_locals(random),
        _ => many_frames(random),
    }
}

pub fn size_request(random: &mut Random) -> String {
    match random.below(24) {
        0..=2 => many_fields(random),
        3..=5 => many_parameters_or_results(random),
        6 | 7 => many_locals(random),
        8..=10 => many_frames(random),
        11..=13 => many_types(random),
        14..=16 => long_chain(random),
        17..=19 => many_operands(random),
        20 => long_section(random),
        21 => long_body(random),
        _ => small_size_request(random),
    }
}

fn many_fields(random: &mut Random) -> String {
    let count = near(random, sizes::ENTRIES);
    let section = bytes(&[&[0x01, 0x5F], &leb(count), &[0x7F, 0x00].repeat(count)]);
    format!("S {}", hex(&section))
}

fn many_parameters_or_results(random: &mut Random) -> String {
    let count = near(random, sizes::ENTRIES);
    let list = bytes(&[&leb(count), &[0x7C].repeat(count)]);
    let section = if random.one_in(2) {
        bytes(&[&[0x01, 0x60], &list, &[0x00]])
    } else {
        bytes(&[&[0x01, 0x60, 0x00], &list])
    };
    format!("S {}", hex(&section))
}

/// In one entry or in two, with a parameter or without.
fn many_locals(random: &mut Random) -> String {
    let parameters = random.below(3);
    let section = bytes(&[&[0x01, 0x60, parameters as u8], &[0x7F].repeat(parameters), &[0x00]]);
    let first = random.pick(&[0, 1, 100]);
    let wanted = near(random, sizes::LOCALS as usize) - parameters - first;
    let rest = random.pick(&[wanted, wanted, wanted, u32::MAX as usize]);
    let body = bytes(&[&[0x02], &leb(first), &[0x7F], &leb(rest), &[0x6D, 0x0B]]);
    format!("B {} 0 {}", hex(&section), hex(&body))
}

fn many_frames(random: &mut Random) -> String {
    let count = near(random, sizes::FRAMES) - 1;
    let kind = random.pick(&[0x02, 0x03]);
    let body = bytes(&[&[0x00], &[kind, 0x40].repeat(count), &[0x0B].repeat(count + 1)]);
    format!("B {} 0 {}", hex(&V), hex(&body))
}

/// Alone, in one group, or with an empty group after the last.
fn many_types(random: &mut Random) -> String {
    let count = near(random, sizes::TYPES);
    let types = [0x5F, 0x00].repeat(count);
    let section = match random.below(4) {
        0 => bytes(&[&[0x01, 0x4E], &leb(count), &types]),
        1 => bytes(&[&leb(count + 1), &types, &[0x4E, 0x00]]),
        2 => bytes(&[&leb(count + 1), &types, &[0x4E, 0x01]]),
        _ => bytes(&[&leb(count), &types]),
    };
    format!("S {}", hex(&section))
}

/// A type, then its subtypes one below the other.
fn long_chain(random: &mut Random) -> String {
    let steps = near(random, sizes::CHAIN_STEPS);
    let mut section = bytes(&[&leb(steps + 1), &[0x50, 0x00, 0x5F, 0x00]]);
    for step in 0..steps {
        section.extend(bytes(&[&[0x50, 0x01], &leb(step), &[0x5F, 0x00]]));
    }
    format!("S {}", hex(&section))
}

/// By constants alone, or by the value that a block's `end` leaves.
fn many_operands(random: &mut Random) -> String {
    let count = near(random, sizes::OPERANDS);
    let section = [0x01, 0x60, 0x00, 0x01, 0x7F];
    let constants = [0x41, 0x00].repeat(count - 1);
    let last: &[u8] = match random.below(3) {
        0 => &[0x41, 0x01],
        1 => &[0x02, 0x7F, 0x00, 0x0B],
        _ => &[0xD0, 0x6E, 0xD1],
    };
    let body = bytes(&[&[0x00], &constants, last, &[0x0F, 0x0B]]);
    format!("B {} 0 {}", hex(&section), hex(&body))
}

/// Empty groups to the last byte.
fn long_section(random: &mut Random) -> String {
    let length = near(random, sizes::INPUT_BYTES);
    // Their count takes two bytes.
    let groups = (length - 2) / 2;
    let mut section = bytes(&[&leb(groups), &[0x4E, 0x00].repeat(groups)]);
    section.resize(length, 0x00);
    format!("S {}", hex(&section))
}

fn long_body(random: &mut Random) -> String {
    let length = near(random, sizes::INPUT_BYTES);
    let body = bytes(&[&[0x00], &[0x01].repeat(length - 2), &[0x0B]]);
    format!("B {} 0 {}", hex(&V), hex(&body))
}

/// A loop that allocates until there is no room: of fields or of objects.
pub fn room_request(random: &mut Random, small: bool) -> String {
    let fields = random.pick(if small { &[64, 60, 33] } else { &[64, 40, 17, 5, 4, 0] });
    let value = random.pick(&[0x7F, 0x7E, 0x6B]);
    let section =
        bytes(&[&[0x02, 0x5F, fields as u8], &[value, 0x01].repeat(fields), &[0x60, 0x00, 0x00]]);
    let body = [0x00, 0x03, 0x40, 0xFB, 0x01, 0x00, 0x1A, 0x0C, 0x00, 0x0B, 0x0B];
    let objects =
        sizes::CELLS.checked_div(fields).map_or(sizes::OBJECTS, |o| o.min(sizes::OBJECTS));
    // One step for the loop and three for each object: around the last of them.
    let last = 1 + 3 * objects;
    let budget = random.pick(&[last, last + 1, last + 2, last + 3, sizes::BUDGET as usize]);
    format!("R {} 1 {} {budget}", hex(&section), hex(&body))
}
