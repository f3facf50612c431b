//! Near misses of any bytes: one byte flipped, changed, cut, put in or taken out.

use super::random::Random;

/// Bytes that mean something somewhere.
const TELLING: [u8; 30] = [
    0x00, 0x01, 0x02, 0x0B, 0x20, 0x40, 0x41, 0x4C, 0x4D, 0x4E, 0x4F, 0x50, 0x5F, 0x60, 0x62, 0x63,
    0x64, 0x6B, 0x6E, 0x7F, 0x80, 0xD0, 0xFB, 0xFF, 0x42, 0x43, 0x44, 0x45, 0xC4, 0xC5,
];

pub fn spoil_bytes(random: &mut Random, bytes: &mut Vec<u8>) {
    if bytes.is_empty() {
        return bytes.push(random.pick(&TELLING));
    }
    let index = random.below(bytes.len());
    match random.below(9) {
        0 => bytes[index] ^= 1 << random.below(8),
        1 => bytes[index] = random.pick(&TELLING),
        2 => bytes[index] = bytes[index].wrapping_add(1),
        3 => bytes[index] = bytes[index].wrapping_sub(1),
        4 => bytes.truncate(index),
        5 => bytes.insert(index, random.pick(&TELLING)),
        6 => drop(bytes.remove(index)),
        7 => bytes.push(random.pick(&TELLING)),
        _ => bytes.swap(index, 0),
    }
}

pub fn random_bytes(random: &mut Random, most: usize) -> Vec<u8> {
    let length = random.below(most + 1);
    let telling = random.one_in(2);
    (0..length).map(|_| random_byte(random, telling)).collect()
}

fn random_byte(random: &mut Random, telling: bool) -> u8 {
    if telling {
        return random.pick(&TELLING);
    }
    random.draw() as u8
}
