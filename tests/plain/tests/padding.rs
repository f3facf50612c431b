//! When a number is padded, told from its value by the reader and here from its bytes: both
//! say the same, and each number has one writing that is not padded.

use plain::number::Reader;
use plain::refusal::{Refusal, NUMBER_PADDED, NUMBER_TOO_LONG};

/// Told from its bytes: all that the last one says is what the one before it says already.
fn padded_by_its_bytes(bytes: &[u8], signed: bool) -> bool {
    let [.., before, last] = bytes else {
        return false;
    };
    match (signed, last) {
        (false, 0x00) => true,
        (true, 0x00) => before & 0x40 == 0,
        (true, 0x7F) => before & 0x40 != 0,
        _ => false,
    }
}

/// What a writing says, whether it is padded or not.
fn said(bytes: &[u8], signed: bool) -> i128 {
    let sevens = bytes.iter().rev().fold(0i128, |said, byte| said << 7 | i128::from(byte & 0x7F));
    match bytes.last() {
        Some(last) if signed && last & 0x40 != 0 => sevens - (1 << (7 * bytes.len())),
        _ => sevens,
    }
}

type Read = fn(&mut Reader) -> Result<i128, Refusal>;

/// Each kind of number by its greatest length.
const KINDS: [(Read, bool, u32); 4] = [
    (|reader| reader.u32().map(i128::from), false, 32),
    (|reader| reader.s32().map(i128::from), true, 32),
    (|reader| reader.s33().map(i128::from), true, 33),
    (|reader| reader.s64().map(i128::from), true, 64),
];

/// 2, then 32, then what the bytes say.
fn agree(bytes: &[u8]) {
    for (read, signed, width) in KINDS {
        let number = said(bytes, signed);
        let range = match signed {
            false => 0..1i128 << width,
            true => -(1i128 << (width - 1))..1i128 << (width - 1),
        };
        let too_long = bytes.len() > width.div_ceil(7) as usize || !range.contains(&number);
        let expected = match (too_long, padded_by_its_bytes(bytes, signed)) {
            (true, _) => Err(NUMBER_TOO_LONG),
            (false, true) => Err(NUMBER_PADDED),
            (false, false) => Ok(number),
        };
        let found = read(&mut Reader::new(bytes)).map_err(|refusal| refusal.number);
        assert_eq!(found, expected, "{bytes:02x?} {width}");
    }
}

/// All writings of one byte and of two, and of more those that end in any two after bytes of
/// a few kinds.
#[test]
fn both_ways_of_telling_it_agree() {
    for last in 0x00..0x80 {
        agree(&[last]);
        for before in 0x80..=0xFF {
            agree(&[before, last]);
            for first in [0x80, 0xBF, 0xC0, 0xFF] {
                (1..=9).for_each(|more| agree(&[&vec![first; more][..], &[before, last]].concat()));
            }
        }
    }
}

/// Every number of two bytes at most has one writing that is not padded, and it is the
/// shortest of its writings of three bytes at most.
#[test]
fn one_writing_of_each_number() {
    for signed in [false, true] {
        let mut shortest = std::collections::BTreeMap::new();
        let ones = (0x00..0x80).map(|last| vec![last]);
        let twos = (0x80..=0xFF).flat_map(|first| (0x00..0x80).map(move |last| vec![first, last]));
        for bytes in ones.chain(twos) {
            let known = shortest.entry(said(&bytes, signed)).or_insert_with(|| bytes.clone());
            assert_eq!(*known != bytes, padded_by_its_bytes(&bytes, signed), "{bytes:02x?}");
        }
        assert_eq!(shortest.len(), 128 * 128);
        for first in 0x80..=0xFF {
            for last_two in [0x80, 0xBF, 0xC0, 0xFF].map(last_bytes).concat() {
                let bytes = [&[first], &last_two[..]].concat();
                let shorter = shortest.contains_key(&said(&bytes, signed));
                assert_eq!(shorter, padded_by_its_bytes(&bytes, signed), "{bytes:02x?}");
            }
        }
    }
}

fn last_bytes(before: u8) -> Vec<[u8; 2]> {
    [0x00, 0x01, 0x3F, 0x40, 0x7E, 0x7F].map(|last| [before, last]).to_vec()
}
