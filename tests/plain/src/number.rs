//! Items: one code byte, one LEB128 number or the bytes of one float, read from lent
//! bytes.
//!
//! A reader goes forward over the bytes; each item answers its value, or a
//! refusal whose place is the item's first byte.

use crate::refusal::{refuse, Refusal, BYTES_END, BYTES_LEFT_OVER, NUMBER_PADDED, NUMBER_TOO_LONG};
use std::ops::Range;

pub struct Reader<'a> {
    bytes: &'a [u8],
    place: usize,
}

/// The raw bits of a LEB number and in how many bytes they were written.
struct Written {
    bits: u128,
    bytes: u32,
}

/// Seven bits of a number stand in each byte.
const BYTE_BITS: u32 = 7;

#[derive(Clone, Copy)]
enum Sign {
    Unsigned,
    Signed,
}

impl Sign {
    /// The numbers that so many bits hold; there is at least one bit.
    fn held_by(self, bits: u32) -> Range<i128> {
        match self {
            Sign::Unsigned => 0..1 << bits,
            Sign::Signed => -(1 << (bits - 1))..1 << (bits - 1),
        }
    }

    fn number(self, written: &Written) -> i128 {
        let unused = 128 - BYTE_BITS * written.bytes;
        match self {
            Sign::Unsigned => written.bits as i128,
            Sign::Signed => ((written.bits << unused) as i128) >> unused,
        }
    }
}

impl<'a> Reader<'a> {
    pub fn new(bytes: &'a [u8]) -> Reader<'a> {
        Reader { bytes, place: 0 }
    }

    pub fn place(&self) -> usize {
        self.place
    }

    pub fn peek(&self) -> Option<u8> {
        self.bytes.get(self.place).copied()
    }

    pub fn byte(&mut self) -> Result<u8, Refusal> {
        match self.peek() {
            None => refuse(BYTES_END, self.place),
            Some(byte) => {
                self.place += 1;
                Ok(byte)
            }
        }
    }

    /// Takes the next byte only when it is the one named.
    pub fn takes(&mut self, byte: u8) -> bool {
        let found = self.peek() == Some(byte);
        if found {
            self.place += 1;
        }
        found
    }

    pub fn u32(&mut self) -> Result<u32, Refusal> {
        self.number(32, Sign::Unsigned).map(|number| number as u32)
    }

    pub fn s32(&mut self) -> Result<i32, Refusal> {
        self.number(32, Sign::Signed).map(|number| number as i32)
    }

    pub fn s33(&mut self) -> Result<i64, Refusal> {
        self.number(33, Sign::Signed).map(|number| number as i64)
    }

    pub fn s64(&mut self) -> Result<i64, Refusal> {
        self.number(64, Sign::Signed).map(|number| number as i64)
    }

    /// So many bytes that are one item.
    pub fn bytes<const COUNT: usize>(&mut self) -> Result<[u8; COUNT], Refusal> {
        match self.bytes[self.place..].first_chunk() {
            None => refuse(BYTES_END, self.place),
            Some(&bytes) => {
                self.place += COUNT;
                Ok(bytes)
            }
        }
    }

    pub fn finish(&self) -> Result<(), Refusal> {
        if self.place < self.bytes.len() {
            return refuse(BYTES_LEFT_OVER, self.place);
        }
        Ok(())
    }

    /// 1 and 2, then 32: one byte fewer would hold the number.
    fn number(&mut self, width: u32, sign: Sign) -> Result<i128, Refusal> {
        let first = self.place;
        let written = self.written(width, first)?;
        let number = sign.number(&written);
        if !sign.held_by(width).contains(&number) {
            return refuse(NUMBER_TOO_LONG, first);
        }
        let fewer = written.bytes - 1;
        if fewer > 0 && sign.held_by(BYTE_BITS * fewer).contains(&number) {
            return refuse(NUMBER_PADDED, first);
        }
        Ok(number)
    }

    /// Seven bits a byte, lowest first, up to the greatest length of the width.
    fn written(&mut self, width: u32, first: usize) -> Result<Written, Refusal> {
        let greatest_length = width.div_ceil(BYTE_BITS);
        let mut bits = 0u128;
        for index in 0..greatest_length {
            let Some(byte) = self.peek() else {
                return refuse(BYTES_END, first);
            };
            self.place += 1;
            bits |= u128::from(byte & 0x7F) << (BYTE_BITS * index);
            if byte & 0x80 == 0 {
                return Ok(Written { bits, bytes: index + 1 });
            }
        }
        // The last byte that could be its end asks for one more.
        refuse(NUMBER_TOO_LONG, first)
    }
}
