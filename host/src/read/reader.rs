//! Bytes, LEB128 numbers and floats, one after the other.

use crate::hex;
use std::ops::Range;

/// Where reading breaks off, and why.
#[derive(Clone, Debug)]
pub struct Fault {
    /// Of the refusal.
    pub number: u64,
    pub place: usize,
    pub why: String,
}

impl Fault {
    pub fn new(number: u64, place: usize, why: impl Into<String>) -> Fault {
        Fault { number, place, why: why.into() }
    }
}

pub const BYTES_END: u64 = 1;
pub const NUMBER_TOO_LONG: u64 = 2;
pub const NOT_LISTED: u64 = 3;
pub const SIZE_EXCEEDED: u64 = 4;
pub const BYTES_LEFT_OVER: u64 = 5;
pub const NUMBER_PADDED: u64 = 32;

/// What a number is that stands in more bytes than it needs.
#[derive(Clone, Copy, Debug, PartialEq, Eq)]
pub enum Padding {
    /// A fault, as it is for the loader.
    Refused,
    /// Read, and kept in `padded`.
    Noted,
}

/// A number that stands in more bytes than it needs, and those that would do.
#[derive(Clone, Debug)]
pub struct Padded {
    pub bytes: Range<usize>,
    pub shortest: Vec<u8>,
}

pub struct Reader<'a> {
    pub bytes: &'a [u8],
    pub place: usize,
    padding: Padding,
    pub padded: Vec<Padded>,
}

/// The bits of an unsigned number, and those of a number in each byte.
const UNSIGNED_BITS: u32 = 32;
const BYTE_BITS: u32 = 7;

#[derive(Clone, Copy, PartialEq, Eq)]
enum Sign {
    Unsigned,
    Signed,
}

impl Sign {
    /// What so many bits say.
    fn value(self, bits: u128, count: u32) -> i128 {
        match self {
            Sign::Unsigned => bits as i128,
            Sign::Signed => (bits << (128 - count)) as i128 >> (128 - count),
        }
    }

    fn fits(self, value: i128, bits: u32) -> bool {
        match self {
            Sign::Unsigned => (0..1 << bits).contains(&value),
            Sign::Signed => (-(1 << (bits - 1))..1 << (bits - 1)).contains(&value),
        }
    }
}

impl<'a> Reader<'a> {
    pub fn new(bytes: &'a [u8], padding: Padding) -> Reader<'a> {
        Reader { bytes, place: 0, padding, padded: Vec::new() }
    }

    pub fn peek(&self) -> Option<u8> {
        self.bytes.get(self.place).copied()
    }

    /// A code byte; what was to stand there is said where none does.
    pub fn byte(&mut self, wanted: &str) -> Result<u8, Fault> {
        let byte = self.peek().ok_or_else(|| {
            Fault::new(BYTES_END, self.place, format!("the bytes end where {wanted} has to begin"))
        })?;
        self.place += 1;
        Ok(byte)
    }

    /// Whether the byte stands here; then it is passed.
    pub fn takes(&mut self, byte: u8) -> bool {
        let there = self.peek() == Some(byte);
        self.place += there as usize;
        there
    }

    pub fn unsigned(&mut self, what: &str) -> Result<u32, Fault> {
        self.number(UNSIGNED_BITS, Sign::Unsigned, what).map(|number| number as u32)
    }

    /// A number of so many bits with a sign.
    pub fn signed(&mut self, bits: u32, what: &str) -> Result<i64, Fault> {
        self.number(bits, Sign::Signed, what).map(|number| number as i64)
    }

    /// 1 and 2, then 32.
    fn number(&mut self, bits: u32, sign: Sign, what: &str) -> Result<i128, Fault> {
        let start = self.place;
        let (sevens, length) = self.leb(bits, what)?;
        let value = sign.value(sevens, BYTE_BITS * length);
        if !sign.fits(value, bits) {
            return Err(out_of_range(start, what, bits, sign));
        }
        let needed = (1..length).find(|&fewer| sign.fits(value, BYTE_BITS * fewer));
        if let Some(needed) = needed {
            self.found_padded(start, needed as usize, what)?;
        }
        Ok(value)
    }

    /// The number that was read needs so many of its bytes.
    fn found_padded(&mut self, start: usize, needed: usize, what: &str) -> Result<(), Fault> {
        let mut shortest = self.bytes[start..start + needed].to_vec();
        shortest[needed - 1] &= 0x7F;
        let padded = Padded { bytes: start..self.place, shortest };
        if self.padding == Padding::Refused {
            let why = format!("{what} has more bytes than it needs: {}", padded.mend(self.bytes));
            return Err(Fault::new(NUMBER_PADDED, start, why));
        }
        self.padded.push(padded);
        Ok(())
    }

    /// So many bytes that are one item.
    pub fn bytes<const COUNT: usize>(&mut self, what: &str) -> Result<[u8; COUNT], Fault> {
        let start = self.place;
        match self.bytes[start..].first_chunk() {
            Some(&bytes) => {
                self.place += COUNT;
                Ok(bytes)
            }
            None => Err(bytes_end(start, self.bytes.len() - start, what)),
        }
    }

    pub fn ended(&self) -> Result<(), Fault> {
        let left = self.bytes.len() - self.place;
        match left {
            0 => Ok(()),
            1 => Err(Fault::new(BYTES_LEFT_OVER, self.place, "1 byte is left over")),
            _ => Err(Fault::new(
                BYTES_LEFT_OVER,
                self.place,
                format!("{left} bytes are left over from here on"),
            )),
        }
    }

    /// The number's bits, and how many bytes they stood in; of so many bits, seven a byte.
    fn leb(&mut self, bits: u32, what: &str) -> Result<(u128, u32), Fault> {
        let start = self.place;
        let most = bits.div_ceil(BYTE_BITS);
        let mut value = 0;
        for index in 0..most {
            let byte = self.peek().ok_or_else(|| bytes_end(start, index as usize, what))?;
            self.place += 1;
            value |= u128::from(byte & 0x7F) << (BYTE_BITS * index);
            if byte < 0x80 {
                return Ok((value, index + 1));
            }
        }
        let why = format!("{what} goes on after {most} bytes, the most that it has");
        Err(Fault::new(NUMBER_TOO_LONG, start, why))
    }
}

/// Behind so many bytes of the item.
fn bytes_end(start: usize, there: usize, what: &str) -> Fault {
    let why = match there {
        0 => format!("the bytes end where {what} has to begin"),
        _ => format!("the bytes end inside {what}"),
    };
    Fault::new(BYTES_END, start, why)
}

fn out_of_range(start: usize, what: &str, bits: u32, sign: Sign) -> Fault {
    let with_sign = if sign == Sign::Signed { " with a sign" } else { "" };
    let why = format!("{what} is out of the range of {bits} bits{with_sign}");
    Fault::new(NUMBER_TOO_LONG, start, why)
}

impl Padded {
    /// "write 80 00 as 00"
    pub fn mend(&self, bytes: &[u8]) -> String {
        let written = hex::spaced(&bytes[self.bytes.clone()]);
        format!("write {written} as {}", hex::spaced(&self.shortest))
    }
}
