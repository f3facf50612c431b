//! The instructions that the loader reads, by their bytes, and what follows each. A test holds the list to the reader, both ways.

use super::{Numeric, PLAIN};

/// What stands behind an instruction's code.
#[derive(Clone, Copy, Debug, PartialEq, Eq)]
pub enum Immediate {
    BlockType,
    Label,
    Local,
    Signed32,
    Signed64,
    Float32,
    Float64,
    Heap,
    Type,
    Field,
    Flags,
}

impl Immediate {
    pub fn words(self) -> &'static str {
        match self {
            Immediate::BlockType => "block type",
            Immediate::Label => "label",
            Immediate::Local => "local",
            Immediate::Signed32 => "number of 32 bits, signed LEB128",
            Immediate::Signed64 => "number of 64 bits, signed LEB128",
            Immediate::Float32 => "4 bytes, the lowest first",
            Immediate::Float64 => "8 bytes, the lowest first",
            Immediate::Heap => "heap type",
            Immediate::Type => "type number",
            Immediate::Field => "field number",
            Immediate::Flags => "flags",
        }
    }
}

/// One byte, or the number behind FB.
#[derive(Clone, Copy, Debug, PartialEq, Eq)]
pub enum Code {
    One(u8),
    AfterFb(u8),
}

impl Code {
    pub fn bytes(self) -> Vec<u8> {
        match self {
            Code::One(code) => vec![code],
            Code::AfterFb(number) => vec![0xFB, number],
        }
    }
}

pub struct Listed {
    pub code: Code,
    pub name: &'static str,
    pub immediates: &'static [Immediate],
}

use Code::{AfterFb, One};
use Immediate::*;

const CAST: &[Immediate] = &[Heap];
const BRANCHING: &[Immediate] = &[Flags, Label, Heap, Heap];

/// Those with immediates.
const WITH: [(Code, &str, &[Immediate]); 29] = [
    (One(0x02), "block", &[BlockType]),
    (One(0x03), "loop", &[BlockType]),
    (One(0x0C), "br", &[Label]),
    (One(0x0D), "br_if", &[Label]),
    (One(0x20), "local.get", &[Local]),
    (One(0x21), "local.set", &[Local]),
    (One(0x22), "local.tee", &[Local]),
    (One(0x41), "i32.const", &[Signed32]),
    (One(0x42), "i64.const", &[Signed64]),
    (One(0x43), "f32.const", &[Float32]),
    (One(0x44), "f64.const", &[Float64]),
    (One(0xD0), "ref.null", &[Heap]),
    (AfterFb(0x00), "struct.new", &[Type]),
    (AfterFb(0x01), "struct.new_default", &[Type]),
    (AfterFb(0x02), "struct.get", &[Type, Field]),
    (AfterFb(0x05), "struct.set", &[Type, Field]),
    (AfterFb(0x14), "ref.test (ref ..)", CAST),
    (AfterFb(0x15), "ref.test (ref null ..)", CAST),
    (AfterFb(0x16), "ref.cast (ref ..)", CAST),
    (AfterFb(0x17), "ref.cast (ref null ..)", CAST),
    (AfterFb(0x18), "br_on_cast", BRANCHING),
    (AfterFb(0x19), "br_on_cast_fail", BRANCHING),
    (AfterFb(0x20), "struct.new_desc", &[Type]),
    (AfterFb(0x21), "struct.new_default_desc", &[Type]),
    (AfterFb(0x22), "ref.get_desc", &[Type]),
    (AfterFb(0x23), "ref.cast_desc_eq (ref ..)", CAST),
    (AfterFb(0x24), "ref.cast_desc_eq (ref null ..)", CAST),
    (AfterFb(0x25), "br_on_cast_desc_eq", BRANCHING),
    (AfterFb(0x26), "br_on_cast_desc_eq_fail", BRANCHING),
];

/// All of them but the numeric codes, by their bytes.
pub fn instructions() -> Vec<Listed> {
    let plain = PLAIN.iter().map(|row| (One(row.1), row.2, &[][..]));
    let mut all: Vec<Listed> = plain
        .chain(WITH)
        .map(|(code, name, immediates)| Listed { code, name, immediates })
        .collect();
    all.sort_by_key(|row| row.code.bytes());
    all
}

/// 45 to C4, in order.
pub fn numeric() -> impl Iterator<Item = Numeric> {
    (0..=u8::MAX).filter_map(Numeric::of_code)
}

#[cfg(test)]
mod tests {
    use super::*;
    use crate::read::body::read;
    use crate::syntax::Item;

    /// The smallest bytes of an immediate.
    fn bytes(immediate: Immediate) -> Vec<u8> {
        match immediate {
            BlockType => vec![0x40],
            Float32 => vec![0; 4],
            Float64 => vec![0; 8],
            Heap => vec![0x6E],
            Label | Local | Signed32 | Signed64 | Type | Field | Flags => vec![0],
        }
    }

    /// The name that the reader gives a code with zeros behind it; none where it refuses the code.
    fn read_name(code: Code, behind: &[u8]) -> Option<String> {
        let body = [&[0x00], &code.bytes()[..], behind].concat();
        let read = read(&body);
        match &read.parts.get(1)?.what {
            Item::Instruction(instruction) => {
                assert_eq!(read.parts[1].bytes, 1..body.len(), "{code:?}");
                Some(instruction.name().to_string())
            }
            _ => None,
        }
    }

    /// What is listed is read, to its last byte and by its name; what is not listed is 3.
    #[test]
    fn the_list_is_the_readers() {
        let listed = instructions();
        let all = (0..=u8::MAX).map(One).chain((0..0x80).map(AfterFb));
        for code in all.filter(|&code| code != One(0xFB)) {
            match listed.iter().find(|row| row.code == code) {
                Some(row) => {
                    let behind: Vec<u8> = row.immediates.iter().copied().flat_map(bytes).collect();
                    let name = row.name.split(' ').next().map(str::to_string);
                    assert_eq!(read_name(code, &behind), name, "{code:?}");
                }
                None => {
                    let numeric = match code {
                        One(code) => Numeric::of_code(code).map(|it| it.name().to_string()),
                        AfterFb(_) => None,
                    };
                    assert_eq!(read_name(code, &[]), numeric, "{code:?}");
                    if numeric.is_none() {
                        let fault = read(&[&[0x00], &code.bytes()[..]].concat()).fault;
                        assert_eq!(fault.map(|(_, fault)| fault.number), Some(3), "{code:?}");
                    }
                }
            }
        }
    }
}
