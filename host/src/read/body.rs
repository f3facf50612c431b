//! The parts of a body: locals, then instructions up to the last `end`.

use super::instruction::instruction;
use super::reader::{Fault, Padded, Padding, Reader};
use super::types;
use crate::syntax::{Instruction, Item, Placed, Plain};

pub struct Body {
    pub parts: Vec<Placed<Item>>,
    /// Where the part begins that could not be read, and why; none where the whole body was.
    pub fault: Option<(usize, Fault)>,
    /// Of a reading that notes them.
    pub padded: Vec<Padded>,
}

/// As the loader reads.
pub fn read(bytes: &[u8]) -> Body {
    read_with(bytes, Padding::Refused)
}

pub fn read_with(bytes: &[u8], padding: Padding) -> Body {
    let mut parts = Parts { reader: Reader::new(bytes, padding), read: Vec::new(), from: 0 };
    let fault = parts.body().err();
    let from = parts.from;
    Body {
        parts: parts.read,
        fault: fault.map(|fault| (from.min(fault.place), fault)),
        padded: parts.reader.padded,
    }
}

struct Parts<'a> {
    reader: Reader<'a>,
    read: Vec<Placed<Item>>,
    /// Where the part begins that is being read.
    from: usize,
}

impl Parts<'_> {
    fn push(&mut self, what: Item) {
        self.read.push(Placed { bytes: self.from..self.reader.place, what });
        self.from = self.reader.place;
    }

    fn body(&mut self) -> Result<(), Fault> {
        self.locals()?;
        let mut frames = 1;
        while frames > 0 {
            let read = instruction(&mut self.reader)?;
            match read {
                Instruction::Block(_) | Instruction::Loop(_) => frames += 1,
                Instruction::Plain(Plain::End) => frames -= 1,
                _ => (),
            }
            self.push(Item::Instruction(read));
        }
        self.reader.ended()
    }

    fn locals(&mut self) -> Result<(), Fault> {
        let entries = self.reader.unsigned("the count of entries of locals")?;
        self.push(Item::Entries(entries));
        for _ in 0..entries {
            let count = self.reader.unsigned("a count of locals")?;
            let value = types::value(&mut self.reader)?;
            self.push(Item::Locals(count, value));
        }
        Ok(())
    }
}
