//! The state that a trial run leaves, read as docs/LAYOUT.md draws it.

use crate::limits;
use alloc::vec::Vec;
use core::fmt;

const PLACE: usize = 0;
const OBJECTS: usize = 1;
const CELLS: usize = 2;
const LOCALS: usize = 3;
const OPERANDS: usize = 4;
const BLOCKS: usize = 5;

const OBJECT_WORDS: usize = 4;
const VALUE_WORDS: usize = 2;
const BLOCK_WORDS: usize = 3;

const BLOCK: u16 = 1;
const LOOP: u16 = 2;

/// What a run left, as words; each part is read when it is asked for.
pub struct State<'a> {
    pub(crate) counts: &'a [u64],
    pub(crate) objects: &'a [u16],
    pub(crate) cells: &'a [u64],
    pub(crate) locals: &'a [u64],
    pub(crate) operands: &'a [u64],
    pub(crate) blocks: &'a [u16],
}

/// A value; a float by its bits.
#[derive(Clone, Copy, Debug, PartialEq, Eq)]
pub enum Value {
    /// An i32.
    I32(i32),
    /// An i64.
    I64(i64),
    /// The bits of an f32.
    F32(u32),
    /// The bits of an f64.
    F64(u64),
    /// The null reference.
    Null,
    /// An object's number.
    Object(u64),
}

/// An object of the heap.
#[derive(Clone, Debug, PartialEq, Eq)]
pub struct Object {
    /// The number of its type.
    pub type_number: u16,
    /// The object that is its descriptor.
    pub descriptor: Option<u16>,
    /// Its fields, in order.
    pub fields: Vec<Value>,
}

/// An open block or loop; the function's own frame is none.
#[derive(Clone, Copy, Debug, PartialEq, Eq)]
pub struct Block {
    /// A loop, else a block.
    pub is_loop: bool,
    /// Of the instruction that opened it.
    pub place: u16,
    /// Operands below it.
    pub height: u16,
}

impl State<'_> {
    /// In the body: of the next instruction; of the trapping one after a trap; the body's length when done.
    pub fn place(&self) -> u64 {
        self.counts[PLACE]
    }

    /// By number.
    pub fn objects(&self) -> Vec<Object> {
        let all = self.objects.chunks(OBJECT_WORDS).take(self.count(OBJECTS));
        all.map(|words| self.object(words)).collect()
    }

    /// Parameters first; None where a local holds no value.
    pub fn locals(&self) -> Vec<Option<Value>> {
        self.locals.chunks(VALUE_WORDS).take(self.count(LOCALS)).map(value_of).collect()
    }

    /// The bottom first. When the run is done they are its results.
    pub fn operands(&self) -> Vec<Value> {
        values(self.operands, 0, self.count(OPERANDS))
    }

    /// The outermost first.
    pub fn blocks(&self) -> Vec<Block> {
        self.blocks.chunks(BLOCK_WORDS).take(self.count(BLOCKS)).map(block_of).collect()
    }

    fn count(&self, of: usize) -> usize {
        self.counts[of] as usize
    }

    /// No more of anything than there can be, and of each value and block a kind that docs/LAYOUT.md has: what would be
    /// passed over in reading is no state.
    pub(crate) fn is_known(&self) -> bool {
        let most = [
            (OBJECTS, limits::OBJECTS),
            (CELLS, limits::CELLS),
            (LOCALS, limits::LOCALS),
            (OPERANDS, limits::OPERANDS),
            (BLOCKS, limits::FRAMES - 1),
        ];
        let values = |words: &[u64], of| {
            words.chunks(VALUE_WORDS).take(self.count(of)).all(|words| value_of(words).is_some())
        };
        let locals = self.locals.chunks(VALUE_WORDS).take(self.count(LOCALS));
        let blocks = self.blocks.chunks(BLOCK_WORDS).take(self.count(BLOCKS));
        let objects = self.objects.chunks(OBJECT_WORDS).take(self.count(OBJECTS));
        most.into_iter().all(|(of, most)| self.count(of) <= most)
            && values(self.cells, CELLS)
            && values(self.operands, OPERANDS)
            && locals.into_iter().all(|words| words[0] == 0 || value_of(words).is_some())
            && blocks.into_iter().all(|words| words[0] == BLOCK || words[0] == LOOP)
            && objects
                .into_iter()
                .all(|words| usize::from(words[2]) + usize::from(words[3]) <= self.count(CELLS))
    }

    /// Type, descriptor, first cell, how many cells.
    fn object(&self, words: &[u16]) -> Object {
        Object {
            type_number: words[0],
            descriptor: words[1].checked_sub(1),
            fields: values(self.cells, words[2] as usize, words[3] as usize),
        }
    }
}

/// So many values from one on, each of which is there.
fn values(words: &[u64], first: usize, count: usize) -> Vec<Value> {
    words.chunks(VALUE_WORDS).skip(first).take(count).filter_map(value_of).collect()
}

fn value_of(words: &[u64]) -> Option<Value> {
    let bits = words[1];
    Some(match words[0] {
        1 => Value::I32(bits as u32 as i32),
        2 => Value::I64(bits as i64),
        3 => Value::F32(bits as u32),
        4 => Value::F64(bits),
        5 => Value::Null,
        6 => Value::Object(bits),
        _ => return None,
    })
}

fn block_of(words: &[u16]) -> Block {
    Block { is_loop: words[0] == LOOP, place: words[1], height: words[2] }
}

impl fmt::Debug for State<'_> {
    fn fmt(&self, to: &mut fmt::Formatter) -> fmt::Result {
        to.debug_struct("State")
            .field("place", &self.place())
            .field("objects", &self.objects())
            .field("locals", &self.locals())
            .field("operands", &self.operands())
            .field("blocks", &self.blocks())
            .finish()
    }
}

/// As the lines of docs/LAYOUT.md write it.
impl fmt::Display for Value {
    fn fmt(&self, to: &mut fmt::Formatter) -> fmt::Result {
        match self {
            Value::I32(number) => write!(to, "i32:{number}"),
            Value::I64(number) => write!(to, "i64:{number}"),
            Value::F32(bits) => write!(to, "f32:{bits:08x}"),
            Value::F64(bits) => write!(to, "f64:{bits:016x}"),
            Value::Null => write!(to, "null"),
            Value::Object(number) => write!(to, "obj:{number}"),
        }
    }
}

#[cfg(test)]
mod tests {
    use super::*;

    /// An i32 on the stack, in a block, beside an object of one cell; then one word at a time is no state's.
    #[test]
    fn a_state_that_is_not_known_is_told_apart() {
        let counts = [7, 1, 1, 1, 1, 1];
        let known = |counts: &[u64], object: &[u16], cell, local, operand, block| {
            let state = State {
                counts,
                objects: object,
                cells: &[cell, 0],
                locals: &[local, 0],
                operands: &[operand, 0],
                blocks: &[block, 3, 0],
            };
            state.is_known()
        };
        let object = [0, 0, 0, 1];
        assert!(known(&counts, &object, 1, 0, 6, 2));
        assert!(!known(&counts, &object, 0, 0, 6, 2), "a cell without a value");
        assert!(!known(&counts, &object, 1, 7, 6, 2), "a local of no kind");
        assert!(!known(&counts, &object, 1, 0, 0, 2), "an operand without a value");
        assert!(!known(&counts, &object, 1, 0, 6, 3), "neither block nor loop");
        assert!(!known(&counts, &[0, 0, 1, 1], 1, 0, 6, 2), "a cell that is not there");
        assert!(!known(&[7, 1_025, 1, 1, 1, 1], &object, 1, 0, 6, 2), "too many objects");
    }
}
