//! The buffers that a call is lent, and every word of them afterwards.

use crate::expected;
use chelbugan::calls::RunMemory;
use std::fmt;

/// How many buffers a run is lent.
pub const BUFFERS: usize = 11;

/// How many elements each buffer has, in the order of a run's call. A section is lent the first three, a body the first four;
/// a buffer that is not lent has none.
pub type Lengths = [usize; BUFFERS];

/// The very sizes of docs/LAYOUT.md.
pub const SIZES: Lengths = [
    expected::ROWS,
    expected::SHARED,
    expected::CODES,
    expected::WORK,
    expected::ENDS,
    expected::COUNTS,
    expected::OBJECTS,
    expected::CELLS,
    expected::LOCALS,
    expected::OPERANDS,
    expected::BLOCKS,
];

/// The first buffers have these lengths, and no more are lent.
pub fn first(lengths: &[usize]) -> Lengths {
    let mut all = [0; SIZES.len()];
    all[..lengths.len()].copy_from_slice(lengths);
    all
}

/// All buffers.
#[derive(Clone, Debug, PartialEq, Eq)]
pub struct Memory {
    pub rows: Vec<u16>,
    pub shared: Vec<u16>,
    pub codes: Vec<u16>,
    pub work: Vec<u32>,
    pub ends: Vec<u16>,
    pub counts: Vec<u64>,
    pub objects: Vec<u16>,
    pub cells: Vec<u64>,
    pub locals: Vec<u64>,
    pub operands: Vec<u64>,
    pub blocks: Vec<u16>,
}

impl Memory {
    /// Every element holds the same, cut to its width.
    pub fn filled(lengths: Lengths, with: u64) -> Memory {
        let [rows, shared, codes, work, ends, counts, objects, cells, locals, operands, blocks] =
            lengths;
        Memory {
            rows: vec![with as u16; rows],
            shared: vec![with as u16; shared],
            codes: vec![with as u16; codes],
            work: vec![with as u32; work],
            ends: vec![with as u16; ends],
            counts: vec![with; counts],
            objects: vec![with as u16; objects],
            cells: vec![with; cells],
            locals: vec![with; locals],
            operands: vec![with; operands],
            blocks: vec![with as u16; blocks],
        }
    }

    pub fn lent(&mut self) -> RunMemory<'_> {
        RunMemory {
            rows: &mut self.rows,
            shared: &mut self.shared,
            codes: &mut self.codes,
            work: &mut self.work,
            ends: &mut self.ends,
            counts: &mut self.counts,
            objects: &mut self.objects,
            cells: &mut self.cells,
            locals: &mut self.locals,
            operands: &mut self.operands,
            blocks: &mut self.blocks,
        }
    }

    /// The first word that is not as wanted, in words.
    pub fn difference(&self, wanted: &Memory) -> Option<String> {
        differing("rows", &self.rows, &wanted.rows)
            .or_else(|| differing("shared", &self.shared, &wanted.shared))
            .or_else(|| differing("codes", &self.codes, &wanted.codes))
            .or_else(|| differing("work", &self.work, &wanted.work))
            .or_else(|| differing("ends", &self.ends, &wanted.ends))
            .or_else(|| differing("counts", &self.counts, &wanted.counts))
            .or_else(|| differing("objects", &self.objects, &wanted.objects))
            .or_else(|| differing("cells", &self.cells, &wanted.cells))
            .or_else(|| differing("locals", &self.locals, &wanted.locals))
            .or_else(|| differing("operands", &self.operands, &wanted.operands))
            .or_else(|| differing("blocks", &self.blocks, &wanted.blocks))
    }

    pub fn is_zero(&self) -> bool {
        let Memory { rows, shared, codes, ends, objects, blocks, .. } = self;
        let halves = [rows, shared, codes, ends, objects, blocks];
        let doubles = [&self.counts, &self.cells, &self.locals, &self.operands];
        halves.into_iter().flatten().all(|&word| word == 0)
            && self.work.iter().all(|&word| word == 0)
            && doubles.into_iter().flatten().all(|&word| word == 0)
    }
}

fn differing<T: PartialEq + fmt::Display>(name: &str, is: &[T], wanted: &[T]) -> Option<String> {
    if is.len() != wanted.len() {
        return Some(format!("{name} has {} words and should have {}", is.len(), wanted.len()));
    }
    let at = (0..is.len()).find(|&at| is[at] != wanted[at])?;
    Some(format!("{name}[{at}] is {} and should be {}", is[at], wanted[at]))
}
