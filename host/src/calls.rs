//! The loader's calls on slices. A slice keeps by itself what include/chelbugan.h asks of a caller: its pointer is aligned
//! and not null, its length is true, and what is lent for writing overlaps with nothing.
//!
//! Every call takes the library and the section, then the body, the number and the budget as far as it has them, then the
//! memory. The library is a type section too, and comes first: the section's own types are numbered on from its count. An
//! answer that is not known is a no: [`Refusal::UNKNOWN`].

use crate::answer::{bytes, ended, known, told, ANSWER};
pub use crate::answer::{Bytes, Ended};
use crate::archive;
use crate::limits;
pub use crate::refusal::{Input, Refusal};
use core::fmt;

/// The library of no types, its count alone: with it a section is judged as if there were no library.
pub const EMPTY_LIBRARY: &[u8] = &[0];

/// Elements of `rows`, at least. A shorter buffer is refusal 14; of a longer one the rest is zeroed.
pub const ROWS: usize = 16_384;
/// Elements of `shared`, at least: the codes of the library's types.
pub const SHARED: usize = 32_768;
/// Elements of `codes`, at least: the codes of the section's own types.
pub const CODES: usize = 32_768;
/// Elements of `work`, at least.
pub const WORK: usize = 4_096;
/// Elements of `ends`, at least.
pub const ENDS: usize = 32_768;
/// Elements of `counts`, at least.
pub const COUNTS: usize = 6;
/// Elements of `objects`, at least.
pub const OBJECTS: usize = 4_096;
/// Elements of `cells`, at least.
pub const CELLS: usize = 8_192;
/// Elements of `locals`, at least.
pub const LOCALS: usize = 512;
/// Elements of `operands`, at least.
pub const OPERANDS: usize = 1_024;
/// Elements of `blocks`, at least.
pub const BLOCKS: usize = 189;

/// The archive's version that this wrapper is written for, as [`version`] tells it. The first number is that of the calls'
/// shape.
pub const VERSION: u64 = 20_001;

/// What a trial run is lent: scratch, then the state that it leaves.
pub struct RunMemory<'a> {
    /// Scratch, [`ROWS`] elements.
    pub rows: &'a mut [u16],
    /// Scratch, [`SHARED`] elements.
    pub shared: &'a mut [u16],
    /// Scratch, [`CODES`] elements.
    pub codes: &'a mut [u16],
    /// Scratch, [`WORK`] elements.
    pub work: &'a mut [u32],
    /// Scratch, [`ENDS`] elements.
    pub ends: &'a mut [u16],
    /// The place in the body, and how many of each of the following there are; [`COUNTS`] elements.
    pub counts: &'a mut [u64],
    /// The objects, [`OBJECTS`] elements.
    pub objects: &'a mut [u16],
    /// The objects' fields, [`CELLS`] elements.
    pub cells: &'a mut [u64],
    /// The locals, [`LOCALS`] elements.
    pub locals: &'a mut [u64],
    /// The operands, [`OPERANDS`] elements.
    pub operands: &'a mut [u64],
    /// The open blocks, [`BLOCKS`] elements.
    pub blocks: &'a mut [u16],
}

/// The lengths alone: the words are many.
impl fmt::Debug for RunMemory<'_> {
    fn fmt(&self, to: &mut fmt::Formatter) -> fmt::Result {
        to.debug_struct("RunMemory")
            .field("rows", &self.rows.len())
            .field("shared", &self.shared.len())
            .field("codes", &self.codes.len())
            .field("work", &self.work.len())
            .field("ends", &self.ends.len())
            .field("counts", &self.counts.len())
            .field("objects", &self.objects.len())
            .field("cells", &self.cells.len())
            .field("locals", &self.locals.len())
            .field("operands", &self.operands.len())
            .field("blocks", &self.blocks.len())
            .finish()
    }
}

/// The version of the archive that is linked: 10,000 times the first number, 100 times the second, and the third.
pub fn version() -> u64 {
    // SAFETY: it takes nothing and answers a number.
    unsafe { archive::chelbugan_version() }
}

/// An archive of other calls is not called at all: it might write more words than it is lent.
fn shape_is_known() -> Result<(), Refusal> {
    match version() / 10_000 == VERSION / 10_000 {
        true => Ok(()),
        false => Err(Refusal::unknown(version())),
    }
}

/// Judges a library and a section: the count of all types, with the table in `rows`, `shared` and `codes`; or the refusal,
/// and all three are zero.
pub fn judge_section(
    library: &[u8],
    section: &[u8],
    rows: &mut [u16],
    shared: &mut [u16],
    codes: &mut [u16],
) -> Result<u64, Refusal> {
    shape_is_known()?;
    let mut answer = [0; ANSWER];
    // SAFETY: each pointer and length is one slice's; the archive keeps none of them.
    let kind = unsafe {
        archive::chelbugan_judge_section(
            library.as_ptr(),
            library.len(),
            section.as_ptr(),
            section.len(),
            rows.as_mut_ptr(),
            rows.len(),
            shared.as_mut_ptr(),
            shared.len(),
            codes.as_mut_ptr(),
            codes.len(),
            answer.as_mut_ptr(),
        )
    };
    let [count, ..] = told(kind, answer)?;
    known(count <= limits::TYPES as u64, kind)?;
    Ok(count)
}

/// Asks a library and a section for a type: where its bytes lie, with the table as after judging alone; or the refusal.
pub fn ask_type(
    library: &[u8],
    section: &[u8],
    number: u64,
    rows: &mut [u16],
    shared: &mut [u16],
    codes: &mut [u16],
) -> Result<Bytes, Refusal> {
    shape_is_known()?;
    let mut answer = [0; ANSWER];
    // SAFETY: as above.
    let kind = unsafe {
        archive::chelbugan_ask_type(
            library.as_ptr(),
            library.len(),
            section.as_ptr(),
            section.len(),
            number,
            rows.as_mut_ptr(),
            rows.len(),
            shared.as_mut_ptr(),
            shared.len(),
            codes.as_mut_ptr(),
            codes.len(),
            answer.as_mut_ptr(),
        )
    };
    bytes(kind, told(kind, answer)?, library, section)
}

/// Judges a body against a function type's number: its count of instructions; or the refusal. All that is lent is scratch,
/// and zero afterwards.
#[allow(clippy::too_many_arguments)] // Each is a buffer of its own, as the header has them.
pub fn judge_body(
    library: &[u8],
    section: &[u8],
    body: &[u8],
    number: u64,
    rows: &mut [u16],
    shared: &mut [u16],
    codes: &mut [u16],
    work: &mut [u32],
) -> Result<u64, Refusal> {
    shape_is_known()?;
    let mut answer = [0; ANSWER];
    // SAFETY: as above.
    let kind = unsafe {
        archive::chelbugan_judge_body(
            library.as_ptr(),
            library.len(),
            section.as_ptr(),
            section.len(),
            body.as_ptr(),
            body.len(),
            number,
            rows.as_mut_ptr(),
            rows.len(),
            shared.as_mut_ptr(),
            shared.len(),
            codes.as_mut_ptr(),
            codes.len(),
            work.as_mut_ptr(),
            work.len(),
            answer.as_mut_ptr(),
        )
    };
    told(kind, answer).map(|[instructions, ..]| instructions)
}

/// Makes a trial run of a body, of at most `budget` steps: how it ended, with the state after exactly its steps in the last
/// six buffers; or the refusal, and all eleven are zero.
pub fn try_run(
    library: &[u8],
    section: &[u8],
    body: &[u8],
    number: u64,
    budget: u64,
    memory: &mut RunMemory,
) -> Result<Ended, Refusal> {
    shape_is_known()?;
    let mut answer = [0; ANSWER];
    // SAFETY: as above.
    let kind = unsafe {
        archive::chelbugan_try_run(
            library.as_ptr(),
            library.len(),
            section.as_ptr(),
            section.len(),
            body.as_ptr(),
            body.len(),
            number,
            budget,
            memory.rows.as_mut_ptr(),
            memory.rows.len(),
            memory.shared.as_mut_ptr(),
            memory.shared.len(),
            memory.codes.as_mut_ptr(),
            memory.codes.len(),
            memory.work.as_mut_ptr(),
            memory.work.len(),
            memory.ends.as_mut_ptr(),
            memory.ends.len(),
            memory.counts.as_mut_ptr(),
            memory.counts.len(),
            memory.objects.as_mut_ptr(),
            memory.objects.len(),
            memory.cells.as_mut_ptr(),
            memory.cells.len(),
            memory.locals.as_mut_ptr(),
            memory.locals.len(),
            memory.operands.as_mut_ptr(),
            memory.operands.len(),
            memory.blocks.as_mut_ptr(),
            memory.blocks.len(),
            answer.as_mut_ptr(),
        )
    };
    ended(kind, answer)
}

#[cfg(test)]
mod tests {
    use super::*;

    #[test]
    fn the_archive_is_of_this_version() {
        assert_eq!(version(), VERSION);
        assert_eq!(shape_is_known(), Ok(()));
    }
}
