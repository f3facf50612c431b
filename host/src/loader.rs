//! The loader with memory of its own.

use crate::calls::{self, Bytes, Ended, Input, Refusal, RunMemory};
use crate::state::State;
use crate::table::Table;
use alloc::boxed::Box;
use alloc::vec;
use core::fmt;

/// Lends the same buffers, 332,202 bytes, to each call; they are zero, or hold the last accepted sections' table or the
/// last run's state.
pub struct Loader {
    rows: Box<[u16]>,
    shared: Box<[u16]>,
    codes: Box<[u16]>,
    work: Box<[u32]>,
    ends: Box<[u16]>,
    counts: Box<[u64]>,
    objects: Box<[u16]>,
    cells: Box<[u64]>,
    locals: Box<[u64]>,
    operands: Box<[u64]>,
    blocks: Box<[u16]>,
}

/// How a trial run ended, and the state after exactly its steps.
#[derive(Debug)]
pub struct Run<'a> {
    /// How it ended.
    pub ended: Ended,
    /// The state that it left.
    pub state: State<'a>,
}

impl Loader {
    /// A loader with memory for every call.
    pub fn new() -> Loader {
        Loader {
            rows: zeros(calls::ROWS),
            shared: zeros(calls::SHARED),
            codes: zeros(calls::CODES),
            work: zeros(calls::WORK),
            ends: zeros(calls::ENDS),
            counts: zeros(calls::COUNTS),
            objects: zeros(calls::OBJECTS),
            cells: zeros(calls::CELLS),
            locals: zeros(calls::LOCALS),
            operands: zeros(calls::OPERANDS),
            blocks: zeros(calls::BLOCKS),
        }
    }

    /// The types of a library and of a section after it. Without a library it is [`calls::EMPTY_LIBRARY`].
    pub fn judge_section(&mut self, library: &[u8], section: &[u8]) -> Result<Table<'_>, Refusal> {
        let Loader { rows, shared, codes, .. } = self;
        let count = calls::judge_section(library, section, rows, shared, codes)?;
        Ok(Table::new(count as usize, rows, shared, codes))
    }

    /// The very bytes of a definition, a part of the library or of the section, and of which.
    pub fn type_bytes<'s>(
        &mut self,
        library: &'s [u8],
        section: &'s [u8],
        number: u64,
    ) -> Result<(&'s [u8], Input), Refusal> {
        let Loader { rows, shared, codes, .. } = self;
        let Bytes { from, to, input } =
            calls::ask_type(library, section, number, rows, shared, codes)?;
        let holder = match input {
            Input::Library => library,
            Input::Addon => section,
        };
        let definition = holder.get(from as usize..to as usize).ok_or(Refusal::unknown(to))?;
        Ok((definition, input))
    }

    /// A body's count of instructions, against the function type of a number.
    pub fn judge_body(
        &mut self,
        library: &[u8],
        section: &[u8],
        body: &[u8],
        number: u64,
    ) -> Result<u64, Refusal> {
        let Loader { rows, shared, codes, work, .. } = self;
        calls::judge_body(library, section, body, number, rows, shared, codes, work)
    }

    /// A trial run of a body, of at most so many steps.
    pub fn try_run(
        &mut self,
        library: &[u8],
        section: &[u8],
        body: &[u8],
        number: u64,
        budget: u64,
    ) -> Result<Run<'_>, Refusal> {
        let memory = &mut self.run_memory();
        let ended = calls::try_run(library, section, body, number, budget, memory)?;
        let state = self.state();
        match state.is_known() {
            true => Ok(Run { ended, state }),
            false => Err(Refusal::unknown(state.place())),
        }
    }

    fn run_memory(&mut self) -> RunMemory<'_> {
        RunMemory {
            rows: &mut self.rows,
            shared: &mut self.shared,
            codes: &mut self.codes,
            work: &mut self.work,
            ends: &mut self.ends,
            counts: &mut self.counts,
            objects: &mut self.objects,
            cells: &mut self.cells,
            locals: &mut self.locals,
            operands: &mut self.operands,
            blocks: &mut self.blocks,
        }
    }

    fn state(&self) -> State<'_> {
        State {
            counts: &self.counts,
            objects: &self.objects,
            cells: &self.cells,
            locals: &self.locals,
            operands: &self.operands,
            blocks: &self.blocks,
        }
    }
}

/// Without the words that it lends: they are many.
impl fmt::Debug for Loader {
    fn fmt(&self, to: &mut fmt::Formatter) -> fmt::Result {
        to.debug_struct("Loader").finish_non_exhaustive()
    }
}

impl Default for Loader {
    fn default() -> Loader {
        Loader::new()
    }
}

fn zeros<T: Clone + Default>(count: usize) -> Box<[T]> {
    vec![T::default(); count].into_boxed_slice()
}
