//! The calls on bodies and runs with every pointer of the caller's own, the answer's too, as a host in C makes them.

use crate::compare::Answer;
use chelbugan::calls::RunMemory;
use chelbugan::Input;

extern "C" {
    fn chelbugan_judge_body(
        library: *const u8,
        library_len: usize,
        section: *const u8,
        section_len: usize,
        body: *const u8,
        body_len: usize,
        number: u64,
        rows: *mut u16,
        rows_len: usize,
        shared: *mut u16,
        shared_len: usize,
        codes: *mut u16,
        codes_len: usize,
        work: *mut u32,
        work_len: usize,
        answer: *mut u64,
    ) -> u64;

    fn chelbugan_try_run(
        library: *const u8,
        library_len: usize,
        section: *const u8,
        section_len: usize,
        body: *const u8,
        body_len: usize,
        number: u64,
        budget: u64,
        rows: *mut u16,
        rows_len: usize,
        shared: *mut u16,
        shared_len: usize,
        codes: *mut u16,
        codes_len: usize,
        work: *mut u32,
        work_len: usize,
        ends: *mut u16,
        ends_len: usize,
        counts: *mut u64,
        counts_len: usize,
        objects: *mut u16,
        objects_len: usize,
        cells: *mut u64,
        cells_len: usize,
        locals: *mut u64,
        locals_len: usize,
        operands: *mut u64,
        operands_len: usize,
        blocks: *mut u16,
        blocks_len: usize,
        answer: *mut u64,
    ) -> u64;
}

/// The words of an answer.
pub const WORDS: usize = 4;

/// What is handed in.
pub struct Handed<'a> {
    pub library: &'a [u8],
    pub section: &'a [u8],
    pub body: &'a [u8],
    pub number: u64,
    pub rows: &'a mut [u16],
    pub shared: &'a mut [u16],
    pub codes: &'a mut [u16],
    pub work: &'a mut [u32],
    /// Four words.
    pub answer: &'a mut [u64],
}

/// The number returned, and the answer that it and the four words tell.
pub fn judge_body(handed: &mut Handed) -> (u64, Answer) {
    assert_eq!(handed.answer.len(), WORDS);
    // SAFETY: each pointer and length is one slice's, and the answer has its four words.
    let kind = unsafe {
        chelbugan_judge_body(
            handed.library.as_ptr(),
            handed.library.len(),
            handed.section.as_ptr(),
            handed.section.len(),
            handed.body.as_ptr(),
            handed.body.len(),
            handed.number,
            handed.rows.as_mut_ptr(),
            handed.rows.len(),
            handed.shared.as_mut_ptr(),
            handed.shared.len(),
            handed.codes.as_mut_ptr(),
            handed.codes.len(),
            handed.work.as_mut_ptr(),
            handed.work.len(),
            handed.answer.as_mut_ptr(),
        )
    };
    match kind {
        0 => (kind, refused(handed.answer)),
        _ => (kind, Answer::Count(handed.answer[0])),
    }
}

/// What is handed in for a run.
pub struct HandedRun<'a> {
    pub library: &'a [u8],
    pub section: &'a [u8],
    pub body: &'a [u8],
    pub number: u64,
    pub budget: u64,
    pub memory: RunMemory<'a>,
    /// Four words.
    pub answer: &'a mut [u64],
}

/// The number returned, and the answer that it and the four words tell.
pub fn try_run(handed: &mut HandedRun) -> (u64, Answer) {
    let HandedRun { library, section, body, number, budget, memory, answer } = handed;
    assert_eq!(answer.len(), WORDS);
    // SAFETY: as above.
    let kind = unsafe {
        chelbugan_try_run(
            library.as_ptr(),
            library.len(),
            section.as_ptr(),
            section.len(),
            body.as_ptr(),
            body.len(),
            *number,
            *budget,
            memory.rows.as_mut_ptr(),
            memory.rows.len(),
            memory.shared.as_mut_ptr(),
            memory.shared.len(),
            memory.codes.as_mut_ptr(),
            memory.codes.len(),
            memory.work.as_mut_ptr(),
            memory.work.len(),
            memory.ends.as_mut_ptr(),
            memory.ends.len(),
            memory.counts.as_mut_ptr(),
            memory.counts.len(),
            memory.objects.as_mut_ptr(),
            memory.objects.len(),
            memory.cells.as_mut_ptr(),
            memory.cells.len(),
            memory.locals.as_mut_ptr(),
            memory.locals.len(),
            memory.operands.as_mut_ptr(),
            memory.operands.len(),
            memory.blocks.as_mut_ptr(),
            memory.blocks.len(),
            answer.as_mut_ptr(),
        )
    };
    let told = match kind {
        0 => refused(answer),
        1 => Answer::Done(answer[0], answer[1]),
        2 => Answer::Trap(answer[0], answer[1], answer[2]),
        _ => Answer::Spent(answer[0]),
    };
    (kind, told)
}

/// Number, place, and of which section the place is a byte.
fn refused(answer: &[u64]) -> Answer {
    let input = match answer[2] {
        0 => None,
        1 => Some(Input::Library),
        2 => Some(Input::Addon),
        other => panic!("{other} is no input"),
    };
    Answer::No(answer[0], answer[1], input)
}
