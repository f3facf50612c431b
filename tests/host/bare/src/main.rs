//! A host as a flight computer has it: no standard library, no allocator, memory of its own. Its exit status is 0 where every
//! answer is as wanted, else the number of the first that is not.

#![no_std]
#![no_main]

use chelbugan::calls::{self, RunMemory};
use chelbugan::{Ended, Refusal, EMPTY_LIBRARY};
use core::fmt::{self, Write};

/// Type 0: a function that gives an i32.
const SECTION: [u8; 5] = [0x01, 0x60, 0x00, 0x01, 0x7F];

/// No locals; i32.const 7, end.
const BODY: [u8; 4] = [0x00, 0x41, 0x07, 0x0B];

/// Its clauses disagree: 11, type 1.
const DISAGREE: [u8; 13] =
    [0x01, 0x4E, 0x03, 0x5F, 0x00, 0x4D, 0x02, 0x5F, 0x00, 0x4C, 0x00, 0x5F, 0x00];

// memset, and what starts a program here.
#[link(name = "c")]
extern "C" {}

#[panic_handler]
fn panicked(_: &core::panic::PanicInfo) -> ! {
    loop {}
}

/// Words put one after the other; what does not fit is an error.
struct Line {
    bytes: [u8; 80],
    length: usize,
}

impl Write for Line {
    fn write_str(&mut self, words: &str) -> fmt::Result {
        let room = self.bytes.get_mut(self.length..self.length + words.len()).ok_or(fmt::Error)?;
        room.copy_from_slice(words.as_bytes());
        self.length += words.len();
        Ok(())
    }
}

fn says(value: &dyn fmt::Display, wanted: &str) -> bool {
    let mut line = Line { bytes: [0; 80], length: 0 };
    write!(line, "{value}").is_ok() && &line.bytes[..line.length] == wanted.as_bytes()
}

/// Each call with memory that lies on the stack.
fn answers() -> [bool; 5] {
    let mut memory = RunMemory {
        rows: &mut [0; calls::ROWS],
        shared: &mut [0; calls::SHARED],
        codes: &mut [0; calls::CODES],
        work: &mut [0; calls::WORK],
        ends: &mut [0; calls::ENDS],
        counts: &mut [0; calls::COUNTS],
        objects: &mut [0; calls::OBJECTS],
        cells: &mut [0; calls::CELLS],
        locals: &mut [0; calls::LOCALS],
        operands: &mut [0; calls::OPERANDS],
        blocks: &mut [0; calls::BLOCKS],
    };
    let run = calls::try_run(EMPTY_LIBRARY, &SECTION, &BODY, 0, 1_000, &mut memory);
    let result = memory.operands[1];
    let RunMemory { rows, shared, codes, work, .. } = memory;
    let types = calls::judge_section(EMPTY_LIBRARY, &SECTION, rows, shared, codes);
    let refused = calls::judge_section(EMPTY_LIBRARY, &DISAGREE, rows, shared, codes);
    let asked = calls::ask_type(EMPTY_LIBRARY, &SECTION, 0, rows, shared, codes);
    let body = calls::judge_body(EMPTY_LIBRARY, &SECTION, &BODY, 0, rows, shared, codes, work);
    [
        types == Ok(1) && asked.is_ok_and(|bytes| (bytes.from, bytes.to) == (1, 5)),
        body == Ok(2),
        run == Ok(Ended::Done { steps: 2, results: 1 }) && result == 7,
        refused == Err(Refusal { number: 11, place: 1, input: None }),
        refused.is_err_and(|refusal| says(&refusal, "refusal 11 at 1: clauses disagree"))
            && run.is_ok_and(|ended| says(&ended, "done after 2 steps, results: 1")),
    ]
}

#[no_mangle]
pub extern "C" fn main() -> i32 {
    answers().iter().position(|&answer| !answer).map_or(0, |first| first as i32 + 1)
}
