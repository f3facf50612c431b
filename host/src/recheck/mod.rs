//! The rules of documents 01 and 02 asked once more, in plain Rust, to find a refusal's one cause. The loader's verdict is the
//! one told: a cause is used only where its number, place and input are the loader's.

pub mod body;
mod clauses;
mod effects;
mod joined;
mod matching;
mod operands;
mod order;
mod rules;
pub mod section;
mod stack;

use crate::read::Fault;
use chelbugan::{Input, Refusal};
use std::ops::Range;

pub use joined::Joined;
pub use stack::{Operand, Wanted};

/// The greatest library, section or body.
pub const INPUT_BYTES: usize = 32_768;

/// A refusal with what brought it about.
#[derive(Debug)]
pub struct Cause {
    pub refusal: Refusal,
    /// A sentence without its full stop.
    pub words: String,
    /// Other parts that the sentence speaks of.
    pub shown: Vec<Shown>,
    /// What an instruction takes and finds, where that is the cause.
    pub operands: Option<Box<Operands>>,
    /// Of 31: where in the body ref.as_non_null would mend it.
    pub non_null_at: Option<usize>,
}

/// Bytes of an input with what they say.
#[derive(Debug)]
pub struct Shown {
    pub of: Holder,
    pub bytes: Range<usize>,
    pub text: String,
}

/// Which input bytes lie in.
#[derive(Clone, Copy, Debug, PartialEq, Eq)]
pub enum Holder {
    Section(Input),
    Body,
}

/// Bottom first, of the innermost frame alone.
#[derive(Debug)]
pub struct Operands {
    pub wanted: Vec<Wanted>,
    pub there: Vec<Operand>,
    /// Below them lie unknowns.
    pub unreachable: bool,
}

impl Cause {
    /// At a type's number, or at a place in a body.
    pub fn new(number: u64, place: usize, words: impl Into<String>) -> Cause {
        let refusal = Refusal { number, place: place as u64, input: None };
        Cause { refusal, words: words.into(), shown: Vec::new(), operands: None, non_null_at: None }
    }

    /// At a byte of a section.
    pub fn at_byte(input: Input, fault: Fault) -> Cause {
        let mut cause = Cause::new(fault.number, fault.place, fault.why);
        cause.refusal.input = Some(input);
        cause
    }

    pub fn showing(mut self, of: Holder, bytes: &Range<usize>, text: impl Into<String>) -> Cause {
        self.shown.push(Shown { of, bytes: bytes.clone(), text: text.into() });
        self
    }
}

/// "1 field", "2 fields".
pub fn counted(count: usize, word: &str) -> String {
    match count {
        1 => format!("1 {word}"),
        _ => format!("{count} {word}s"),
    }
}
