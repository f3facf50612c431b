//! Refusals: a number of the paper's table, a place, and in which input the place lies.
//!
//! A place is a byte offset, or a type's number for the rules of a section.

/// The two sections that types come from. The library's types have the first numbers.
#[derive(Clone, Copy, Debug, PartialEq, Eq, PartialOrd, Ord)]
pub enum Input {
    Library,
    Addon,
}

#[derive(Clone, Copy, Debug, PartialEq, Eq)]
pub struct Refusal {
    pub number: u32,
    pub place: usize,
    /// Of a byte of one of the two sections. None for a type's number, a place in a body
    /// and the 0 of what is asked for.
    pub input: Option<Input>,
}

impl Refusal {
    /// The same, at a byte of this section.
    pub fn of(self, input: Input) -> Refusal {
        Refusal { input: Some(input), ..self }
    }
}

/// A refusal of an instruction before its place is put on it.
pub type Number = u32;

pub const BYTES_END: Number = 1;
pub const NUMBER_TOO_LONG: Number = 2;
pub const NOT_LISTED: Number = 3;
pub const SIZE_EXCEEDED: Number = 4;
pub const BYTES_LEFT_OVER: Number = 5;
pub const OUT_OF_REACH: Number = 6;
pub const SUPERTYPE_RULE_1: Number = 7;
pub const SUPERTYPE_RULE_2: Number = 8;
pub const CLAUSE_NOT_ON_STRUCT: Number = 9;
pub const DESCRIBES_NOT_EARLIER: Number = 10;
pub const CLAUSES_DISAGREE: Number = 11;
pub const RULE_4: Number = 12;
pub const RULE_5: Number = 13;
pub const OPERAND: Number = 20;
pub const LABEL_OR_LOCAL_ABSENT: Number = 21;
pub const LOCAL_NOT_SET: Number = 22;
pub const STRUCT_FIELD_DESCRIPTOR: Number = 23;
pub const FIELD_FIXED: Number = 24;
pub const BRANCHING_CAST: Number = 25;
pub const NOT_A_FUNCTION: Number = 27;
pub const VALUES_LEFT: Number = 28;
pub const NO_DEFAULT: Number = 29;
pub const ONLY_NULL: Number = 31;
pub const NUMBER_PADDED: Number = 32;

pub fn refuse<T>(number: Number, place: usize) -> Result<T, Refusal> {
    Err(Refusal { number, place, input: None })
}
