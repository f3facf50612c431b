//! The table that an accepted library and section leave, read as docs/LAYOUT.md draws it.

use crate::calls;
use crate::refusal::Input;
use crate::value_types::{field_of, value_of};
pub use crate::value_types::{Abstract, Field, Heap, Number, ValueType};
use alloc::vec::Vec;
use core::fmt;

const ROW_WORDS: usize = 16;

const FORM: usize = 0;
const FIELDS: usize = 1;
const RESULTS: usize = 2;
const OPEN: usize = 3;
const SUPERTYPE: usize = 4;
const DESCRIBES: usize = 5;
const DESCRIPTOR: usize = 6;
const FROM: usize = 7;
const TO: usize = 8;
const CODE: usize = 10;

const STRUCT: u16 = 1;

/// From this first code on, a row's codes lie in `shared`, at this much less: the places of `codes` end before it.
const IN_SHARED: usize = calls::CODES;

/// What a definition defines.
#[derive(Clone, Copy, Debug, PartialEq, Eq, Hash)]
pub enum Form {
    /// A struct.
    Struct,
    /// A function type.
    Function,
}

/// The types of an accepted library, then those of the section after it.
pub struct Table<'a> {
    count: usize,
    rows: &'a [u16],
    shared: &'a [u16],
    codes: &'a [u16],
}

/// A type: what a row of the table says.
pub struct Row<'a> {
    words: &'a [u16],
    shared: &'a [u16],
    codes: &'a [u16],
}

impl<'a> Table<'a> {
    pub(crate) fn new(
        count: usize,
        rows: &'a [u16],
        shared: &'a [u16],
        codes: &'a [u16],
    ) -> Table<'a> {
        Table { count, rows, shared, codes }
    }

    /// How many types there are.
    pub fn count(&self) -> usize {
        self.count
    }

    /// By number.
    pub fn rows(&self) -> impl Iterator<Item = Row<'a>> + '_ {
        let rows = self.rows.chunks(ROW_WORDS).take(self.count);
        rows.map(|words| Row { words, shared: self.shared, codes: self.codes })
    }

    /// The type of a number, if there is one.
    pub fn row(&self, number: u64) -> Option<Row<'a>> {
        let number = usize::try_from(number).ok()?;
        self.rows().nth(number)
    }
}

impl Row<'_> {
    /// Struct or function.
    pub fn form(&self) -> Form {
        match self.is_struct() {
            true => Form::Struct,
            false => Form::Function,
        }
    }

    /// A struct; else it is a function.
    pub fn is_struct(&self) -> bool {
        self.words[FORM] == STRUCT
    }

    /// Open for subtypes; else it is final.
    pub fn is_open(&self) -> bool {
        self.words[OPEN] == 1
    }

    /// The number of its supertype.
    pub fn supertype(&self) -> Option<u16> {
        self.number(SUPERTYPE)
    }

    /// The number of the type that it describes.
    pub fn describes(&self) -> Option<u16> {
        self.number(DESCRIBES)
    }

    /// The number of its descriptor.
    pub fn descriptor(&self) -> Option<u16> {
        self.number(DESCRIPTOR)
    }

    /// Which of the two sections holds it.
    pub fn input(&self) -> Input {
        match self.words[CODE] as usize >= IN_SHARED {
            true => Input::Library,
            false => Input::Addon,
        }
    }

    /// Where the definition's bytes lie in the section that holds it.
    pub fn bytes(&self) -> core::ops::Range<usize> {
        self.words[FROM] as usize..self.words[TO] as usize
    }

    /// A struct's fields; a function has none.
    pub fn fields(&self) -> Vec<Field> {
        let count = if self.is_struct() { self.words[FIELDS] as usize } else { 0 };
        self.codes_from(0, count).iter().map(|&code| field_of(code)).collect()
    }

    /// A function's parameters; a struct has none.
    pub fn parameters(&self) -> Vec<ValueType> {
        let count = if self.is_struct() { 0 } else { self.words[FIELDS] as usize };
        self.codes_from(0, count).iter().map(|&code| value_of(code)).collect()
    }

    /// A function's results; a struct has none.
    pub fn results(&self) -> Vec<ValueType> {
        let parameters = self.words[FIELDS] as usize;
        let count = self.words[RESULTS] as usize;
        self.codes_from(parameters, count).iter().map(|&code| value_of(code)).collect()
    }

    fn codes_from(&self, skipped: usize, count: usize) -> &[u16] {
        let (codes, begin) = match self.input() {
            Input::Library => (self.shared, self.words[CODE] as usize - IN_SHARED),
            Input::Addon => (self.codes, self.words[CODE] as usize),
        };
        let first = begin + skipped;
        &codes[first..first + count]
    }

    /// 0 is none, else one more than the number.
    fn number(&self, word: usize) -> Option<u16> {
        self.words[word].checked_sub(1)
    }
}

impl fmt::Debug for Table<'_> {
    fn fmt(&self, to: &mut fmt::Formatter) -> fmt::Result {
        to.debug_list().entries(self.rows()).finish()
    }
}

impl fmt::Debug for Row<'_> {
    fn fmt(&self, to: &mut fmt::Formatter) -> fmt::Result {
        let mut row = to.debug_struct("Row");
        match self.form() {
            Form::Struct => row.field("fields", &self.fields()),
            Form::Function => {
                row.field("parameters", &self.parameters()).field("results", &self.results())
            }
        };
        row.field("open", &self.is_open())
            .field("supertype", &self.supertype())
            .field("describes", &self.describes())
            .field("descriptor", &self.descriptor())
            .field("bytes", &self.bytes())
            .field("input", &self.input())
            .finish()
    }
}
