//! What a section and a body say, in document 01's names, and its words in WebAssembly's text. Nothing here is judged.

pub mod float;
mod instruction;
pub mod listed;
mod numeric;
pub mod others;

pub use instruction::{BranchingCast, Instruction, Item, New, Plain, PLAIN};
pub use numeric::Numeric;

use chelbugan::Input;
use std::fmt;
use std::ops::Range;

/// The ten abstract heap types.
#[derive(Clone, Copy, Debug, PartialEq, Eq)]
pub enum Abstract {
    NoFunc,
    NoExtern,
    None,
    Func,
    Extern,
    Any,
    Eq,
    I31,
    Struct,
    Array,
}

/// Code, name, and the name of its nullable reference, which the code alone is.
pub const ABSTRACT: [(Abstract, u8, &str, &str); 10] = [
    (Abstract::NoFunc, 0x73, "nofunc", "nullfuncref"),
    (Abstract::NoExtern, 0x72, "noextern", "nullexternref"),
    (Abstract::None, 0x71, "none", "nullref"),
    (Abstract::Func, 0x70, "func", "funcref"),
    (Abstract::Extern, 0x6F, "extern", "externref"),
    (Abstract::Any, 0x6E, "any", "anyref"),
    (Abstract::Eq, 0x6D, "eq", "eqref"),
    (Abstract::I31, 0x6C, "i31", "i31ref"),
    (Abstract::Struct, 0x6B, "struct", "structref"),
    (Abstract::Array, 0x6A, "array", "arrayref"),
];

impl Abstract {
    pub fn of_code(code: u8) -> Option<Abstract> {
        ABSTRACT.iter().find(|row| row.1 == code).map(|row| row.0)
    }

    pub fn code(self) -> u8 {
        ABSTRACT[self as usize].1
    }

    pub fn name(self) -> &'static str {
        ABSTRACT[self as usize].2
    }

    pub fn short(self) -> &'static str {
        ABSTRACT[self as usize].3
    }
}

#[derive(Clone, Copy, Debug, PartialEq, Eq)]
pub enum Heap {
    Abstract(Abstract),
    Defined(u32),
    Exact(u32),
}

impl Heap {
    /// The type number that is named, if one is.
    pub fn number(self) -> Option<u32> {
        match self {
            Heap::Abstract(_) => None,
            Heap::Defined(number) | Heap::Exact(number) => Some(number),
        }
    }
}

#[derive(Clone, Copy, Debug, PartialEq, Eq)]
pub struct Reference {
    pub nullable: bool,
    pub heap: Heap,
}

#[derive(Clone, Copy, Debug, PartialEq, Eq)]
pub enum ValueType {
    I32,
    I64,
    F32,
    F64,
    Ref(Reference),
}

/// The number types with their codes.
pub const NUMBERS: [(ValueType, u8, &str); 4] = [
    (ValueType::I32, 0x7F, "i32"),
    (ValueType::I64, 0x7E, "i64"),
    (ValueType::F32, 0x7D, "f32"),
    (ValueType::F64, 0x7C, "f64"),
];

impl ValueType {
    pub fn nullable(heap: Heap) -> ValueType {
        ValueType::Ref(Reference { nullable: true, heap })
    }

    pub fn non_null(heap: Heap) -> ValueType {
        ValueType::Ref(Reference { nullable: false, heap })
    }

    pub fn number(self) -> Option<u32> {
        match self {
            ValueType::Ref(reference) => reference.heap.number(),
            _ => None,
        }
    }

    /// Zero or null; a reference that is not null has none.
    pub fn has_default(self) -> bool {
        !matches!(self, ValueType::Ref(Reference { nullable: false, .. }))
    }
}

#[derive(Clone, Copy, Debug, PartialEq, Eq)]
pub struct Field {
    pub mutable: bool,
    pub value: ValueType,
}

/// A part of the input, and where its bytes lie.
#[derive(Clone, Debug, PartialEq, Eq)]
pub struct Placed<T> {
    pub bytes: Range<usize>,
    pub what: T,
}

#[derive(Clone, Debug)]
pub enum Form {
    Struct(Vec<Placed<Field>>),
    Function { parameters: Vec<Placed<ValueType>>, results: Vec<Placed<ValueType>> },
}

/// A definition with where its parts lie and how far its numbers reach.
#[derive(Clone, Debug)]
pub struct Type {
    /// The section that holds it; all its places are offsets there.
    pub input: Input,
    pub bytes: Range<usize>,
    /// 50 or 4F with the supertypes; none where neither stands.
    pub front: Option<Placed<Front>>,
    pub describes: Option<Placed<u32>>,
    pub descriptor: Option<Placed<u32>>,
    /// 5F or 60 with the count of fields or parameters.
    pub head: Range<usize>,
    /// The count of results; empty for a struct.
    pub results_head: Range<usize>,
    pub form: Form,
    /// The count of types up to the end of its own group, the library's among them.
    pub reach: usize,
}

#[derive(Clone, Debug, PartialEq, Eq)]
pub struct Front {
    pub open: bool,
    pub supertypes: Vec<u32>,
}

impl Type {
    pub fn is_open(&self) -> bool {
        self.front.as_ref().is_some_and(|front| front.what.open)
    }

    pub fn supertypes(&self) -> &[u32] {
        self.front.as_ref().map_or(&[], |front| &front.what.supertypes)
    }

    /// The one supertype; asked only where rule 1 holds.
    pub fn supertype(&self) -> Option<u32> {
        self.supertypes().first().copied()
    }

    pub fn descriptor(&self) -> Option<u32> {
        self.descriptor.as_ref().map(|clause| clause.what)
    }

    pub fn describes(&self) -> Option<u32> {
        self.describes.as_ref().map(|clause| clause.what)
    }

    pub fn fields(&self) -> Option<&[Placed<Field>]> {
        match &self.form {
            Form::Struct(fields) => Some(fields),
            Form::Function { .. } => None,
        }
    }
}

impl fmt::Display for Heap {
    fn fmt(&self, to: &mut fmt::Formatter) -> fmt::Result {
        match self {
            Heap::Abstract(heap) => write!(to, "{}", heap.name()),
            Heap::Defined(number) => write!(to, "{number}"),
            Heap::Exact(number) => write!(to, "(exact {number})"),
        }
    }
}

impl fmt::Display for Reference {
    fn fmt(&self, to: &mut fmt::Formatter) -> fmt::Result {
        match self.nullable {
            true => write!(to, "(ref null {})", self.heap),
            false => write!(to, "(ref {})", self.heap),
        }
    }
}

impl fmt::Display for ValueType {
    fn fmt(&self, to: &mut fmt::Formatter) -> fmt::Result {
        match self {
            ValueType::Ref(reference) => write!(to, "{reference}"),
            number => {
                let row = NUMBERS.iter().find(|row| row.0 == *number);
                write!(to, "{}", row.map_or("", |row| row.2))
            }
        }
    }
}

/// Supertypes that are named; one is the most that the rules allow.
const NAMED: usize = 8;

impl fmt::Display for Front {
    fn fmt(&self, to: &mut fmt::Formatter) -> fmt::Result {
        write!(to, "{}", if self.open { "open" } else { "final" })?;
        for number in self.supertypes.iter().take(NAMED) {
            write!(to, ", supertype {number}")?;
        }
        match self.supertypes.len().saturating_sub(NAMED) {
            0 => Ok(()),
            more => write!(to, " and {more} more"),
        }
    }
}

impl fmt::Display for Field {
    fn fmt(&self, to: &mut fmt::Formatter) -> fmt::Result {
        match self.mutable {
            true => write!(to, "(mut {})", self.value),
            false => write!(to, "{}", self.value),
        }
    }
}
