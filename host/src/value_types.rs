//! Types of values and fields, and the codes that a table has for them (docs/LAYOUT.md).

use core::fmt;

/// An abstract heap type.
#[derive(Clone, Copy, Debug, PartialEq, Eq, Hash)]
pub enum Abstract {
    /// Byte 73.
    NoFunc,
    /// Byte 72.
    NoExtern,
    /// Byte 71.
    None,
    /// Byte 70.
    Func,
    /// Byte 6F.
    Extern,
    /// Byte 6E.
    Any,
    /// Byte 6D.
    Eq,
    /// Byte 6C.
    I31,
    /// Byte 6B.
    Struct,
    /// Byte 6A.
    Array,
}

impl Abstract {
    /// By their codes, 0 to 9.
    pub const ALL: [Abstract; 10] = [
        Abstract::NoFunc,
        Abstract::NoExtern,
        Abstract::None,
        Abstract::Func,
        Abstract::Extern,
        Abstract::Any,
        Abstract::Eq,
        Abstract::I31,
        Abstract::Struct,
        Abstract::Array,
    ];

    /// As document 01 writes it.
    pub const fn name(self) -> &'static str {
        match self {
            Abstract::NoFunc => "nofunc",
            Abstract::NoExtern => "noextern",
            Abstract::None => "none",
            Abstract::Func => "func",
            Abstract::Extern => "extern",
            Abstract::Any => "any",
            Abstract::Eq => "eq",
            Abstract::I31 => "i31",
            Abstract::Struct => "struct",
            Abstract::Array => "array",
        }
    }
}

/// A number type.
#[derive(Clone, Copy, Debug, PartialEq, Eq, Hash)]
pub enum Number {
    /// Byte 7F.
    I32,
    /// Byte 7E.
    I64,
    /// Byte 7D.
    F32,
    /// Byte 7C.
    F64,
}

impl Number {
    /// By their codes, 0 to 3.
    pub const ALL: [Number; 4] = [Number::I32, Number::I64, Number::F32, Number::F64];

    /// As document 01 writes it.
    pub const fn name(self) -> &'static str {
        match self {
            Number::I32 => "i32",
            Number::I64 => "i64",
            Number::F32 => "f32",
            Number::F64 => "f64",
        }
    }
}

/// A heap type.
#[derive(Clone, Copy, Debug, PartialEq, Eq, Hash)]
pub enum Heap {
    /// One of the ten.
    Abstract(Abstract),
    /// The type of a number, or one below it.
    Defined(u32),
    /// The type of a number and no other.
    Exact(u32),
}

/// A value type.
#[derive(Clone, Copy, Debug, PartialEq, Eq, Hash)]
pub enum ValueType {
    /// A number.
    Number(Number),
    /// A reference.
    Reference {
        /// It may be null.
        nullable: bool,
        /// What it leads to.
        heap: Heap,
    },
}

impl ValueType {
    /// Zero or null; a reference that is not null has none.
    pub fn has_default(&self) -> bool {
        !matches!(self, ValueType::Reference { nullable: false, .. })
    }
}

/// A field of a struct.
#[derive(Clone, Copy, Debug, PartialEq, Eq, Hash)]
pub struct Field {
    /// It may be set; else it is fixed.
    pub mutable: bool,
    /// The type of its values.
    pub value: ValueType,
}

pub(crate) fn field_of(code: u16) -> Field {
    Field { mutable: code % 2 == 1, value: value_of(code / 2) }
}

pub(crate) fn value_of(code: u16) -> ValueType {
    match Number::ALL.get(usize::from(code)) {
        Some(&number) => ValueType::Number(number),
        None => ValueType::Reference { nullable: code % 2 == 1, heap: heap_of((code - 4) / 2) },
    }
}

fn heap_of(code: u16) -> Heap {
    match Abstract::ALL.get(usize::from(code)) {
        Some(&heap) => Heap::Abstract(heap),
        None if code.is_multiple_of(2) => Heap::Defined(u32::from(code - 10) / 2),
        None => Heap::Exact(u32::from(code - 11) / 2),
    }
}

impl fmt::Display for Abstract {
    fn fmt(&self, to: &mut fmt::Formatter) -> fmt::Result {
        to.pad(self.name())
    }
}

impl fmt::Display for Number {
    fn fmt(&self, to: &mut fmt::Formatter) -> fmt::Result {
        to.pad(self.name())
    }
}

impl fmt::Display for Heap {
    fn fmt(&self, to: &mut fmt::Formatter) -> fmt::Result {
        match self {
            Heap::Abstract(heap) => write!(to, "{heap}"),
            Heap::Defined(number) => write!(to, "{number}"),
            Heap::Exact(number) => write!(to, "(exact {number})"),
        }
    }
}

impl fmt::Display for ValueType {
    fn fmt(&self, to: &mut fmt::Formatter) -> fmt::Result {
        match self {
            ValueType::Number(number) => write!(to, "{number}"),
            ValueType::Reference { nullable: true, heap } => write!(to, "(ref null {heap})"),
            ValueType::Reference { nullable: false, heap } => write!(to, "(ref {heap})"),
        }
    }
}

impl fmt::Display for Field {
    fn fmt(&self, to: &mut fmt::Formatter) -> fmt::Result {
        match self.mutable {
            true => write!(to, "(mut {})", self.value),
            false => write!(to, "{}", self.value),
        }
    }
}
