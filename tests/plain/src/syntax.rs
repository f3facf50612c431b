//! What a section and a body say, as a tree.
//!
//! Names are document 01's. Nothing here has been judged.

use crate::refusal::Input;

/// The ten abstract heap types.
#[derive(Clone, Copy, Debug, PartialEq, Eq)]
pub enum Abstract {
    NoFunc,
    NoExtern,
    None,
    Func,
    Extern,
    Any,
    Eq,
    I31,
    Struct,
    Array,
}

#[derive(Clone, Copy, Debug, PartialEq, Eq)]
pub enum Heap {
    Abstract(Abstract),
    Defined(u32),
    Exact(u32),
}

#[derive(Clone, Copy, Debug, PartialEq, Eq)]
pub struct Reference {
    pub nullable: bool,
    pub heap: Heap,
}

#[derive(Clone, Copy, Debug, PartialEq, Eq)]
pub enum ValueType {
    I32,
    I64,
    F32,
    F64,
    Ref(Reference),
}

#[derive(Clone, Copy, Debug, PartialEq, Eq)]
pub struct Field {
    pub value: ValueType,
    pub mutable: bool,
}

#[derive(Clone, Debug, PartialEq, Eq)]
pub enum Form {
    Struct(Vec<Field>),
    Function { parameters: Vec<ValueType>, results: Vec<ValueType> },
}

#[derive(Clone, Debug, PartialEq, Eq)]
pub struct Definition {
    pub open: bool,
    pub supertypes: Vec<u32>,
    pub describes: Option<u32>,
    pub descriptor: Option<u32>,
    pub form: Form,
}

/// A definition with where its bytes lie and how far its numbers reach.
#[derive(Clone, Debug, PartialEq, Eq)]
pub struct Type {
    pub definition: Definition,
    /// The section that holds it; the places count in that one.
    pub input: Input,
    pub start: usize,
    pub end: usize,
    /// The count of types up to the end of its own group, the library's counted.
    pub reach: usize,
}

#[derive(Clone, Copy, Debug, PartialEq, Eq)]
pub struct BranchingCast {
    pub by_descriptor: bool,
    pub fail: bool,
    pub label: u32,
    pub source: Reference,
    pub target: Reference,
}

#[derive(Clone, Copy, Debug, PartialEq, Eq)]
pub enum Instruction {
    Unreachable,
    Nop,
    Block(Option<ValueType>),
    Loop(Option<ValueType>),
    End,
    Br(u32),
    BrIf(u32),
    Return,
    Drop,
    LocalGet(u32),
    LocalSet(u32),
    LocalTee(u32),
    I32Const(i32),
    I64Const(i64),
    /// A float is its bits.
    F32Const(u32),
    F64Const(u64),
    /// One of the codes of `numeric`.
    Numeric(u8),
    RefNull(Heap),
    RefIsNull,
    RefEq,
    RefAsNonNull,
    StructNew(u32),
    StructNewDefault(u32),
    StructGet(u32, u32),
    StructSet(u32, u32),
    RefTest(Reference),
    RefCast(Reference),
    BranchingCast(BranchingCast),
    StructNewDesc(u32),
    StructNewDefaultDesc(u32),
    RefGetDesc(u32),
    RefCastDescEq(Reference),
}

/// An instruction and the offset of its first byte.
#[derive(Clone, Copy, Debug, PartialEq, Eq)]
pub struct Placed {
    pub place: usize,
    pub instruction: Instruction,
}

impl Heap {
    /// The type number that is named, if one is.
    pub fn number(self) -> Option<u32> {
        match self {
            Heap::Abstract(_) => None,
            Heap::Defined(number) | Heap::Exact(number) => Some(number),
        }
    }
}

impl Reference {
    pub fn nullable(heap: Heap) -> Reference {
        Reference { nullable: true, heap }
    }

    pub fn non_null(heap: Heap) -> Reference {
        Reference { nullable: false, heap }
    }
}

impl ValueType {
    pub fn nullable(heap: Heap) -> ValueType {
        ValueType::Ref(Reference::nullable(heap))
    }

    pub fn non_null(heap: Heap) -> ValueType {
        ValueType::Ref(Reference::non_null(heap))
    }

    pub fn number(self) -> Option<u32> {
        match self {
            ValueType::Ref(reference) => reference.heap.number(),
            _ => None,
        }
    }

    /// Numbers start at zero and nullable references at null.
    pub fn has_default(self) -> bool {
        match self {
            ValueType::Ref(reference) => reference.nullable,
            _ => true,
        }
    }
}

impl Definition {
    /// The one supertype; asked only where rule 1 holds.
    pub fn supertype(&self) -> Option<u32> {
        self.supertypes.first().copied()
    }

    pub fn fields(&self) -> Option<&[Field]> {
        match &self.form {
            Form::Struct(fields) => Some(fields),
            Form::Function { .. } => None,
        }
    }

    /// Every type number that the definition names.
    pub fn numbers(&self) -> Vec<u32> {
        let mut numbers = self.supertypes.clone();
        numbers.extend(self.describes);
        numbers.extend(self.descriptor);
        numbers.extend(self.value_types().iter().filter_map(|value| value.number()));
        numbers
    }

    fn value_types(&self) -> Vec<ValueType> {
        match &self.form {
            Form::Struct(fields) => fields.iter().map(|field| field.value).collect(),
            Form::Function { parameters, results } => [&parameters[..], &results[..]].concat(),
        }
    }
}
