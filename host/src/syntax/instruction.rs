//! Instructions, and the parts of a body.

use super::{float, Heap, Numeric, Reference, ValueType};
use std::fmt;

#[derive(Clone, Copy, Debug, PartialEq, Eq)]
pub enum Instruction {
    /// One without immediates.
    Plain(Plain),
    Block(Option<ValueType>),
    Loop(Option<ValueType>),
    Br(u32),
    BrIf(u32),
    LocalGet(u32),
    LocalSet(u32),
    LocalTee(u32),
    Constant(i32),
    Constant64(i64),
    /// A float by its bits.
    Float32(u32),
    Float64(u64),
    Numeric(Numeric),
    Null(Heap),
    New(New),
    GetField(u32, u32),
    SetField(u32, u32),
    GetDescriptor(u32),
    Test(Reference),
    Cast(Reference),
    CastByDescriptor(Reference),
    BranchingCast(BranchingCast),
}

#[derive(Clone, Copy, Debug, PartialEq, Eq)]
pub enum Plain {
    Unreachable,
    Nop,
    End,
    Return,
    Drop,
    IsNull,
    Equal,
    AsNonNull,
}

/// Code and name.
pub const PLAIN: [(Plain, u8, &str); 8] = [
    (Plain::Unreachable, 0x00, "unreachable"),
    (Plain::Nop, 0x01, "nop"),
    (Plain::End, 0x0B, "end"),
    (Plain::Return, 0x0F, "return"),
    (Plain::Drop, 0x1A, "drop"),
    (Plain::IsNull, 0xD1, "ref.is_null"),
    (Plain::Equal, 0xD3, "ref.eq"),
    (Plain::AsNonNull, 0xD4, "ref.as_non_null"),
];

#[derive(Clone, Copy, Debug, PartialEq, Eq)]
pub struct New {
    pub number: u32,
    pub default: bool,
    pub by_descriptor: bool,
}

#[derive(Clone, Copy, Debug, PartialEq, Eq)]
pub struct BranchingCast {
    pub by_descriptor: bool,
    pub fail: bool,
    pub label: u32,
    pub source: Reference,
    pub target: Reference,
}

impl BranchingCast {
    /// The source, not null where the target may be null.
    pub fn rest(&self) -> Reference {
        let nullable = self.source.nullable && !self.target.nullable;
        Reference { nullable, heap: self.source.heap }
    }

    /// What goes to the label.
    pub fn carried(&self) -> Reference {
        if self.fail {
            self.rest()
        } else {
            self.target
        }
    }

    pub fn fallen_through(&self) -> Reference {
        if self.fail {
            self.target
        } else {
            self.rest()
        }
    }
}

impl Instruction {
    /// The type numbers that are named.
    pub fn numbers(&self) -> Vec<u32> {
        match *self {
            Instruction::Block(value) | Instruction::Loop(value) => {
                value.and_then(ValueType::number).into_iter().collect()
            }
            Instruction::Null(heap) => heap.number().into_iter().collect(),
            Instruction::New(New { number, .. })
            | Instruction::GetField(number, _)
            | Instruction::SetField(number, _)
            | Instruction::GetDescriptor(number) => vec![number],
            Instruction::Test(target)
            | Instruction::Cast(target)
            | Instruction::CastByDescriptor(target) => target.heap.number().into_iter().collect(),
            Instruction::BranchingCast(cast) => {
                [cast.source, cast.target].iter().filter_map(|side| side.heap.number()).collect()
            }
            _ => Vec::new(),
        }
    }

    /// Its name alone, without immediates.
    pub fn name(&self) -> &'static str {
        match self {
            Instruction::Plain(plain) => PLAIN[*plain as usize].2,
            Instruction::Block(_) => "block",
            Instruction::Loop(_) => "loop",
            Instruction::Br(_) => "br",
            Instruction::BrIf(_) => "br_if",
            Instruction::LocalGet(_) => "local.get",
            Instruction::LocalSet(_) => "local.set",
            Instruction::LocalTee(_) => "local.tee",
            Instruction::Constant(_) => "i32.const",
            Instruction::Constant64(_) => "i64.const",
            Instruction::Float32(_) => "f32.const",
            Instruction::Float64(_) => "f64.const",
            Instruction::Numeric(numeric) => numeric.name(),
            Instruction::Null(_) => "ref.null",
            Instruction::New(New { default: false, by_descriptor: false, .. }) => "struct.new",
            Instruction::New(New { default: true, by_descriptor: false, .. }) => {
                "struct.new_default"
            }
            Instruction::New(New { default: false, by_descriptor: true, .. }) => "struct.new_desc",
            Instruction::New(New { default: true, by_descriptor: true, .. }) => {
                "struct.new_default_desc"
            }
            Instruction::GetField(..) => "struct.get",
            Instruction::SetField(..) => "struct.set",
            Instruction::GetDescriptor(_) => "ref.get_desc",
            Instruction::Test(_) => "ref.test",
            Instruction::Cast(_) => "ref.cast",
            Instruction::CastByDescriptor(_) => "ref.cast_desc_eq",
            Instruction::BranchingCast(cast) => match (cast.by_descriptor, cast.fail) {
                (false, false) => "br_on_cast",
                (false, true) => "br_on_cast_fail",
                (true, false) => "br_on_cast_desc_eq",
                (true, true) => "br_on_cast_desc_eq_fail",
            },
        }
    }
}

/// So many locals of a type, or an instruction.
#[derive(Clone, Debug, PartialEq, Eq)]
pub enum Item {
    /// How many entries the list of locals has.
    Entries(u32),
    Locals(u32, ValueType),
    Instruction(Instruction),
}

fn result(value: &Option<ValueType>) -> String {
    value.map_or(String::new(), |value| format!(" (result {value})"))
}

impl fmt::Display for Instruction {
    fn fmt(&self, to: &mut fmt::Formatter) -> fmt::Result {
        write!(to, "{}", self.name())?;
        match self {
            Instruction::Plain(_) | Instruction::Numeric(_) => Ok(()),
            Instruction::Block(value) | Instruction::Loop(value) => {
                write!(to, "{}", result(value))
            }
            Instruction::Constant(value) => write!(to, " {value}"),
            Instruction::Constant64(value) => write!(to, " {value}"),
            Instruction::Float32(bits) => write!(to, " {}", float::F32.text(u64::from(*bits))),
            Instruction::Float64(bits) => write!(to, " {}", float::F64.text(*bits)),
            Instruction::Null(heap) => write!(to, " {heap}"),
            Instruction::Br(number)
            | Instruction::BrIf(number)
            | Instruction::LocalGet(number)
            | Instruction::LocalSet(number)
            | Instruction::LocalTee(number)
            | Instruction::New(New { number, .. })
            | Instruction::GetDescriptor(number) => write!(to, " {number}"),
            Instruction::GetField(number, field) | Instruction::SetField(number, field) => {
                write!(to, " {number} {field}")
            }
            Instruction::Test(target)
            | Instruction::Cast(target)
            | Instruction::CastByDescriptor(target) => write!(to, " {target}"),
            Instruction::BranchingCast(cast) => {
                write!(to, " {} {} {}", cast.label, cast.source, cast.target)
            }
        }
    }
}

impl fmt::Display for Item {
    fn fmt(&self, to: &mut fmt::Formatter) -> fmt::Result {
        match self {
            Item::Entries(count) => write!(to, "entries of locals: {count}"),
            Item::Locals(count, value) => write!(to, "{count} of {value}"),
            Item::Instruction(instruction) => write!(to, "{instruction}"),
        }
    }
}
