//! What each instruction takes, and what it gives.

use super::body::Check;
use super::order::top_of;
use super::Wanted;
use crate::syntax::{Abstract, BranchingCast, Heap, Instruction, New, Plain, Reference, ValueType};

impl Check<'_> {
    fn label_types(&self, label: u32) -> Vec<ValueType> {
        let frame = self.frames.iter().rev().nth(label as usize);
        frame.map_or(Vec::new(), |frame| frame.label.clone())
    }

    /// (ref null y), exact y where the target is exact.
    fn descriptor_for(&self, target: Reference) -> Option<ValueType> {
        let descriptor = self.descriptor(target.heap.number()?)?;
        Some(ValueType::nullable(match target.heap {
            Heap::Exact(_) => Heap::Exact(descriptor),
            _ => Heap::Defined(descriptor),
        }))
    }

    fn of_hierarchy(&self, target: Reference) -> ValueType {
        ValueType::nullable(Heap::Abstract(top_of(self.types, target.heap)))
    }

    /// What an instruction takes, the top last.
    pub fn taken(&self, instruction: &Instruction) -> Vec<Wanted> {
        let any = ValueType::nullable(Heap::Abstract(Abstract::Any));
        let values: Vec<ValueType> = match *instruction {
            Instruction::Plain(plain) => return self.taken_by_plain(plain),
            Instruction::Br(label) => self.label_types(label),
            Instruction::BrIf(label) => [&self.label_types(label)[..], &[ValueType::I32]].concat(),
            Instruction::LocalSet(number) | Instruction::LocalTee(number) => {
                vec![self.locals[number as usize]]
            }
            Instruction::New(New { number, default, by_descriptor }) => {
                let fields = if default { &[][..] } else { self.fields(number) };
                let mut values: Vec<ValueType> = fields.iter().map(|it| it.what.value).collect();
                if by_descriptor {
                    let descriptor = self.descriptor(number).unwrap_or(number);
                    values.push(ValueType::nullable(Heap::Exact(descriptor)));
                }
                values
            }
            Instruction::GetField(number, _) | Instruction::GetDescriptor(number) => {
                vec![ValueType::nullable(Heap::Defined(number))]
            }
            Instruction::SetField(number, field) => {
                let mut values = vec![ValueType::nullable(Heap::Defined(number))];
                values.extend(self.field(number, field).map(|it| it.what.value));
                values
            }
            Instruction::Test(target) | Instruction::Cast(target) => {
                vec![self.of_hierarchy(target)]
            }
            Instruction::CastByDescriptor(target) => {
                [any].into_iter().chain(self.descriptor_for(target)).collect()
            }
            Instruction::BranchingCast(cast) => self.taken_by_cast(&cast),
            Instruction::Numeric(numeric) => numeric.operands(),
            _ => Vec::new(),
        };
        values.into_iter().map(Wanted::Of).collect()
    }

    fn taken_by_plain(&self, plain: Plain) -> Vec<Wanted> {
        let of = |values: &[ValueType]| values.iter().map(|&value| Wanted::Of(value)).collect();
        match plain {
            Plain::Unreachable | Plain::Nop => Vec::new(),
            Plain::End => of(&self.frame().results),
            Plain::Return => of(&self.frames[0].results),
            Plain::Drop => vec![Wanted::Anything],
            Plain::IsNull | Plain::AsNonNull => vec![Wanted::Reference],
            Plain::Equal => of(&[ValueType::nullable(Heap::Abstract(Abstract::Eq)); 2]),
        }
    }

    /// The values below, the object, the descriptor.
    fn taken_by_cast(&self, cast: &BranchingCast) -> Vec<ValueType> {
        let mut values = self.label_types(cast.label);
        values.pop();
        values.push(ValueType::Ref(cast.source));
        if cast.by_descriptor {
            values.extend(self.descriptor_for(cast.target));
        }
        values
    }

    /// What an instruction gives whatever the operands' own types are.
    pub fn given(&self, instruction: &Instruction) -> Vec<ValueType> {
        match *instruction {
            Instruction::Plain(Plain::IsNull | Plain::Equal)
            | Instruction::Constant(_)
            | Instruction::Test(_) => vec![ValueType::I32],
            Instruction::Constant64(_) => vec![ValueType::I64],
            Instruction::Float32(_) => vec![ValueType::F32],
            Instruction::Float64(_) => vec![ValueType::F64],
            Instruction::Numeric(numeric) => vec![numeric.result()],
            Instruction::BrIf(label) => self.label_types(label),
            Instruction::LocalGet(number) => vec![self.locals[number as usize]],
            Instruction::Null(heap) => vec![ValueType::nullable(heap)],
            Instruction::New(New { number, .. }) => vec![ValueType::non_null(Heap::Exact(number))],
            Instruction::GetField(number, field) => {
                self.field(number, field).map(|it| it.what.value).into_iter().collect()
            }
            Instruction::Cast(target) | Instruction::CastByDescriptor(target) => {
                vec![ValueType::Ref(target)]
            }
            Instruction::BranchingCast(cast) => {
                let mut values = self.label_types(cast.label);
                values.pop();
                values.push(ValueType::Ref(cast.fallen_through()));
                values
            }
            _ => Vec::new(),
        }
    }
}
