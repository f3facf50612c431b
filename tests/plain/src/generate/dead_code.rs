//! Code after unreachable, br and return: operands may come from nowhere.
//!
//! Each piece leaves the frame as empty as it was, so the frame's `end` is kept.

use super::make_body::Maker;
use crate::numeric::TABLE;
use crate::syntax::{BranchingCast, Heap, Instruction, Reference, ValueType};

impl Maker<'_> {
    pub fn dead_code(&mut self) {
        let pieces = self.random.pick(&[0, 0, 1, 1, 2]);
        (0..pieces).for_each(|_| self.dead_piece());
    }

    fn dead_piece(&mut self) {
        match self.random.below(14) {
            0 => self.dead_and_dropped(&[Instruction::RefAsNonNull]),
            1 => self.dead_and_dropped(&[Instruction::RefEq]),
            2 => self.dead_and_dropped(&[Instruction::RefAsNonNull, Instruction::RefIsNull]),
            3 => self.dead_struct(),
            4 => self.dead_descriptor(),
            5 => self.dead_cast(),
            6 => self.dead_branch_if(),
            7 => self.dead_branching_cast(),
            8 => self.dead_local(),
            9 => {
                let exit = [Instruction::Unreachable, Instruction::Return, Instruction::Br(0)];
                let exit = self.random.pick(&exit);
                self.emit(exit);
            }
            10 => self.statement(),
            11 | 12 => self.dead_number(),
            _ => self.emit(Instruction::Drop),
        }
    }

    fn dead_and_dropped(&mut self, code: &[Instruction]) {
        code.iter().for_each(|&instruction| self.emit(instruction));
        self.emit(Instruction::Drop);
    }

    /// A struct type's number, with a field of it where it has one.
    fn any_struct(&mut self) -> Option<(u32, Option<u32>)> {
        let structs: Vec<u32> = (0..self.types.len() as u32)
            .filter(|&number| self.types[number as usize].definition.fields().is_some())
            .collect();
        let number = self.random.pick_from(&structs)?;
        let count = self.types[number as usize].definition.fields().map_or(0, <[_]>::len);
        let field = (count > 0).then(|| self.random.below(count) as u32);
        Some((number, field))
    }

    fn dead_struct(&mut self) {
        let Some((number, field)) = self.any_struct() else {
            return self.emit(Instruction::Drop);
        };
        let definition = &self.types[number as usize].definition;
        let has_descriptor = definition.descriptor.is_some();
        match field {
            Some(field) if self.random.one_in(2) => {
                self.dead_and_dropped(&[Instruction::StructGet(number, field)]);
            }
            _ if has_descriptor => self.dead_and_dropped(&[Instruction::StructNewDesc(number)]),
            _ => self.dead_and_dropped(&[Instruction::StructNew(number)]),
        }
    }

    fn dead_descriptor(&mut self) {
        let everything = Heap::Abstract(crate::syntax::Abstract::Any);
        let Some(heap) = self.described_below(everything) else {
            return self.emit(Instruction::Nop);
        };
        let number = heap.number().unwrap_or(0);
        let target = Reference { nullable: self.random.one_in(2), heap };
        let before = self.random.one_in(2).then_some(Instruction::RefAsNonNull);
        let asks = [Instruction::RefGetDesc(number), Instruction::RefCastDescEq(target)];
        let code: Vec<Instruction> = before.into_iter().chain([self.random.pick(&asks)]).collect();
        self.dead_and_dropped(&code);
    }

    fn dead_cast(&mut self) {
        let target = Reference { nullable: self.random.one_in(2), heap: self.any_heap() };
        let code = [Instruction::RefCast(target), Instruction::RefTest(target)];
        let code = self.random.pick(&code);
        self.dead_and_dropped(&[code]);
    }

    fn dead_branch_if(&mut self) {
        let label = self.random_label();
        let types = self.label_types(label);
        self.emit(Instruction::BrIf(label));
        self.drop_many(types.len());
    }

    fn dead_branching_cast(&mut self) {
        let label = self.random_label();
        let types = self.label_types(label);
        let Some(&ValueType::Ref(last)) = types.last() else {
            return self.dead_cast();
        };
        let cast: BranchingCast = self.cast_carrying(last, label);
        self.emit(Instruction::BranchingCast(cast));
        self.drop_many(types.len());
    }

    /// A numeric code of which no operand, the last or all are there.
    fn dead_number(&mut self) {
        let row = &TABLE[self.random.below(TABLE.len())];
        let first = self.random.below(row.operands.len() + 1);
        row.operands[first..].iter().for_each(|&kind| self.produce_constant_of(kind));
        self.dead_and_dropped(&[Instruction::Numeric(row.code)]);
    }

    fn dead_local(&mut self) {
        let heap = self.any_heap();
        let local = self.new_local(ValueType::non_null(heap));
        self.emit(Instruction::LocalSet(local));
        self.set[local as usize] = true;
        self.dead_and_dropped(&[Instruction::LocalGet(local)]);
    }
}
