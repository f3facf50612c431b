//! Code that leaves one operand below the wanted type: numbers, locals, fields,
//! blocks and tests. References have their own ways in produce_reference.

use super::make_body::{Maker, DEPTH};
use super::numbers::{constant, row_giving};
use super::value_types::{heaps_above, heaps_below, narrower, random_reference};
use crate::order::{top_of, value_fit, Fit};
use crate::syntax::{Abstract, Heap, Instruction, Reference, ValueType};

impl Maker<'_> {
    pub fn produce(&mut self, wanted: ValueType, depth: usize) {
        if self.left <= 0 || depth > DEPTH {
            return self.produce_cheaply(wanted, depth);
        }
        match self.random.below(14) {
            0 | 1 => self.produce_from_local(wanted, depth),
            2 | 3 => self.produce_from_field(wanted, depth),
            4 => self.produce_in_block(wanted, depth),
            5 => self.produce_in_loop(wanted, depth),
            6 => self.produce_by_tee(wanted, depth),
            _ => self.produce_its_own_way(wanted, depth),
        }
    }

    pub fn produce_all(&mut self, values: &[ValueType]) {
        values.iter().for_each(|&value| self.produce(value, 0));
    }

    pub fn produce_its_own_way(&mut self, wanted: ValueType, depth: usize) {
        match wanted {
            ValueType::I32 => self.produce_i32(depth),
            ValueType::Ref(reference) => self.produce_reference(reference, depth),
            number => self.produce_number(number, depth),
        }
    }

    pub fn produce_cheaply(&mut self, wanted: ValueType, depth: usize) {
        match wanted {
            ValueType::I32 => self.produce_constant(),
            ValueType::Ref(reference) if reference.nullable => self.produce_null(reference.heap),
            ValueType::Ref(reference) => self.produce_non_null_cheaply(reference.heap, depth),
            number => match self.local_below(number) {
                Some(local) if self.random.one_in(2) => self.emit(Instruction::LocalGet(local)),
                _ if self.random.one_in(4) => {
                    let local = self.new_local(number);
                    self.emit(Instruction::LocalGet(local));
                }
                _ => self.produce_constant_of(number),
            },
        }
    }

    pub fn produce_constant_of(&mut self, kind: ValueType) {
        let constant = constant(self.random, kind);
        self.emit(constant);
    }

    /// By a constant or by a code; one that the run does not do is seldom.
    pub fn produce_number(&mut self, kind: ValueType, depth: usize) {
        if self.random.one_in(3) {
            return self.produce_constant_of(kind);
        }
        let done = !self.random.one_in(16);
        let row = row_giving(self.random, kind, done);
        row.operands.iter().for_each(|&operand| self.produce(operand, depth + 1));
        self.emit(Instruction::Numeric(row.code));
    }

    pub fn produce_constant(&mut self) {
        let number = match self.random.below(8) {
            0..=2 => self.random.below(2) as i32,
            3 => self.random.draw() as i32,
            4 => self.random.pick(&[i32::MIN, i32::MAX, -1, -64, -65, 63, 64]),
            _ => self.random.below(200) as i32 - 100,
        };
        self.emit(Instruction::I32Const(number));
    }

    pub fn produce_null(&mut self, heap: Heap) {
        let below = heaps_below(&self.types, heap);
        let heap = if self.random.one_in(2) { heap } else { self.random.pick(&below) };
        self.emit(Instruction::RefNull(heap));
    }

    pub fn produce_from_local(&mut self, wanted: ValueType, depth: usize) {
        match self.local_below(wanted) {
            Some(local) => self.emit(Instruction::LocalGet(local)),
            None => self.produce_its_own_way(wanted, depth),
        }
    }

    pub fn produce_from_field(&mut self, wanted: ValueType, depth: usize) {
        let mut found = Vec::new();
        for (number, candidate) in self.types.iter().enumerate() {
            let fields = candidate.definition.fields().unwrap_or(&[]).iter().enumerate();
            let fits = |value| value_fit(&self.types, value, wanted) == Fit::Fits;
            let fits = fields.filter(|(_, field)| fits(field.value));
            found.extend(fits.map(|(field, _)| (number as u32, field as u32)));
        }
        let Some((number, field)) = self.random.pick_from(&found) else {
            return self.produce_its_own_way(wanted, depth);
        };
        self.produce_mostly_object(Heap::Defined(number), depth + 1);
        self.emit(Instruction::StructGet(number, field));
    }

    pub fn produce_in_block(&mut self, wanted: ValueType, depth: usize) {
        let way = self.random.below(5);
        self.framed(Instruction::Block(Some(wanted)), vec![wanted], |maker| match way {
            0 => {
                maker.produce(wanted, depth + 1);
                maker.produce(ValueType::I32, depth + 1);
                maker.emit(Instruction::BrIf(0));
            }
            1 => {
                maker.produce(wanted, depth + 1);
                maker.emit(Instruction::Br(0));
                maker.dead_code();
            }
            2 => {
                maker.statement();
                maker.produce(wanted, depth + 1);
            }
            _ => maker.produce(wanted, depth + 1),
        });
    }

    pub fn produce_in_loop(&mut self, wanted: ValueType, depth: usize) {
        let again = self.random.one_in(8);
        self.framed(Instruction::Loop(Some(wanted)), Vec::new(), |maker| {
            if again {
                maker.produce(ValueType::I32, depth + 1);
                maker.emit(Instruction::BrIf(0));
            }
            maker.produce(wanted, depth + 1);
        });
    }

    /// The local's type lies between what is produced and what is wanted.
    pub fn produce_by_tee(&mut self, wanted: ValueType, depth: usize) {
        let held = narrower(self.random, &self.types, wanted);
        let held = if self.random.one_in(2) { wanted } else { held };
        self.produce(held, depth + 1);
        let local = self.new_local(held);
        self.emit(Instruction::LocalTee(local));
        self.set[local as usize] = true;
    }

    pub fn produce_i32(&mut self, depth: usize) {
        match self.random.below(10) {
            0 => {
                let reference = random_reference(self.random, &self.types);
                self.produce(ValueType::Ref(reference), depth + 1);
                self.emit(Instruction::RefIsNull);
            }
            1 => self.produce_equality(depth),
            2..=4 => self.produce_test(depth),
            5 | 6 => self.produce_number(ValueType::I32, depth),
            _ => self.produce_constant(),
        }
    }

    pub fn produce_equality(&mut self, depth: usize) {
        let eq = Heap::Abstract(Abstract::Eq);
        let heap = self.random.pick(&heaps_below(&self.types, eq));
        self.produce(ValueType::nullable(heap), depth + 1);
        let again =
            self.random.one_in(2) && matches!(self.code.last(), Some(Instruction::LocalGet(_)));
        if again {
            let same = self.code[self.code.len() - 1];
            self.emit(same);
        } else {
            self.produce(ValueType::nullable(eq), depth + 1);
        }
        self.emit(Instruction::RefEq);
    }

    pub fn produce_test(&mut self, depth: usize) {
        let target = random_reference(self.random, &self.types);
        let from = self.of_same_hierarchy(target.heap);
        self.produce_mostly_object(from, depth + 1);
        let target = Reference { nullable: self.random.one_in(2), heap: target.heap };
        self.emit(Instruction::RefTest(target));
    }

    /// A heap type that a value of another of its hierarchy may be asked for.
    pub fn of_same_hierarchy(&mut self, heap: Heap) -> Heap {
        let top = Heap::Abstract(top_of(&self.types, heap));
        let all = heaps_below(&self.types, top);
        let near = heaps_below(&self.types, heap);
        let above = heaps_above(&self.types, heap);
        match self.random.below(4) {
            0 => self.random.pick(&all),
            1 => self.random.pick(&above),
            _ => self.random.pick(&near),
        }
    }
}
