//! Code that leaves a reference: allocations, nulls and casts.

use super::make_body::{has_default, Maker, DEPTH};
use super::value_types::{allocatable, narrower};
use crate::syntax::{Heap, Instruction, Reference, ValueType};

impl Maker<'_> {
    pub fn produce_reference(&mut self, wanted: Reference, depth: usize) {
        match self.random.below(16) {
            0..=5 => self.allocate_or_null(wanted, depth),
            6 => self.produce_as_non_null(wanted, depth),
            7 => self.produce_cast(wanted, depth),
            8 | 9 => self.produce_descriptor_cast(wanted, depth),
            10 | 11 => self.produce_descriptor(wanted, depth),
            12..=14 => self.produce_branching_cast(wanted, depth),
            _ => self.produce_cheaply(ValueType::Ref(wanted), depth),
        }
    }

    pub fn produce_non_null_cheaply(&mut self, heap: Heap, depth: usize) {
        if let Some(local) = self.local_below(ValueType::non_null(heap)) {
            return self.emit(Instruction::LocalGet(local));
        }
        let simple = |&number: &u32| {
            let definition = &self.types[number as usize].definition;
            definition.descriptor.is_none()
                && definition.fields().is_some_and(|fields| fields.iter().all(has_default))
        };
        let candidates: Vec<u32> = self.makeable(heap).into_iter().filter(simple).collect();
        if let Some(number) = self.random.pick_from(&candidates) {
            return self.emit(Instruction::StructNewDefault(number));
        }
        if depth <= 2 * DEPTH && !self.makeable(heap).is_empty() {
            return self.allocate(heap, depth);
        }
        self.produce_null(heap);
        self.emit(Instruction::RefAsNonNull);
    }

    /// A nullable reference that mostly isn't null.
    pub fn produce_mostly_object(&mut self, heap: Heap, depth: usize) {
        if self.random.one_in(20) || self.makeable(heap).is_empty() {
            return self.produce(ValueType::nullable(heap), depth);
        }
        self.produce(ValueType::non_null(heap), depth);
    }

    /// The types whose new objects are below the heap type and can be made.
    pub fn makeable(&self, heap: Heap) -> Vec<u32> {
        let mut found = allocatable(&self.types, heap);
        found.retain(|&number| self.constructible[number as usize]);
        found
    }

    pub fn allocate_or_null(&mut self, wanted: Reference, depth: usize) {
        let possible = !self.makeable(wanted.heap).is_empty();
        let null = wanted.nullable && self.random.one_in(4);
        if possible && !null {
            return self.allocate(wanted.heap, depth);
        }
        self.produce_cheaply(ValueType::Ref(wanted), depth);
    }

    pub fn allocate(&mut self, heap: Heap, depth: usize) {
        let candidates = self.makeable(heap);
        let number = self.random.pick(&candidates);
        let definition = self.types[number as usize].definition.clone();
        let fields = definition.fields().unwrap_or(&[]);
        let cheap = self.left <= 0 || self.random.one_in(3);
        let default = cheap && fields.iter().all(has_default);
        if !default {
            fields.iter().for_each(|field| self.produce(field.value, depth + 1));
        }
        if let Some(descriptor) = definition.descriptor {
            self.produce_mostly_object_exactly(descriptor, depth + 1);
        }
        self.emit(match (definition.descriptor.is_some(), default) {
            (false, false) => Instruction::StructNew(number),
            (false, true) => Instruction::StructNewDefault(number),
            (true, false) => Instruction::StructNewDesc(number),
            (true, true) => Instruction::StructNewDefaultDesc(number),
        });
    }

    pub fn produce_mostly_object_exactly(&mut self, number: u32, depth: usize) {
        if self.random.one_in(12) {
            return self.produce_null(Heap::Exact(number));
        }
        self.produce(ValueType::non_null(Heap::Exact(number)), depth);
    }

    pub fn produce_as_non_null(&mut self, wanted: Reference, depth: usize) {
        self.produce_mostly_object(wanted.heap, depth + 1);
        self.emit(Instruction::RefAsNonNull);
    }

    pub fn produce_cast(&mut self, wanted: Reference, depth: usize) {
        let ValueType::Ref(target) = narrower(self.random, &self.types, ValueType::Ref(wanted))
        else {
            return;
        };
        let target = if self.random.one_in(2) { wanted } else { target };
        let from = self.of_same_hierarchy(target.heap);
        self.produce_mostly_object(from, depth + 1);
        self.emit(Instruction::RefCast(target));
    }

    /// Mostly an object where null is allowed, and always where it isn't.
    pub fn produce_for(&mut self, wanted: Reference, depth: usize) {
        if wanted.nullable {
            return self.produce_mostly_object(wanted.heap, depth);
        }
        self.produce(ValueType::Ref(wanted), depth);
    }
}
