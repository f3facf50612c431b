//! Code with descriptors and branching casts: the carried type is below the label's.

use super::make_body::{has_default, Maker};
use super::value_types::{heaps_above, heaps_below, wider};
use crate::order::{heap_below, top_of};
use crate::syntax::{Abstract, BranchingCast, Heap, Instruction, Reference, ValueType};

impl Maker<'_> {
    /// A defined heap type with a descriptor that is below the wanted one.
    pub fn described_below(&mut self, wanted: Heap) -> Option<Heap> {
        let below = heaps_below(&self.types, wanted);
        let described: Vec<Heap> =
            below.into_iter().filter(|&heap| self.descriptor_of(heap).is_some()).collect();
        self.random.pick_from(&described)
    }

    pub fn descriptor_of(&self, heap: Heap) -> Option<u32> {
        heap.number().and_then(|number| self.types[number as usize].definition.descriptor)
    }

    /// The heap type that a descriptor cast to the target asks of the descriptor.
    pub fn descriptor_asked(&self, target: Heap, descriptor: u32) -> Heap {
        match target {
            Heap::Exact(_) => Heap::Exact(descriptor),
            _ => Heap::Defined(descriptor),
        }
    }

    pub fn produce_descriptor_cast(&mut self, wanted: Reference, depth: usize) {
        let Some(heap) = self.described_below(wanted.heap) else {
            return self.allocate_or_null(wanted, depth);
        };
        let everything = Heap::Abstract(Abstract::Any);
        let from = if self.random.one_in(4) { self.of_same_hierarchy(heap) } else { everything };
        self.object_and_descriptor(Reference::nullable(from), heap, depth);
        let nullable = wanted.nullable && self.random.one_in(2);
        self.emit(Instruction::RefCastDescEq(Reference { nullable, heap }));
    }

    /// An object below the source and a descriptor for the target; often the
    /// object's own, kept in a local.
    pub fn object_and_descriptor(&mut self, source: Reference, target: Heap, depth: usize) {
        let Some(descriptor) = self.descriptor_of(target) else {
            return;
        };
        let asked = self.descriptor_asked(target, descriptor);
        let own = self.own_descriptor_below(source.heap, asked);
        let (Some((number, descriptor)), false) = (own, self.random.one_in(4)) else {
            self.produce_for(source, depth + 1);
            return self.produce_mostly_object(asked, depth + 1);
        };
        let local = self.new_local(ValueType::nullable(Heap::Exact(descriptor)));
        self.produce_mostly_object_exactly(descriptor, depth + 1);
        self.emit(Instruction::LocalTee(local));
        self.emit(Instruction::StructNewDefaultDesc(number));
        self.emit(Instruction::LocalGet(local));
    }

    /// A type below the source that is made from defaults and whose own descriptor is
    /// below the one asked for, and that descriptor.
    fn own_descriptor_below(&mut self, source: Heap, asked: Heap) -> Option<(u32, u32)> {
        let types = &self.types;
        let fits = |number: u32| {
            let definition = &types[number as usize].definition;
            let descriptor = definition.descriptor?;
            let defaults = definition.fields().is_some_and(|fields| fields.iter().all(has_default));
            let below = heap_below(types, Heap::Exact(number), source)
                && heap_below(types, Heap::Exact(descriptor), asked);
            (defaults && below).then_some((number, descriptor))
        };
        let found: Vec<(u32, u32)> = (0..types.len() as u32).filter_map(fits).collect();
        self.random.pick_from(&found)
    }

    pub fn produce_descriptor(&mut self, wanted: Reference, depth: usize) {
        let describing = |&number: &u32| {
            let definition = &self.types[number as usize].definition;
            definition.descriptor.is_some_and(|y| {
                heap_below(&self.types, Heap::Defined(y), wanted.heap)
                    || heap_below(&self.types, Heap::Exact(y), wanted.heap)
            })
        };
        let found: Vec<u32> = (0..self.types.len() as u32).filter(describing).collect();
        let Some(number) = self.random.pick_from(&found) else {
            return self.allocate_or_null(wanted, depth);
        };
        let exact = matches!(wanted.heap, Heap::Exact(_)) || self.random.one_in(2);
        let heap = if exact { Heap::Exact(number) } else { Heap::Defined(number) };
        self.produce_mostly_object(heap, depth + 1);
        self.emit(Instruction::RefGetDesc(number));
    }

    pub fn produce_branching_cast(&mut self, wanted: Reference, depth: usize) {
        let value = ValueType::Ref(wanted);
        let cast = self.cast_carrying(wanted, 0);
        self.framed(Instruction::Block(Some(value)), vec![value], |maker| {
            maker.branching_cast(cast, depth);
            maker.emit(Instruction::Drop);
            maker.produce(value, depth + 1);
        });
    }

    /// A branching cast whose carried type is below the wanted one. Half of them have
    /// a target below the source, the others any of its hierarchy.
    pub fn cast_carrying(&mut self, wanted: Reference, label: u32) -> BranchingCast {
        let cast = match self.random.below(4) {
            0 => self.cast_downwards(wanted, false),
            1 => self.cast_downwards(wanted, true),
            2 => self.cast_carrying_target(wanted),
            _ => self.cast_carrying_rest(wanted),
        };
        BranchingCast { label, ..cast }
    }

    /// The target is below the source.
    fn cast_downwards(&mut self, wanted: Reference, fail: bool) -> BranchingCast {
        let (by_descriptor, heap) = self.target_below(wanted.heap);
        let nullable = (fail || wanted.nullable) && self.random.one_in(2);
        let target = Reference { nullable, heap };
        let source =
            if fail { self.source_of_fail(wanted, target) } else { self.source_above(target) };
        BranchingCast { by_descriptor, fail, label: 0, source, target }
    }

    /// The target is below what is wanted; the source is any of its hierarchy.
    fn cast_carrying_target(&mut self, wanted: Reference) -> BranchingCast {
        let (by_descriptor, heap) = self.target_below(wanted.heap);
        let nullable = wanted.nullable && !self.random.one_in(3);
        let target = Reference { nullable, heap };
        let heap = self.in_hierarchy(heap);
        // Without null a heap type of no objects has no value.
        let nullable = self.makeable(heap).is_empty() || self.random.one_in(2);
        let source = Reference { nullable, heap };
        BranchingCast { by_descriptor, fail: false, label: 0, source, target }
    }

    /// The source is below what is wanted, and so is the rest of it; the target is any
    /// of its hierarchy.
    fn cast_carrying_rest(&mut self, wanted: Reference) -> BranchingCast {
        let heap = self.random.pick(&heaps_below(&self.types, wanted.heap));
        let top = Heap::Abstract(top_of(&self.types, heap));
        let by_descriptor = self.random.one_in(2);
        let described = if by_descriptor { self.described_below(top) } else { None };
        let target_heap = described.unwrap_or_else(|| self.in_hierarchy(heap));
        let target = Reference { nullable: self.random.one_in(2), heap: target_heap };
        let no_object = self.makeable(heap).is_empty();
        let nullable = (wanted.nullable || target.nullable) && (no_object || self.random.one_in(2));
        let source = Reference { nullable, heap };
        let by_descriptor = described.is_some();
        BranchingCast { by_descriptor, fail: true, label: 0, source, target }
    }

    /// A target's heap type below another, and whether to ask for its descriptor.
    fn target_below(&mut self, wanted: Heap) -> (bool, Heap) {
        match self.described_below(wanted) {
            Some(heap) if self.random.one_in(2) => (true, heap),
            _ => (false, self.random.pick(&heaps_below(&self.types, wanted))),
        }
    }

    /// Any heap type of the same hierarchy, now and then one above.
    fn in_hierarchy(&mut self, heap: Heap) -> Heap {
        if self.random.one_in(4) {
            return self.random.pick(&heaps_above(&self.types, heap));
        }
        let top = Heap::Abstract(top_of(&self.types, heap));
        self.random.pick(&heaps_below(&self.types, top))
    }

    pub fn source_above(&mut self, target: Reference) -> Reference {
        match wider(self.random, &self.types, ValueType::Ref(target)) {
            ValueType::Ref(source) => source,
            _ => target,
        }
    }

    /// Between target and wanted, so that the rest is below the wanted type.
    pub fn source_of_fail(&mut self, wanted: Reference, target: Reference) -> Reference {
        let between: Vec<Heap> = heaps_above(&self.types, target.heap)
            .into_iter()
            .filter(|&heap| heap_below(&self.types, heap, wanted.heap))
            .collect();
        let nullable = target.nullable || wanted.nullable && self.random.one_in(2);
        Reference { nullable, heap: self.random.pick(&between) }
    }

    /// The operands of a branching cast and the cast; the rest stays on the stack.
    pub fn branching_cast(&mut self, cast: BranchingCast, depth: usize) {
        if cast.by_descriptor {
            self.object_and_descriptor(cast.source, cast.target.heap, depth);
        } else {
            let below = heap_below(&self.types, cast.target.heap, cast.source.heap);
            let near = below && !self.random.one_in(3);
            let heap = if near { cast.target.heap } else { cast.source.heap };
            self.produce_for(Reference { heap, ..cast.source }, depth + 1);
        }
        self.emit(Instruction::BranchingCast(cast));
    }
}
