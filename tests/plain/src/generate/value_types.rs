//! Value types and heap types of a section's types, at random or near another.

use super::random::Random;
use crate::order::{heap_below, TABLE};
use crate::syntax::{Field, Heap, Reference, Type, ValueType};

/// Any value type of a section with these types.
pub fn random_value_type(random: &mut Random, types: &[Type]) -> ValueType {
    match random.below(10) {
        0..=2 => ValueType::I32,
        3 => random.pick(&[ValueType::I64, ValueType::F32, ValueType::F64]),
        _ => ValueType::Ref(random_reference(random, types)),
    }
}

/// Non-null mostly where there can be an object.
pub fn random_reference(random: &mut Random, types: &[Type]) -> Reference {
    let heap = random_heap(random, types.len());
    let chance = if inhabited(types, heap) { 40 } else { 2 };
    Reference { nullable: !random.percent(chance), heap }
}

/// The types whose new objects are below the heap type.
pub fn allocatable(types: &[Type], heap: Heap) -> Vec<u32> {
    let fits = |&number: &u32| {
        let is_struct = types[number as usize].definition.fields().is_some();
        is_struct && heap_below(types, Heap::Exact(number), heap)
    };
    (0..types.len() as u32).filter(fits).collect()
}

pub fn inhabited(types: &[Type], heap: Heap) -> bool {
    !allocatable(types, heap).is_empty()
}

/// Which structs can be allocated without a non-null reference to themselves
/// being there first: found by going round until nothing is added.
pub fn constructible(types: &[Type]) -> Vec<bool> {
    let mut found = vec![false; types.len()];
    for _ in 0..types.len() {
        for number in 0..types.len() {
            found[number] = found[number] || all_parts_found(types, &found, number);
        }
    }
    found
}

fn all_parts_found(types: &[Type], found: &[bool], number: usize) -> bool {
    let some_found = |heap: Heap| allocatable(types, heap).iter().any(|&n| found[n as usize]);
    let obtainable = |field: &Field| match field.value {
        ValueType::Ref(reference) => reference.nullable || some_found(reference.heap),
        _ => true,
    };
    let definition = &types[number].definition;
    let descriptor_found = definition.descriptor.is_none_or(|y| found[y as usize]);
    descriptor_found && definition.fields().is_some_and(|fields| fields.iter().all(obtainable))
}

pub fn random_heap(random: &mut Random, reach: usize) -> Heap {
    if reach == 0 || random.percent(35) {
        return Heap::Abstract(TABLE[random.below(TABLE.len())].heap);
    }
    let number = random.below(reach) as u32;
    if random.one_in(2) {
        Heap::Exact(number)
    } else {
        Heap::Defined(number)
    }
}

fn all_heaps(types: &[Type]) -> Vec<Heap> {
    let numbers = 0..types.len() as u32;
    let abstracts = TABLE.iter().map(|row| Heap::Abstract(row.heap));
    abstracts.chain(numbers.flat_map(|n| [Heap::Defined(n), Heap::Exact(n)])).collect()
}

pub fn heaps_below(types: &[Type], heap: Heap) -> Vec<Heap> {
    all_heaps(types).into_iter().filter(|&lower| heap_below(types, lower, heap)).collect()
}

pub fn heaps_above(types: &[Type], heap: Heap) -> Vec<Heap> {
    all_heaps(types).into_iter().filter(|&upper| heap_below(types, heap, upper)).collect()
}

pub fn narrower(random: &mut Random, types: &[Type], value: ValueType) -> ValueType {
    let ValueType::Ref(reference) = value else {
        return value;
    };
    let mut lower = heaps_below(types, reference.heap);
    if !reference.nullable && !random.one_in(40) {
        // Without null a heap type of no objects has no value.
        lower.retain(|&heap| heap == reference.heap || inhabited(types, heap));
    }
    let heap = random.pick(&lower);
    let keeps_null = !inhabited(types, heap) || random.percent(60);
    ValueType::Ref(Reference { nullable: reference.nullable && keeps_null, heap })
}

pub fn wider(random: &mut Random, types: &[Type], value: ValueType) -> ValueType {
    let ValueType::Ref(reference) = value else {
        return value;
    };
    let heap = random.pick(&heaps_above(types, reference.heap));
    ValueType::Ref(Reference { nullable: reference.nullable || random.one_in(2), heap })
}
