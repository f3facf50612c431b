//! Shapes that lie high: type numbers near 200, 255 and 1,023, places above 16,383.

use super::encode::{Group, Writer};
use super::random::Random;
use super::thin::{about_body, about_section, alone, body_of};
use super::thin::{open_function, open_struct, section_of};
use crate::lines::hex;
use crate::sizes;
use crate::syntax::{Definition, Field, Form, Heap, Instruction, ValueType};

fn heap(random: &mut Random, number: usize) -> Heap {
    match random.one_in(2) {
        true => Heap::Exact(number as u32),
        false => Heap::Defined(number as u32),
    }
}

fn one_field(value: ValueType) -> Form {
    Form::Struct(vec![Field { value, mutable: false }])
}

/// Structs alone, then a group that ends near type 200, 255 or 1,023 and whose numbers are
/// named in it or in a body: the last in reach, or the first that is not.
pub fn high_numbers(random: &mut Random) -> String {
    let near_200 = random.between(199, 203);
    let near_255 = random.pick(&[254, 255, 256, 256, 256, 257]);
    let near_most = sizes::TYPES - random.below(3);
    let end = random.pick(&[near_200, near_255, near_most]);
    let size = random.between(3, 6);
    let start = end - size;
    let named = random.pick(&[start - 1, start, end - 1, end, end]);
    let mut last = vec![open_struct(None); size - 1];
    last.push(open_function(Vec::new(), Vec::new()));
    if random.one_in(2) {
        let section = section_of(random, &high_groups(start, last));
        return body_naming(random, &section, end, named);
    }
    let namer = random.below(size - 1);
    match random.below(4) {
        0 => last[namer].supertypes = vec![named as u32],
        1 => {
            // The last struct describes the first one, or one that is absent.
            let described = if named == end { end } else { start };
            last[0].descriptor = Some(end as u32 - 2);
            last[size - 2].describes = Some(described as u32);
        }
        2 => last[namer].form = one_field(ValueType::nullable(heap(random, named))),
        _ => {
            let value = ValueType::nullable(heap(random, named));
            last[size - 1] = open_function(vec![value], vec![value]);
        }
    }
    let mut groups = high_groups(start, last);
    if random.one_in(6) {
        // A number that is there, but in a later group.
        groups[start - 1].definitions[0].form = one_field(ValueType::nullable(heap(random, named)));
    }
    let section = section_of(random, &groups);
    about_section(random, &section, end)
}

fn high_groups(start: usize, last: Vec<Definition>) -> Vec<Group> {
    let alone = Group { alone: true, definitions: vec![open_struct(None)] };
    let mut groups = vec![alone; start];
    groups.push(Group { alone: false, definitions: last });
    groups
}

/// A body of the last type, which is a function.
fn body_naming(random: &mut Random, section: &[u8], end: usize, named: usize) -> String {
    let heap = heap(random, named);
    let made = Instruction::StructNewDefault(named as u32);
    let code = match random.below(3) {
        0 => vec![Instruction::RefNull(heap), Instruction::Drop],
        1 => vec![made, Instruction::Drop],
        _ => vec![made, Instruction::LocalSet(0)],
    };
    let local = matches!(code[1], Instruction::LocalSet(_)).then_some(ValueType::nullable(heap));
    let body = body_of(random, local.as_slice(), &[&code[..], &[Instruction::End]].concat());
    about_body(random, section, end - 1, &body)
}

/// Above it an end needs more than 14 bits.
const HIGH: usize = 16_383;

/// Full structs and empty groups, then three types; the last ends near 16,383, near the
/// greatest place, or between. A function of three bytes makes its end odd or even.
pub fn high_places(random: &mut Random) -> String {
    let most = sizes::INPUT_BYTES;
    let near = random.between(HIGH - 2, HIGH + 60);
    let end = random.pick(&[HIGH, HIGH + 1, near, near, most - 1, most, most, most + 1]);
    let end = if random.one_in(3) { random.between(HIGH, most) } else { end };
    let full = random.pick(&[0, 0, 1, 40, 120]);
    let odd = random.below(2);
    let last = last_types(random, full + odd);
    let mut writer = Writer::new(random);
    last.iter().for_each(|group| writer.group(group));
    let last_bytes = writer.bytes;
    let before = [&full_struct().repeat(full)[..], &FUNCTION.repeat(odd)].concat();
    let empty = (end - COUNT_BYTES - before.len() - last_bytes.len()) / EMPTY_GROUP.len();
    let count = count_of_groups(empty + full + odd + last.len());
    let section = [&count[..], &before, &EMPTY_GROUP.repeat(empty), &last_bytes].concat();
    let types = full + odd + last.len();
    if random.one_in(3) {
        let code = [Instruction::RefNull(Heap::Defined(types as u32 - 2)), Instruction::End];
        let body = body_of(random, &[], &code);
        return about_body(random, &section, types - 1, &body);
    }
    if random.one_in(8) {
        // Cut inside the last definition, or with a byte too many.
        let cut = section.len() - random.between(1, 4);
        let beyond = [&section[..], &[0x00]].concat();
        let spoilt = random.pick(&[&section[..cut], &beyond]);
        return format!("S {}", hex(spoilt));
    }
    about_section(random, &section, types)
}

/// A struct, one below it and a function that gives it; now and then against a rule.
fn last_types(random: &mut Random, first: usize) -> Vec<Group> {
    let upper = Definition { form: one_field(ValueType::I32), ..open_struct(None) };
    let fault = random.below(8);
    let value = if fault == 0 { ValueType::I64 } else { ValueType::I32 };
    let lower = Definition { form: one_field(value), ..open_struct(Some(first as u32)) };
    let given = first + if fault == 1 { 3 } else { 1 };
    let result = ValueType::nullable(Heap::Defined(given as u32));
    alone(vec![upper, lower, open_function(Vec::new(), vec![result])])
}

/// 64 fields of two bytes each.
fn full_struct() -> Vec<u8> {
    let fields = [0x7F, 0x01].repeat(sizes::ENTRIES);
    [&[0x5F, sizes::ENTRIES as u8], &fields[..]].concat()
}

const EMPTY_GROUP: [u8; 2] = [0x4E, 0x00];
const FUNCTION: [u8; 3] = [0x60, 0x00, 0x00];

/// With an end above 16,383 there are 128 groups at least, and never 16,384, so that their
/// count needs two bytes.
const COUNT_BYTES: usize = 2;

fn count_of_groups(count: usize) -> [u8; COUNT_BYTES] {
    [count as u8 | 0x80, (count >> 7) as u8]
}
