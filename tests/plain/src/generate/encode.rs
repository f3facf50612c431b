//! Writes a tree back as bytes, every number in as few as it needs, and says where each
//! number stands.

use super::random::Random;
use super::written::{Number, What};
use crate::instruction_reader::{NO_BLOCK_TYPE, PREFIX};
use crate::order::row_of;
use crate::section_reader as code;
use crate::syntax::{
    BranchingCast, Definition, Field, Form, Heap, Instruction, Reference, ValueType,
};

/// Definitions that stand together; `alone` is one without 4E.
#[derive(Clone, Debug)]
pub struct Group {
    pub alone: bool,
    pub definitions: Vec<Definition>,
}

pub struct Writer<'a> {
    pub bytes: Vec<u8>,
    /// In the order of their bytes.
    pub numbers: Vec<Number>,
    random: &'a mut Random,
    /// How many numbers of a thousand are spoilt: too long or out of range.
    spoilt: usize,
}

/// Of a number of 32 or 33 bits, and of one of 64.
const GREATEST_LENGTH: usize = 5;
const GREATEST_LENGTH_64: usize = 10;

impl Writer<'_> {
    pub fn new(random: &mut Random) -> Writer<'_> {
        let spoilt = if random.one_in(24) { 60 } else { 0 };
        Writer { spoilt, ..Writer::faultless(random) }
    }

    /// Never too long and never out of range.
    pub fn faultless(random: &mut Random) -> Writer<'_> {
        Writer { bytes: Vec::new(), numbers: Vec::new(), random, spoilt: 0 }
    }

    fn byte(&mut self, byte: u8) {
        self.bytes.push(byte);
    }

    fn unsigned(&mut self, what: What, number: u32) {
        let mut groups = vec![(number & 0x7F) as u8];
        let mut rest = number >> 7;
        while rest != 0 {
            groups.push((rest & 0x7F) as u8);
            rest >>= 7;
        }
        self.number(what, groups, 0, GREATEST_LENGTH);
    }

    fn signed(&mut self, what: What, number: i64, greatest: usize) {
        let (groups, fill) = signed_groups(number);
        self.number(what, groups, fill, greatest);
    }

    /// Groups of seven bits, lowest first; all but the last ask for more.
    fn number(&mut self, what: What, mut groups: Vec<u8>, fill: u8, greatest: usize) {
        if self.random.below(1000) < self.spoilt {
            self.spoil(&mut groups, fill, greatest);
        }
        let last = groups.len() - 1;
        let first = self.bytes.len();
        self.numbers.push(Number { what, first, length: groups.len(), greatest, fill });
        for (index, group) in groups.iter().enumerate() {
            let more = if index < last { 0x80 } else { 0 };
            self.byte(group | more);
        }
    }

    fn spoil(&mut self, groups: &mut Vec<u8>, fill: u8, greatest: usize) {
        groups.resize(greatest, fill);
        let wrong = self.random.pick(&[0x10, 0x20, 0x40, 0x0F, 0x70, 0x08]);
        groups[greatest - 1] ^= wrong;
        groups.extend(self.random.one_in(2).then_some(fill));
    }

    pub fn section(&mut self, groups: &[Group]) {
        self.unsigned(What::Groups, groups.len() as u32);
        groups.iter().for_each(|group| self.group(group));
    }

    pub fn group(&mut self, group: &Group) {
        if !(group.alone && group.definitions.len() == 1) {
            self.byte(code::GROUP);
            self.unsigned(What::Definitions, group.definitions.len() as u32);
        }
        group.definitions.iter().for_each(|definition| self.definition(definition));
    }

    fn definition(&mut self, definition: &Definition) {
        let plain = !definition.open && definition.supertypes.is_empty();
        if !plain || self.random.one_in(4) {
            self.byte(if definition.open { code::OPEN } else { code::FINAL });
            self.supertypes(&definition.supertypes);
        }
        self.clause(code::DESCRIBES, What::Describes, definition.describes);
        self.clause(code::DESCRIPTOR, What::Descriptor, definition.descriptor);
        self.form(&definition.form);
    }

    fn supertypes(&mut self, numbers: &[u32]) {
        self.unsigned(What::Supertypes, numbers.len() as u32);
        numbers.iter().for_each(|&number| self.unsigned(What::Supertype, number));
    }

    fn clause(&mut self, code: u8, what: What, number: Option<u32>) {
        if let Some(number) = number {
            self.byte(code);
            self.unsigned(what, number);
        }
    }

    fn form(&mut self, form: &Form) {
        match form {
            Form::Struct(fields) => {
                self.byte(code::STRUCT);
                self.unsigned(What::Fields, fields.len() as u32);
                fields.iter().for_each(|field| self.field(field));
            }
            Form::Function { parameters, results } => {
                self.byte(code::FUNCTION);
                self.value_types(What::Parameters, parameters);
                self.value_types(What::Results, results);
            }
        }
    }

    fn field(&mut self, field: &Field) {
        self.value_type(field.value);
        self.byte(if field.mutable { code::MUTABLE } else { code::FIXED });
    }

    fn value_types(&mut self, what: What, values: &[ValueType]) {
        self.unsigned(what, values.len() as u32);
        values.iter().for_each(|&value| self.value_type(value));
    }

    pub fn value_type(&mut self, value: ValueType) {
        match value {
            ValueType::I32 => self.byte(code::I32),
            ValueType::I64 => self.byte(code::I64),
            ValueType::F32 => self.byte(code::F32),
            ValueType::F64 => self.byte(code::F64),
            ValueType::Ref(reference) => self.reference(reference),
        }
    }

    fn reference(&mut self, reference: Reference) {
        let short = matches!(reference.heap, Heap::Abstract(_)) && reference.nullable;
        if !short || self.random.one_in(3) {
            self.byte(if reference.nullable { code::REF_NULL } else { code::REF });
        }
        self.heap(reference.heap);
    }

    fn heap(&mut self, heap: Heap) {
        match heap {
            Heap::Abstract(heap) => self.byte(row_of(heap).code),
            Heap::Defined(number) => {
                self.signed(What::Heap, i64::from(number), GREATEST_LENGTH);
            }
            Heap::Exact(number) => {
                self.byte(code::EXACT);
                self.unsigned(What::Exact, number);
            }
        }
    }

    /// One entry for each run of equal types.
    pub fn locals(&mut self, locals: &[ValueType]) {
        let entries: Vec<&[ValueType]> = locals.chunk_by(|one, next| one == next).collect();
        self.unsigned(What::Entries, entries.len() as u32);
        for entry in entries {
            self.unsigned(What::Locals, entry.len() as u32);
            self.value_type(entry[0]);
        }
    }

    pub fn instruction(&mut self, instruction: &Instruction) {
        match *instruction {
            Instruction::Unreachable => self.byte(0x00),
            Instruction::Nop => self.byte(0x01),
            Instruction::Block(value) => self.block(0x02, value),
            Instruction::Loop(value) => self.block(0x03, value),
            Instruction::End => self.byte(0x0B),
            Instruction::Br(label) => self.plain(0x0C, What::Label, label),
            Instruction::BrIf(label) => self.plain(0x0D, What::Label, label),
            Instruction::Return => self.byte(0x0F),
            Instruction::Drop => self.byte(0x1A),
            Instruction::LocalGet(local) => self.plain(0x20, What::Local, local),
            Instruction::LocalSet(local) => self.plain(0x21, What::Local, local),
            Instruction::LocalTee(local) => self.plain(0x22, What::Local, local),
            Instruction::I32Const(number) => {
                self.byte(0x41);
                self.signed(What::Constant32, i64::from(number), GREATEST_LENGTH);
            }
            Instruction::I64Const(number) => {
                self.byte(0x42);
                self.signed(What::Constant64, number, GREATEST_LENGTH_64);
            }
            Instruction::F32Const(bits) => {
                self.byte(0x43);
                self.bytes.extend(bits.to_le_bytes());
            }
            Instruction::F64Const(bits) => {
                self.byte(0x44);
                self.bytes.extend(bits.to_le_bytes());
            }
            Instruction::Numeric(code) => self.byte(code),
            Instruction::RefNull(heap) => {
                self.byte(0xD0);
                self.heap(heap);
            }
            Instruction::RefIsNull => self.byte(0xD1),
            Instruction::RefEq => self.byte(0xD3),
            Instruction::RefAsNonNull => self.byte(0xD4),
            _ => self.prefixed(instruction),
        }
    }

    fn prefixed(&mut self, instruction: &Instruction) {
        self.byte(PREFIX);
        match *instruction {
            Instruction::StructNew(number) => self.numbered(0x00, number),
            Instruction::StructNewDefault(number) => self.numbered(0x01, number),
            Instruction::StructGet(number, field) => self.of_field(0x02, number, field),
            Instruction::StructSet(number, field) => self.of_field(0x05, number, field),
            Instruction::RefTest(target) => self.targeted(0x14, target),
            Instruction::RefCast(target) => self.targeted(0x16, target),
            Instruction::BranchingCast(cast) => self.branching_cast(&cast),
            Instruction::StructNewDesc(number) => self.numbered(0x20, number),
            Instruction::StructNewDefaultDesc(number) => self.numbered(0x21, number),
            Instruction::RefGetDesc(number) => self.numbered(0x22, number),
            Instruction::RefCastDescEq(target) => self.targeted(0x23, target),
            _ => unreachable!("plain instructions are written without FB"),
        }
    }

    fn plain(&mut self, code: u8, what: What, number: u32) {
        self.byte(code);
        self.unsigned(what, number);
    }

    fn block(&mut self, code: u8, value: Option<ValueType>) {
        self.byte(code);
        match value {
            None => self.byte(NO_BLOCK_TYPE),
            Some(value) => self.value_type(value),
        }
    }

    fn numbered(&mut self, code: u32, number: u32) {
        self.unsigned(What::AfterPrefix, code);
        self.unsigned(What::Type, number);
    }

    fn of_field(&mut self, code: u32, number: u32, field: u32) {
        self.numbered(code, number);
        self.unsigned(What::Field, field);
    }

    /// The null form of a test or cast is the next number.
    fn targeted(&mut self, code: u32, target: Reference) {
        self.unsigned(What::AfterPrefix, code + u32::from(target.nullable));
        self.heap(target.heap);
    }

    fn branching_cast(&mut self, cast: &BranchingCast) {
        let base = if cast.by_descriptor { 0x25 } else { 0x18 };
        self.unsigned(What::AfterPrefix, base + u32::from(cast.fail));
        self.byte(u8::from(cast.source.nullable) + 2 * u8::from(cast.target.nullable));
        self.unsigned(What::CastLabel, cast.label);
        self.heap(cast.source.heap);
        self.heap(cast.target.heap);
    }
}

/// Seven bits each, lowest first, up to where the rest is all sign and the last group's
/// bit 6 says so; and what a padded number is filled up with.
fn signed_groups(number: i64) -> (Vec<u8>, u8) {
    let fill = if number < 0 { 0x7F } else { 0x00 };
    let mut groups = vec![(number & 0x7F) as u8];
    let mut rest = number >> 7;
    while rest != number >> 63 || (groups[groups.len() - 1] ^ fill) & 0x40 != 0 {
        groups.push((rest & 0x7F) as u8);
        rest >>= 7;
    }
    (groups, fill)
}
