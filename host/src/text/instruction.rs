//! From text to bytes: a body's locals and instructions, flat or folded.

use super::assemble::{named, one_of_a_name, some_of_a_name, Types};
use super::encode::{self, Written};
use super::tokens::{read_unsigned, Fault, Words};
use crate::syntax::{float, BranchingCast, Instruction, New, Numeric, Plain, PLAIN};
use std::collections::HashMap;

/// Folded instructions inside one another.
const FOLDED_AT_MOST: usize = 500;

/// Before the count of an entry of locals that is not written out.
pub const TIMES: &str = "times=";

pub struct Code<'w, 'a> {
    words: &'w mut Words<'a>,
    types: Types<'a>,
    locals: HashMap<&'a str, u32>,
    count: u32,
    /// Names of the open blocks, the innermost last.
    labels: Vec<Option<&'a str>>,
    folded: usize,
}

impl<'w, 'a> Code<'w, 'a> {
    pub fn new(words: &'w mut Words<'a>, types: Types<'a>) -> Code<'w, 'a> {
        Code { words, types, locals: HashMap::new(), count: 0, labels: Vec::new(), folded: 0 }
    }

    /// A `(func ..)`, whose closing parenthesis is the last `end`, or what would stand in one; and nothing more.
    pub fn body(&mut self) -> Result<Vec<u8>, Fault> {
        let bytes = match self.words.opens() {
            Some("func") => self.function()?,
            _ => self.inside()?,
        };
        match self.words.peek() {
            None => Ok(bytes),
            Some(_) => Err(self.words.unexpected("nothing more")),
        }
    }

    /// A `(func ..)` that stands here.
    pub fn function(&mut self) -> Result<Vec<u8>, Fault> {
        if !self.words.takes_open("func") {
            return Err(self.words.unexpected("`(func`"));
        }
        let bytes = self.inside()?;
        self.words.wants(")")?;
        Ok(bytes)
    }

    /// What stands in a `(func ..)`.
    fn inside(&mut self) -> Result<Vec<u8>, Fault> {
        self.header()?;
        let mut bytes = self.entries()?;
        let mut ended = false;
        while self.words.peek().is_some_and(|text| text != ")") {
            if ended {
                return Err(self.words.fault("the body has ended before this"));
            }
            ended = self.instruction(&mut bytes)?;
        }
        if !self.labels.is_empty() {
            return Err(self.words.unexpected("`end` of a block"));
        }
        if !ended {
            bytes.push(0x0B);
        }
        Ok(bytes)
    }

    /// A name, a type, parameters and results: the body's bytes do not say them. Parameters are counted as locals; where they
    /// are not written, those of the type are, if the text defines it.
    fn header(&mut self) -> Result<(), Fault> {
        self.words.name();
        let at = self.words.at();
        let mut of_type = None;
        if self.words.takes_open("type") {
            let number = self.types.number(self.words)?;
            if self.types.lacks(number) {
                return Err(self.words.fault_at(at + 2, format!("there is no type {number}")));
            }
            of_type = self.types.function(number).cloned();
            self.words.wants(")")?;
        }
        let (mut taken, mut given) = (Vec::new(), Vec::new());
        while self.words.takes_open("param") {
            taken.extend(self.declared("param")?.into_iter().map(|written| written.value));
        }
        while self.words.takes_open("result") {
            while !self.words.takes(")") {
                given.push(self.types.value(self.words)?.value);
            }
        }
        match of_type {
            Some([parameters, _]) if taken.is_empty() && given.is_empty() => {
                self.count = parameters.len() as u32;
                Ok(())
            }
            Some(of_type) if of_type != [taken, given] => {
                Err(self.words.fault_at(at, "parameters and results are not those of this type"))
            }
            _ => Ok(()),
        }
    }

    /// The types up to a closing parenthesis, or one behind a name.
    fn declared(&mut self, word: &str) -> Result<Vec<Written>, Fault> {
        let what = match word {
            "param" => "parameter",
            _ => "parameter or local",
        };
        let name = named(self.words, &mut self.locals, self.count, what)?;
        let mut values = Vec::new();
        while !self.words.takes(")") {
            one_of_a_name(self.words, name, values.len() as u32)?;
            values.push(self.types.value(self.words)?);
        }
        some_of_a_name(self.words, name, values.len() as u32)?;
        self.count = self.count.saturating_add(values.len() as u32);
        Ok(values)
    }

    /// Locals: a run of one type in one `(local ..)` is an entry. An entry of none, or of very many, is written by its count,
    /// which no other tool reads.
    fn entries(&mut self) -> Result<Vec<u8>, Fault> {
        let mut entries: Vec<(u32, Written)> = Vec::new();
        while self.words.takes_open("local") {
            if let Some(times) = self.words.peek().and_then(|text| text.strip_prefix(TIMES)) {
                let unread = self.words.unexpected("times= and a count of locals");
                let times = read_unsigned(times).ok_or(unread)?;
                self.words.take();
                entries.push((times, self.types.value(self.words)?));
                self.words.wants(")")?;
                self.count = self.count.saturating_add(times);
                continue;
            }
            let first = entries.len();
            for value in self.declared("local")? {
                match entries[first..].last_mut() {
                    Some((times, last)) if *last == value => *times += 1,
                    _ => entries.push((1, value)),
                }
            }
        }
        let mut bytes = Vec::new();
        encode::unsigned(&mut bytes, entries.len() as u32);
        for (times, value) in entries {
            encode::unsigned(&mut bytes, times);
            encode::value(&mut bytes, value);
        }
        Ok(bytes)
    }

    /// One instruction; whether it was the `end` of the function itself.
    fn instruction(&mut self, to: &mut Vec<u8>) -> Result<bool, Fault> {
        if self.words.takes("(") {
            self.folded(to)?;
            return Ok(false);
        }
        match self.words.peek() {
            Some("block" | "loop") => self.open(to)?,
            Some("end") => {
                self.words.take();
                let open = self.labels.pop();
                self.end_name(open.flatten())?;
                to.push(0x0B);
                return Ok(open.is_none());
            }
            _ => {
                let plain = self.plain()?;
                encode::instruction(to, &plain);
            }
        }
        Ok(false)
    }

    /// Behind `end` a block's own name may stand, and no other.
    fn end_name(&mut self, own: Option<&str>) -> Result<(), Fault> {
        let at = self.words.at();
        match (self.words.name(), own) {
            (None, _) => Ok(()),
            (Some(name), Some(own)) if name == own => Ok(()),
            (Some(name), Some(own)) => Err(self
                .words
                .fault_at(at, format!("this `end` is that of {own}, and not of {name}"))),
            (Some(name), None) => {
                let why =
                    format!("this `end` is that of a block without a name, and not of {name}");
                Err(self.words.fault_at(at, why))
            }
        }
    }

    fn open(&mut self, to: &mut Vec<u8>) -> Result<(), Fault> {
        let is_loop = self.words.take() == Some("loop");
        let label = self.words.name();
        self.labels.push(label);
        let mut result = None;
        if self.words.takes_open("result") {
            result = Some(self.types.value(self.words)?);
            self.words.wants(")")?;
        }
        encode::block(to, is_loop, result);
        Ok(())
    }

    /// Behind its parenthesis: a block with what is in it, or an instruction with its operands.
    fn folded(&mut self, to: &mut Vec<u8>) -> Result<(), Fault> {
        self.folded += 1;
        if self.folded > FOLDED_AT_MOST {
            return Err(self.words.fault("too many folded instructions inside one another"));
        }
        if let Some("block" | "loop") = self.words.peek() {
            let outside = self.labels.len();
            self.open(to)?;
            while !self.words.takes(")") {
                if self.words.peek() == Some("end") && self.labels.len() == outside + 1 {
                    return Err(self.words.fault("the `end` of a folded block is its parenthesis"));
                }
                self.instruction(to)?;
            }
            if self.labels.len() != outside + 1 {
                return Err(self.words.fault("a block inside this one has no `end`"));
            }
            self.labels.pop();
            to.push(0x0B);
        } else {
            let plain = self.plain()?;
            while self.words.takes("(") {
                self.folded(to)?;
            }
            self.words.wants(")")?;
            encode::instruction(to, &plain);
        }
        self.folded -= 1;
        Ok(())
    }

    fn label(&mut self) -> Result<u32, Fault> {
        let fault = self.words.unexpected("the name of an open block");
        match self.words.name() {
            None => self.words.number("a label"),
            Some(name) => {
                let at = self.labels.iter().rev().position(|label| *label == Some(name));
                at.map(|at| at as u32).ok_or(fault)
            }
        }
    }

    fn local(&mut self) -> Result<u32, Fault> {
        let fault = self.words.unexpected("the name of a local");
        match self.words.name() {
            None => self.words.number("a local's number"),
            Some(name) => self.locals.get(name).copied().ok_or(fault),
        }
    }

    /// Any instruction but block, loop and end.
    fn plain(&mut self) -> Result<Instruction, Fault> {
        let unlisted = self.words.unexpected("an instruction");
        let name = self.words.take().unwrap_or("");
        if let Some(row) = PLAIN.iter().find(|row| row.2 == name && row.0 != Plain::End) {
            return Ok(Instruction::Plain(row.0));
        }
        if let Some(numeric) = Numeric::of_name(name) {
            return Ok(Instruction::Numeric(numeric));
        }
        Ok(match name {
            "br" => Instruction::Br(self.label()?),
            "br_if" => Instruction::BrIf(self.label()?),
            "local.get" => Instruction::LocalGet(self.local()?),
            "local.set" => Instruction::LocalSet(self.local()?),
            "local.tee" => Instruction::LocalTee(self.local()?),
            "i32.const" => Instruction::Constant(self.words.constant(32)? as i32),
            "i64.const" => Instruction::Constant64(self.words.constant(64)?),
            "f32.const" => Instruction::Float32(self.words.float(&float::F32)? as u32),
            "f64.const" => Instruction::Float64(self.words.float(&float::F64)?),
            "ref.null" => Instruction::Null(self.types.heap(self.words)?),
            "struct.new" => self.new_struct(false, false)?,
            "struct.new_default" => self.new_struct(true, false)?,
            "struct.new_desc" => self.new_struct(false, true)?,
            "struct.new_default_desc" => self.new_struct(true, true)?,
            "struct.get" => {
                let number = self.types.number(self.words)?;
                Instruction::GetField(number, self.types.field_number(self.words, number)?)
            }
            "struct.set" => {
                let number = self.types.number(self.words)?;
                Instruction::SetField(number, self.types.field_number(self.words, number)?)
            }
            "ref.get_desc" => Instruction::GetDescriptor(self.types.number(self.words)?),
            "ref.test" => Instruction::Test(self.types.reference(self.words)?),
            "ref.cast" => Instruction::Cast(self.types.reference(self.words)?),
            "ref.cast_desc_eq" => Instruction::CastByDescriptor(self.types.reference(self.words)?),
            "br_on_cast" => self.branching(false, false)?,
            "br_on_cast_fail" => self.branching(false, true)?,
            "br_on_cast_desc_eq" => self.branching(true, false)?,
            "br_on_cast_desc_eq_fail" => self.branching(true, true)?,
            _ => return Err(unlisted),
        })
    }

    fn new_struct(&mut self, default: bool, by_descriptor: bool) -> Result<Instruction, Fault> {
        let number = self.types.number(self.words)?;
        Ok(Instruction::New(New { number, default, by_descriptor }))
    }

    fn branching(&mut self, by_descriptor: bool, fail: bool) -> Result<Instruction, Fault> {
        let label = self.label()?;
        let source = self.types.reference(self.words)?;
        let target = self.types.reference(self.words)?;
        Ok(Instruction::BranchingCast(BranchingCast { by_descriptor, fail, label, source, target }))
    }
}
