//! From text to bytes: a section's definitions, and what types and names are made of.

use super::encode::{self, Written};
use super::instruction::Code;
use super::tokens::{Fault, Words};
use crate::syntax::{Heap, Reference, ValueType, ABSTRACT, NUMBERS};
use std::collections::HashMap;

/// Names by their numbers: of types, and of a type's fields.
pub type Names<'a> = HashMap<&'a str, u32>;

/// The first definition has the number after the library's last: so many come before it.
pub fn section(text: &str, before: usize) -> Result<Vec<u8>, Fault> {
    let mut words = Words::new(text)?;
    let in_module = words.takes_open(MODULE);
    let (types, bytes, _) = Types::read(&mut words, before as u32, in_module)?;
    drop(types);
    Ok(bytes)
}

/// A body alone, or that of the function in a module.
pub fn body(text: &str, before: usize) -> Result<Vec<u8>, Fault> {
    let mut words = Words::new(text)?;
    if !words.takes_open(MODULE) {
        return Code::new(&mut words, Types::default()).body();
    }
    let opened = words.at();
    let (types, _, function) = Types::read(&mut words, before as u32, true)?;
    let Some(function) = function else {
        return Err(words.fault_at(opened - 1, "this module has no function"));
    };
    words.go_to(function);
    Code::new(&mut words, types).function()
}

const MODULE: &str = "module";

/// Whether a text is a module.
pub fn is_module(text: &str) -> bool {
    Words::new(text).is_ok_and(|words| words.opens() == Some(MODULE))
}

/// Types by number and name. A body alone has no definitions: there `$0` is type 0.
#[derive(Default)]
pub struct Types<'a> {
    names: Names<'a>,
    /// Where the text defines types: how many, the library's among them.
    defined: Option<u32>,
    /// Of each struct that the text defines, its fields' names.
    fields: HashMap<u32, Names<'a>>,
    /// Of each function type that the text defines, parameters and results.
    functions: HashMap<u32, [Vec<ValueType>; 2]>,
    /// The number of the definition that is being read.
    next: u32,
}

/// The definitions' names, each with its number, before any definition is read: a type may name a later one. They stand beside
/// one another or in a `(rec ..)`.
fn type_names<'a>(words: &Words<'a>, before: u32, in_module: bool) -> Result<Names<'a>, Fault> {
    let mut names = HashMap::new();
    let (mut count, mut depth, mut in_group) = (before, 0, false);
    let outside = in_module as usize;
    for (at, token) in words.all().iter().enumerate() {
        let word = |further: usize| words.all().get(at + further).map(|token| token.text);
        match token.text {
            "(" => {
                if depth == outside {
                    in_group = word(1) == Some("rec");
                }
                let holds = depth == outside || depth == outside + 1 && in_group;
                if holds && word(1) == Some("type") {
                    let name = word(2).filter(|name| name.starts_with('$'));
                    if name.is_some_and(|name| names.insert(name, count).is_some()) {
                        let why =
                            format!("{} is the name of an earlier type too", word(2).unwrap_or(""));
                        return Err(words.fault_at(at + 2, why));
                    }
                    count += 1;
                }
                depth += 1;
            }
            ")" => depth = depth.saturating_sub(1),
            _ => (),
        }
    }
    Ok(names)
}

impl<'a> Types<'a> {
    /// All definitions and their section; and in a module where its one function begins.
    fn read(
        words: &mut Words<'a>,
        before: u32,
        in_module: bool,
    ) -> Result<(Types<'a>, Vec<u8>, Option<usize>), Fault> {
        let names = type_names(words, before, in_module)?;
        let mut types = Types { names, defined: Some(before), next: before, ..Types::default() };
        let (mut groups, mut bytes, mut function) = (0, Vec::new(), None);
        if in_module {
            words.name();
        }
        while words.peek().is_some_and(|text| !(in_module && text == ")")) {
            if in_module && words.opens() == Some("func") {
                if function.replace(words.at()).is_some() {
                    return Err(words.fault("a module has one function here, and this is another"));
                }
                words.pass_over()?;
                continue;
            }
            if words.takes_open("rec") {
                let (mut count, mut members) = (0, Vec::new());
                while !words.takes(")") {
                    types.definition(words, &mut members)?;
                    count += 1;
                }
                bytes.push(0x4E);
                encode::unsigned(&mut bytes, count);
                bytes.extend(members);
            } else if in_module && words.opens() != Some("type") {
                return Err(words.unexpected("`(type`, `(rec` or `(func`"));
            } else {
                types.definition(words, &mut bytes)?;
            }
            groups += 1;
        }
        if in_module {
            words.wants(")")?;
            if words.peek().is_some() {
                return Err(words.unexpected("nothing more"));
            }
        }
        types.defined = Some(types.next);
        let mut section = Vec::new();
        encode::unsigned(&mut section, groups);
        section.extend(bytes);
        Ok((types, section, function))
    }

    fn definition(&mut self, words: &mut Words<'a>, to: &mut Vec<u8>) -> Result<(), Fault> {
        if !words.takes_open("type") {
            return Err(words.unexpected("`(type` or `(rec`"));
        }
        words.name();
        let front = words.takes_open("sub");
        if front {
            to.push(if words.takes("final") { 0x4F } else { 0x50 });
            let mut supertypes = Vec::new();
            while words.peek() != Some("(") {
                supertypes.push(self.number(words)?);
            }
            encode::unsigned(to, supertypes.len() as u32);
            supertypes.iter().for_each(|&number| encode::unsigned(to, number));
        }
        for (word, code) in [("describes", 0x4C), ("descriptor", 0x4D)] {
            if words.takes_open(word) {
                to.push(code);
                encode::unsigned(to, self.number(words)?);
                words.wants(")")?;
            }
        }
        self.form(words, to)?;
        if front {
            words.wants(")")?;
        }
        self.next = self.next.saturating_add(1);
        words.wants(")")
    }

    fn form(&mut self, words: &mut Words<'a>, to: &mut Vec<u8>) -> Result<(), Fault> {
        if words.takes_open("struct") {
            to.push(0x5F);
            let (mut count, mut fields, mut names) = (0, Vec::new(), HashMap::new());
            while words.takes_open("field") {
                let named = named(words, &mut names, count, "field of this type")?;
                let first = count;
                while !words.takes(")") {
                    one_of_a_name(words, named, count - first)?;
                    self.field(words, &mut fields)?;
                    count += 1;
                }
                some_of_a_name(words, named, count - first)?;
            }
            self.fields.insert(self.next, names);
            encode::unsigned(to, count);
            to.extend(fields);
        } else if words.takes_open("func") {
            to.push(0x60);
            let taken = self.values(words, to, "param")?;
            let given = self.values(words, to, "result")?;
            self.functions.insert(self.next, [taken, given]);
        } else {
            return Err(words.unexpected("`(struct`, `(func` or a clause before them"));
        }
        words.wants(")")
    }

    fn field(&mut self, words: &mut Words, to: &mut Vec<u8>) -> Result<(), Fault> {
        let mutable = words.takes_open("mut");
        encode::value(to, self.value(words)?);
        if mutable {
            words.wants(")")?;
        }
        to.push(mutable as u8);
        Ok(())
    }

    fn values(
        &mut self,
        words: &mut Words<'a>,
        to: &mut Vec<u8>,
        word: &str,
    ) -> Result<Vec<ValueType>, Fault> {
        let (mut values, mut names, mut bytes) = (Vec::new(), HashMap::new(), Vec::new());
        while words.takes_open(word) {
            let named = match word {
                "param" => named(words, &mut names, values.len() as u32, "parameter of this type")?,
                _ => None,
            };
            let first = values.len();
            while !words.takes(")") {
                one_of_a_name(words, named, (values.len() - first) as u32)?;
                let value = self.value(words)?;
                encode::value(&mut bytes, value);
                values.push(value.value);
            }
            some_of_a_name(words, named, (values.len() - first) as u32)?;
        }
        encode::unsigned(to, values.len() as u32);
        to.extend(bytes);
        Ok(values)
    }

    /// A type by its number or name.
    pub fn number(&self, words: &mut Words) -> Result<u32, Fault> {
        let at = words.at();
        match (words.name(), self.defined) {
            (None, _) => words.number("a type's number or name"),
            (Some(name), Some(_)) => self
                .names
                .get(name)
                .copied()
                .ok_or_else(|| words.fault_at(at, format!("no type is named {name}"))),
            (Some(name), None) => name[1..].parse().map_err(|_| {
                let why = "in a body alone a type is named by its number, as 0 or $0; a (module ..) has names";
                words.fault_at(at, why)
            }),
        }
    }

    /// A field of a type by its number or name.
    pub fn field_number(&self, words: &mut Words, of: u32) -> Result<u32, Fault> {
        let at = words.at();
        let Some(name) = words.name() else { return words.number("a field's number or name") };
        let found = self.fields.get(&of).and_then(|names| names.get(name)).copied();
        found.ok_or_else(|| {
            let why = match self.defined {
                None => "in a body alone a field is named by its number; a (module ..) has names"
                    .to_string(),
                Some(_) => format!("type {of} has no field that is named {name}"),
            };
            words.fault_at(at, why)
        })
    }

    /// Parameters and results of a function type that the text defines.
    pub fn function(&self, number: u32) -> Option<&[Vec<ValueType>; 2]> {
        self.functions.get(&number)
    }

    /// Whether the text defines types, and this is none of them and none of the library's.
    pub fn lacks(&self, number: u32) -> bool {
        self.defined.is_some_and(|count| number >= count)
    }

    pub fn heap(&self, words: &mut Words) -> Result<Heap, Fault> {
        if words.takes_open("exact") {
            let number = self.number(words)?;
            words.wants(")")?;
            return Ok(Heap::Exact(number));
        }
        if let Some(row) = words.peek().and_then(|text| ABSTRACT.iter().find(|row| row.2 == text)) {
            words.take();
            return Ok(Heap::Abstract(row.0));
        }
        self.number(words).map(Heap::Defined)
    }

    pub fn value(&self, words: &mut Words) -> Result<Written, Fault> {
        if let Some(row) = words.peek().and_then(|text| NUMBERS.iter().find(|row| row.2 == text)) {
            words.take();
            return Ok(Written { value: row.0, short: false });
        }
        let short = words.peek().and_then(|text| ABSTRACT.iter().find(|row| row.3 == text));
        if let Some(row) = short {
            words.take();
            let value = ValueType::nullable(Heap::Abstract(row.0));
            return Ok(Written { value, short: true });
        }
        if !words.takes_open("ref") {
            return Err(words.unexpected("a value type"));
        }
        let nullable = words.takes("null");
        let heap = self.heap(words)?;
        words.wants(")")?;
        Ok(Written { value: ValueType::Ref(Reference { nullable, heap }), short: false })
    }

    pub fn reference(&self, words: &mut Words) -> Result<Reference, Fault> {
        let fault = words.unexpected("a reference type");
        match self.value(words)?.value {
            ValueType::Ref(reference) => Ok(reference),
            _ => Err(fault),
        }
    }
}

/// A name that stands here, which is kept with its number; what has it once already is told.
pub fn named<'a>(
    words: &mut Words<'a>,
    names: &mut Names<'a>,
    number: u32,
    what: &str,
) -> Result<Option<&'a str>, Fault> {
    let at = words.at();
    let Some(name) = words.name() else { return Ok(None) };
    match names.insert(name, number) {
        Some(_) => Err(words.fault_at(at, format!("{name} is the name of an earlier {what} too"))),
        None => Ok(Some(name)),
    }
}

/// A name is that of one: before each type.
pub fn one_of_a_name(words: &Words, name: Option<&str>, before: u32) -> Result<(), Fault> {
    match name {
        Some(name) if before > 0 => {
            Err(words.fault(format!("{name} names one, and this is a second type behind it")))
        }
        _ => Ok(()),
    }
}

/// A name is that of one: behind the last.
pub fn some_of_a_name(words: &Words, name: Option<&str>, count: u32) -> Result<(), Fault> {
    match name {
        Some(name) if count == 0 => {
            Err(words.fault_at(words.at() - 1, format!("{name} needs its type before this")))
        }
        _ => Ok(()),
    }
}
