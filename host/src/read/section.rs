//! The parts of a section: groups, definitions, fields; and a line of the listing for each.

use super::reader::{Fault, Padded, Padding, Reader, BYTES_END, NOT_LISTED, SIZE_EXCEEDED};
use super::types;
use crate::syntax::{others, Form, Front, Placed, Type};
use chelbugan::Input;
use std::fmt::Display;
use std::ops::Range;

/// The sizes that a section's reader looks at: types of both sections together, and entries of a list.
const TYPES: usize = 1_024;
const ENTRIES: u32 = 64;

pub struct Section {
    pub groups: Vec<Group>,
    /// Its own alone.
    pub types: Vec<Type>,
    pub lines: Vec<Line>,
    /// Where the part begins that could not be read, and why; none where the whole section was.
    pub fault: Option<(usize, Fault)>,
    /// Of a reading that notes them.
    pub padded: Vec<Padded>,
}

/// The types of a group, by where they stand among the section's own; one definition alone is a group without 4E.
pub struct Group {
    pub members: Range<usize>,
    pub alone: bool,
}

pub struct Line {
    pub bytes: Range<usize>,
    pub indent: usize,
    pub text: String,
}

/// The library, whose types are the first.
pub fn read_library(bytes: &[u8], padding: Padding) -> Section {
    read(bytes, Input::Library, 0, padding)
}

/// The add-on's section after so many types of the library.
pub fn read_addon(bytes: &[u8], before: usize, padding: Padding) -> Section {
    read(bytes, Input::Addon, before, padding)
}

fn read(bytes: &[u8], input: Input, before: usize, padding: Padding) -> Section {
    let mut parts = Parts {
        input,
        before,
        reader: Reader::new(bytes, padding),
        groups: Vec::new(),
        types: Vec::new(),
        lines: Vec::new(),
        indent: 0,
        label: String::new(),
        from: 0,
    };
    let fault = parts.section().err();
    let from = parts.from;
    Section {
        groups: parts.groups,
        types: parts.types,
        lines: parts.lines,
        fault: fault.map(|fault| (from.min(fault.place), fault)),
        padded: parts.reader.padded,
    }
}

struct Parts<'a> {
    input: Input,
    before: usize,
    reader: Reader<'a>,
    groups: Vec<Group>,
    types: Vec<Type>,
    lines: Vec<Line>,
    indent: usize,
    /// Said on a definition's first line, whichever that is.
    label: String,
    /// Where the line begins that is being read.
    from: usize,
}

type Entry<T> = fn(&mut Reader) -> Result<T, Fault>;

impl Parts<'_> {
    /// A line for the bytes that were read since the last one.
    fn line(&mut self, text: String) -> Range<usize> {
        let text = std::mem::take(&mut self.label) + &text;
        let bytes = self.from..self.reader.place;
        self.lines.push(Line { bytes: bytes.clone(), indent: self.indent, text });
        self.from = self.reader.place;
        bytes
    }

    fn section(&mut self) -> Result<(), Fault> {
        let groups = self.reader.unsigned("the count of groups")?;
        self.line(counted(groups, "group"));
        for index in 0..groups {
            self.there("group", index, groups)?;
            self.group()?;
        }
        self.reader.ended()
    }

    /// A byte stands where an entry of a list has to begin.
    fn there(&self, what: &str, index: u32, count: u32) -> Result<(), Fault> {
        if self.reader.peek().is_some() {
            return Ok(());
        }
        let number = u64::from(index) + 1;
        let why = format!("the bytes end where {what} {number} of {count} has to begin");
        Err(Fault::new(BYTES_END, self.reader.place, why))
    }

    /// Of both sections, as far as they were read.
    fn count(&self) -> usize {
        self.before + self.types.len()
    }

    fn group(&mut self) -> Result<(), Fault> {
        let first = self.types.len();
        let alone = !self.reader.takes(0x4E);
        if alone {
            self.room()?;
            self.definition()?;
        } else {
            let count = self.reader.unsigned("the count of a group's definitions")?;
            self.line(format!("a group of {}", counted(count, "definition")));
            self.indent += 1;
            for index in 0..count {
                self.room()?;
                self.there("definition", index, count)?;
                self.definition()?;
            }
            self.indent -= 1;
        }
        let reach = self.count();
        self.types[first..].iter_mut().for_each(|member| member.reach = reach);
        self.groups.push(Group { members: first..self.types.len(), alone });
        Ok(())
    }

    fn room(&self) -> Result<(), Fault> {
        if self.count() < TYPES {
            return Ok(());
        }
        let why = match self.before {
            0 => "a type beyond the 1,024 that a section may have begins here".to_string(),
            before => format!(
                "a type beyond the 1,024 that the library and the add-on may have together begins \
                 here; the library has {before}"
            ),
        };
        Err(Fault::new(SIZE_EXCEEDED, self.reader.place, why))
    }

    fn definition(&mut self) -> Result<(), Fault> {
        let start = self.reader.place;
        self.label = format!("type {}: ", self.count());
        let front = self.front()?;
        let describes = self.clause(0x4C, "describes")?;
        let descriptor = self.clause(0x4D, "descriptor")?;
        let (head, results_head, form) = self.form()?;
        let bytes = start..self.reader.place;
        // The reach is known when the group has been read.
        let reach = 0;
        self.types.push(Type {
            input: self.input,
            bytes,
            front,
            describes,
            descriptor,
            head,
            results_head,
            form,
            reach,
        });
        Ok(())
    }

    fn front(&mut self) -> Result<Option<Placed<Front>>, Fault> {
        let open = match self.reader.peek() {
            Some(0x50) => true,
            Some(0x4F) => false,
            _ => return Ok(None),
        };
        self.reader.place += 1;
        let count = self.reader.unsigned("the count of supertypes")?;
        let mut supertypes = Vec::new();
        for _ in 0..count {
            supertypes.push(self.reader.unsigned("a supertype's number")?);
        }
        let front = Front { open, supertypes };
        let bytes = self.line(front.to_string());
        Ok(Some(Placed { bytes, what: front }))
    }

    fn clause(&mut self, code: u8, word: &str) -> Result<Option<Placed<u32>>, Fault> {
        if !self.reader.takes(code) {
            return Ok(None);
        }
        let number = self.reader.unsigned("a clause's type number")?;
        let bytes = self.line(format!("{word} {number}"));
        Ok(Some(Placed { bytes, what: number }))
    }

    fn form(&mut self) -> Result<(Range<usize>, Range<usize>, Form), Fault> {
        let start = self.reader.place;
        match self.reader.byte("5F, a struct, or 60, a function,")? {
            0x5F => {
                let (head, fields) = self.entries("struct of ", "field", types::field)?;
                Ok((head, 0..0, Form::Struct(fields)))
            }
            0x60 => {
                let (head, parameters) = self.entries("function of ", "parameter", types::value)?;
                let (results_head, results) = self.entries("", "result", types::value)?;
                Ok((head, results_head, Form::Function { parameters, results }))
            }
            byte => Err(Fault::new(
                NOT_LISTED,
                start,
                match others::name(&others::FORMS, byte) {
                    Some(name) => others::not_yet(format!("{byte:02x}"), name),
                    None => format!("{byte:02x} is neither 5f, a struct, nor 60, a function"),
                },
            )),
        }
    }

    fn entries<T: Display>(
        &mut self,
        before: &str,
        word: &str,
        read: Entry<T>,
    ) -> Result<(Range<usize>, Vec<Placed<T>>), Fault> {
        let count = self.reader.unsigned(&format!("the count of {word}s"))?;
        let head = self.line(format!("{before}{}", counted(count, word)));
        self.indent += 1;
        let mut entries = Vec::new();
        for number in 0..count {
            if number >= ENTRIES {
                let of = self.count();
                let why =
                    format!("a {word} beyond the {ENTRIES} that type {of} may have begins here");
                return Err(Fault::new(SIZE_EXCEEDED, self.reader.place, why));
            }
            self.there(word, number, count)?;
            let entry = read(&mut self.reader)?;
            let bytes = self.line(format!("{word} {number}: {entry}"));
            entries.push(Placed { bytes, what: entry });
        }
        self.indent -= 1;
        Ok((head, entries))
    }
}

pub fn counted(count: u32, word: &str) -> String {
    match count {
        1 => format!("1 {word}"),
        _ => format!("{count} {word}s"),
    }
}
