//! The rules of each instruction: 6, 21, 23, 24, 25, 29, 22 in this order.

use super::body::Check;
use super::order::{reference_fit, top_of, Fit};
use super::{counted, Holder, Shown};
use crate::syntax::{BranchingCast, Field, Heap, Instruction, New, Placed, Type, ValueType};
use std::ops::Range;

/// The refusal's number, its words, and the parts that they speak of.
type Broken = (u64, String, Vec<Shown>);

fn of_type(own: &Type, bytes: &Range<usize>, text: String) -> Vec<Shown> {
    vec![Shown { of: Holder::Section(own.input), bytes: bytes.clone(), text }]
}

impl Check<'_> {
    pub fn broken_rule(&self, instruction: &Instruction) -> Option<Broken> {
        self.number_absent(instruction)
            .or_else(|| self.label_or_local_absent(instruction))
            .or_else(|| self.not_such_a_struct(instruction))
            .or_else(|| self.field_fixed(instruction))
            .or_else(|| self.cast_unfit(instruction))
            .or_else(|| self.no_default(instruction))
            .or_else(|| self.local_not_set(instruction))
    }

    fn number_absent(&self, instruction: &Instruction) -> Option<Broken> {
        let number = instruction.numbers().into_iter().find(|&number| self.absent(number))?;
        Some((6, self.all.lacks(number), Vec::new()))
    }

    fn label_or_local_absent(&self, instruction: &Instruction) -> Option<Broken> {
        let (what, number, count) = match *instruction {
            Instruction::Br(label)
            | Instruction::BrIf(label)
            | Instruction::BranchingCast(BranchingCast { label, .. }) => {
                ("label", label, self.frames.len())
            }
            Instruction::LocalGet(local)
            | Instruction::LocalSet(local)
            | Instruction::LocalTee(local) => ("local", local, self.locals.len()),
            _ => return None,
        };
        if (number as usize) < count {
            return None;
        }
        let there = match (what, count) {
            ("label", 1) => "the function's own frame alone is open, label 0".to_string(),
            ("label", _) => format!("{count} frames are open, labels 0 to {}", count - 1),
            (_, 0) => "there are none".to_string(),
            (_, 1) => "there is one, local 0".to_string(),
            _ => format!("there are {count} with the parameters, locals 0 to {}", count - 1),
        };
        Some((21, format!("there is no {what} {number}: {there}"), Vec::new()))
    }

    fn type_of(&self, number: u32) -> &Type {
        &self.types[number as usize]
    }

    pub fn descriptor(&self, number: u32) -> Option<u32> {
        self.type_of(number).descriptor()
    }

    pub fn fields(&self, number: u32) -> &[Placed<Field>] {
        self.type_of(number).fields().unwrap_or(&[])
    }

    pub fn field(&self, number: u32, field: u32) -> Option<&Placed<Field>> {
        self.fields(number).get(field as usize)
    }

    /// 23: a struct, with the field, its descriptor there or not as is asked.
    fn not_such_a_struct(&self, instruction: &Instruction) -> Option<Broken> {
        let name = instruction.name();
        match *instruction {
            Instruction::New(New { number, by_descriptor: false, .. }) => {
                self.not_a_struct(name, number).or_else(|| self.unwanted_descriptor(name, number))
            }
            Instruction::New(New { number, .. }) | Instruction::GetDescriptor(number) => {
                self.not_a_struct(name, number).or_else(|| self.lacks_descriptor(name, number))
            }
            Instruction::GetField(number, field) | Instruction::SetField(number, field) => {
                self.not_a_struct(name, number).or_else(|| self.no_field(number, field))
            }
            Instruction::CastByDescriptor(target)
            | Instruction::BranchingCast(BranchingCast { by_descriptor: true, target, .. }) => {
                match target.heap.number() {
                    None => {
                        let words = format!(
                            "the target of {name} is {}, and no type with a descriptor",
                            target.heap
                        );
                        Some((23, words, Vec::new()))
                    }
                    Some(number) => self
                        .not_a_struct(name, number)
                        .or_else(|| self.lacks_descriptor(name, number)),
                }
            }
            _ => None,
        }
    }

    fn not_a_struct(&self, name: &str, number: u32) -> Option<Broken> {
        let own = self.type_of(number);
        if own.fields().is_some() {
            return None;
        }
        let words = format!("{} is a function, {name} takes a struct", self.all.name(number));
        let text = format!("{}: function", self.all.label(number));
        Some((23, words, of_type(own, &own.head, text)))
    }

    fn unwanted_descriptor(&self, name: &str, number: u32) -> Option<Broken> {
        let own = self.type_of(number);
        let clause = own.descriptor.as_ref()?;
        let (has, of) = (clause.what, self.all.name(number));
        let words = format!("{of} has descriptor {has}, {name} takes none that has");
        let text = format!("{}: descriptor {has}", self.all.label(number));
        Some((23, words, of_type(own, &clause.bytes, text)))
    }

    fn lacks_descriptor(&self, name: &str, number: u32) -> Option<Broken> {
        let own = self.type_of(number);
        if own.descriptor.is_some() {
            return None;
        }
        let of = self.all.name(number);
        let words = format!("{of} has no descriptor, {name} takes a type that has one");
        let text = format!("{}: no descriptor clause", self.all.label(number));
        Some((23, words, of_type(own, &own.bytes, text)))
    }

    fn no_field(&self, number: u32, field: u32) -> Option<Broken> {
        if self.field(number, field).is_some() {
            return None;
        }
        let own = self.type_of(number);
        let has = counted(self.fields(number).len(), "field");
        let words = format!("{} has {has}, and no field {field}", self.all.name(number));
        let text = format!("{}: {has}", self.all.label(number));
        Some((23, words, of_type(own, &own.head, text)))
    }

    fn field_fixed(&self, instruction: &Instruction) -> Option<Broken> {
        let Instruction::SetField(number, field) = *instruction else { return None };
        let found = self.field(number, field)?;
        if found.what.mutable {
            return None;
        }
        let text = format!("{}: field {field}: {}, fixed", self.all.label(number), found.what);
        let words = format!("field {field} of {} is fixed", self.all.name(number));
        Some((24, words, of_type(self.type_of(number), &found.bytes, text)))
    }

    /// 25: the label has types, source and target are of one hierarchy, the label's last type takes what is carried.
    fn cast_unfit(&self, instruction: &Instruction) -> Option<Broken> {
        let Instruction::BranchingCast(cast) = *instruction else { return None };
        let frame = self.frames.iter().rev().nth(cast.label as usize)?;
        let shown = self.label_shown(cast.label as usize);
        let (label, carried) = (cast.label, cast.carried());
        let last = match frame.label.last() {
            None => {
                let why = match frame.results.is_empty() {
                    true => "has no types",
                    false => "is a loop's and has no types",
                };
                let words = format!("label {label} {why}, and {carried} is carried to it");
                return Some((25, words, shown));
            }
            Some(last) => *last,
        };
        if let Some(words) = self.two_hierarchies(cast) {
            return Some((25, words, Vec::new()));
        }
        let taken = match last {
            ValueType::Ref(upper) => reference_fit(self.types, carried, upper) == Fit::Fits,
            _ => false,
        };
        if taken {
            return None;
        }
        let all: Vec<String> = frame.label.iter().map(ValueType::to_string).collect();
        let words = match all.len() {
            1 => format!("label {label} takes {last}, and {carried} is carried, which is not below it"),
            _ => format!(
                "label {label} takes {}, the last of them {last}, and {carried} is carried, which is \
                 not below it",
                all.join(", ")
            ),
        };
        Some((25, words, shown))
    }

    fn two_hierarchies(&self, cast: BranchingCast) -> Option<String> {
        let top = |heap: Heap| Heap::Abstract(top_of(self.types, heap));
        let (source, target) = (top(cast.source.heap), top(cast.target.heap));
        if source == target {
            return None;
        }
        Some(format!(
            "the source, {}, is of the hierarchy of {source}, and the target, {}, of that of {target}",
            cast.source, cast.target
        ))
    }

    /// The block, the loop or the function's results that a label stands for.
    fn label_shown(&self, label: usize) -> Vec<Shown> {
        let Some(frame) = self.frames.iter().rev().nth(label) else { return Vec::new() };
        match frame.opened {
            Some(at) => {
                let part = &self.parts[at];
                let text = format!("{}, label {label}", part.what);
                vec![Shown { of: Holder::Body, bytes: part.bytes.clone(), text }]
            }
            None => {
                let results: Vec<String> = frame.results.iter().map(ValueType::to_string).collect();
                let text = format!("results of the function, label {label}: {}", listed(&results));
                let bytes = self.function.results_head.start..self.function.bytes.end;
                of_type(self.function, &bytes, text)
            }
        }
    }

    fn no_default(&self, instruction: &Instruction) -> Option<Broken> {
        let Instruction::New(New { number, default: true, .. }) = *instruction else { return None };
        let fields = self.fields(number).iter().enumerate();
        let (at, field) = fields.into_iter().find(|(_, it)| !it.what.value.has_default())?;
        let (of, value) = (self.all.name(number), field.what.value);
        let words = format!("field {at} of {of}, {value}, has no default");
        let text = format!("{}: field {at}: {}", self.all.label(number), field.what);
        Some((29, words, of_type(self.type_of(number), &field.bytes, text)))
    }

    /// 22: where the local would have to be set.
    fn local_not_set(&self, instruction: &Instruction) -> Option<Broken> {
        let Instruction::LocalGet(local) = *instruction else { return None };
        if self.set[local as usize].is_some() {
            return None;
        }
        let value = self.locals[local as usize];
        let start = |at: usize| self.parts[at].bytes.start;
        let Some([by, opened, end]) = self.forgotten[local as usize] else {
            let words = format!(
                "local {local}, {value}, has no default and is not set before; a local.set or local.tee \
                 of it has to stand before, in this block or in one around it"
            );
            return Some((22, words, Vec::new()));
        };
        let words = format!(
            "local {local}, {value}, was set inside the block of bytes {} to {} and forgotten at its \
             end; it has to be set before that block or behind it",
            start(opened),
            start(end)
        );
        let shown = [(opened, ""), (by, ""), (end, ", where the set is forgotten")];
        let shown = shown.map(|(at, remark)| Shown {
            of: Holder::Body,
            bytes: self.parts[at].bytes.clone(),
            text: format!("{}{remark}", self.parts[at].what),
        });
        Some((22, words, shown.into()))
    }
}

fn listed(items: &[String]) -> String {
    match items.is_empty() {
        true => "none".to_string(),
        false => items.join(", "),
    }
}
