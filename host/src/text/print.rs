//! From bytes to text.

use super::instruction::TIMES;
use crate::dump::{ends, opens};
use crate::read::{self, Fault, Padding};
use crate::syntax::{Abstract, Field, Form, Heap, Instruction, Item, Placed, Type, ValueType};
use std::ops::Range;

/// Blocks inside one another beyond these are not moved further to the right.
const INDENT_AT_MOST: usize = 8;

/// So many locals are written out, as many as the loader accepts; behind them, and of an entry of none, the count is.
pub const WRITTEN_OUT: u64 = 256;

/// A section whose types are numbered on after so many of the library, which its text names by their numbers.
pub fn section(bytes: &[u8], before: usize) -> Result<String, Fault> {
    let read = read::section::read_addon(bytes, before, Padding::Noted);
    if let Some((_, fault)) = read.fault {
        return Err(fault);
    }
    let printer = Printer { bytes, named: before..before + read.types.len() };
    let mut text = remark(!read.padded.is_empty()).to_string() + &library_remark(before);
    for group in &read.groups {
        let members = group.members.clone();
        let lines: Vec<String> =
            members.map(|own| printer.definition(before + own, &read.types[own])).collect();
        text += &match (group.alone, lines.is_empty()) {
            (true, _) => format!("{}\n", lines.concat()),
            (false, true) => "(rec)\n".to_string(),
            (false, false) => format!("(rec\n  {}\n)\n", lines.join("\n  ")),
        };
    }
    Ok(text)
}

pub fn body(bytes: &[u8]) -> Result<String, Fault> {
    let read = read::body::read_with(bytes, Padding::Noted);
    if let Some((_, fault)) = read.fault {
        return Err(fault);
    }
    let printer = Printer { bytes, named: 0..0 };
    let mut text = format!("{}(func\n", remark(!read.padded.is_empty()));
    let (mut frames, mut locals) = (1, 0);
    for (index, part) in read.parts.iter().enumerate() {
        if let Item::Locals(count, _) = part.what {
            locals += u64::from(count);
        }
        frames -= ends(part) as usize;
        // The last `end` is the closing parenthesis.
        if index + 1 < read.parts.len() {
            if let Some(line) = printer.part(part, locals) {
                text += &format!("{}{line}\n", "  ".repeat(frames.clamp(1, INDENT_AT_MOST)));
            }
        }
        frames += opens(part) as usize;
    }
    Ok(text + ")\n")
}

/// What the text does not say.
fn remark(padded: bool) -> &'static str {
    match padded {
        true => ";; numbers of these bytes are padded, which the loader refuses; assembled they are not\n",
        false => "",
    }
}

/// Whose numbers the text names without defining them.
fn library_remark(before: usize) -> String {
    match before {
        0 => String::new(),
        1 => ";; type 0 is the library's\n".to_string(),
        _ => format!(";; types 0 to {} are the library's\n", before - 1),
    }
}

struct Printer<'a> {
    bytes: &'a [u8],
    /// The numbers of the types that the text defines, which have a name.
    named: Range<usize>,
}

impl Printer<'_> {
    fn definition(&self, number: usize, own: &Type) -> String {
        let mut inner = Vec::new();
        if let Some(front) = &own.front {
            inner.extend((!front.what.open).then(|| "final".to_string()));
            inner.extend(front.what.supertypes.iter().map(|&supertype| self.number(supertype)));
        }
        let clause = |word: &str, number: u32| format!("({word} {})", self.number(number));
        inner.extend(own.describes().map(|number| clause("describes", number)));
        inner.extend(own.descriptor().map(|number| clause("descriptor", number)));
        inner.push(self.form(&own.form));
        let inner = inner.join(" ");
        match own.front {
            Some(_) => format!("(type ${number} (sub {inner}))"),
            None => format!("(type ${number} {inner})"),
        }
    }

    /// By its name where the section has it.
    fn number(&self, number: u32) -> String {
        match self.named.contains(&(number as usize)) {
            true => format!("${number}"),
            false => number.to_string(),
        }
    }

    fn form(&self, form: &Form) -> String {
        match form {
            Form::Struct(fields) => {
                let fields = fields.iter().map(|field| format!(" (field {})", self.field(field)));
                format!("(struct{})", fields.collect::<String>())
            }
            Form::Function { parameters, results } => {
                let (taken, given) =
                    (self.values("param", parameters), self.values("result", results));
                format!("(func{taken}{given})")
            }
        }
    }

    fn field(&self, field: &Placed<Field>) -> String {
        let value = self.value(field.what.value, field.bytes.start);
        match field.what.mutable {
            true => format!("(mut {value})"),
            false => value,
        }
    }

    fn values(&self, word: &str, values: &[Placed<ValueType>]) -> String {
        if values.is_empty() {
            return String::new();
        }
        let values = values.iter().map(|value| self.value(value.what, value.bytes.start));
        format!(" ({word} {})", values.collect::<Vec<_>>().join(" "))
    }

    /// An abstract code alone and 63 before it say the same and are written apart.
    fn value(&self, value: ValueType, at: usize) -> String {
        match value {
            ValueType::Ref(reference) => match Abstract::of_code(self.bytes[at]) {
                Some(heap) => heap.short().to_string(),
                None => {
                    let null = if reference.nullable { "null " } else { "" };
                    format!("(ref {null}{})", self.heap(reference.heap))
                }
            },
            number => number.to_string(),
        }
    }

    fn heap(&self, heap: Heap) -> String {
        match heap {
            Heap::Abstract(heap) => heap.name().to_string(),
            Heap::Defined(number) => self.number(number),
            Heap::Exact(number) => format!("(exact {})", self.number(number)),
        }
    }

    /// The count of entries is not written: they are there to be counted. With so many locals up to this one.
    fn part(&self, part: &Placed<Item>, locals: u64) -> Option<String> {
        match part.what {
            Item::Entries(_) => None,
            Item::Locals(count, value) => {
                let written = self.value(value, self.past_number(part.bytes.start));
                Some(match count > 0 && locals <= WRITTEN_OUT {
                    true => format!("(local{})", format!(" {written}").repeat(count as usize)),
                    false => format!("(local {TIMES}{count} {written})"),
                })
            }
            Item::Instruction(Instruction::Block(Some(value)) | Instruction::Loop(Some(value))) => {
                let Item::Instruction(instruction) = part.what else { return None };
                let written = self.value(value, part.bytes.start + 1);
                Some(format!("{} (result {written})", instruction.name()))
            }
            Item::Instruction(instruction) => Some(instruction.to_string()),
        }
    }

    /// Behind a number that begins here.
    fn past_number(&self, at: usize) -> usize {
        at + self.bytes[at..].iter().take_while(|&&byte| byte >= 0x80).count() + 1
    }
}
