//! The refusal of a body, or of its run, whose sections were accepted.

use super::around::{around, item_at, remark, Wanted};
use super::{reason, shown_text, stacked, wrapped, Told};
use crate::ask::AddOn;
use crate::dump;
use crate::read;
use crate::read::section::Line;
use crate::recheck::{self, Cause, Holder, Joined, Operands, INPUT_BYTES};
use crate::sections::Sections;
use crate::syntax::{Form, Item, Placed, Plain, PLAIN};
use chelbugan::{Input, Refusal};

const SIZE_EXCEEDED: u64 = 4;
const BUFFER_TOO_SMALL: u64 = 14;
const NOT_A_FUNCTION: u64 = 27;
const NO_DEFAULT: u64 = 29;
const NUMBER_PADDED: u64 = 32;

/// What a refusal's place is.
enum Place {
    Byte(usize),
    /// An instruction or an entry of the locals, of its parts.
    Part(usize),
    TypeNumber,
    WholeInput,
    /// Of a run.
    Budget,
    Parameters,
}

pub fn body_refusal(add_on: &AddOn, refusal: Refusal) -> Told {
    let AddOn { sections, body, number } = add_on;
    let all = recheck::section::read(sections);
    let parts = read::body::read(body).parts;
    let place = place_of(body, &parts, refusal);
    let cause = match place {
        Place::Budget => Some(Cause::new(4, 0, "the budget is more than 1,000,000")),
        Place::Parameters => Some(without_default(&all, *number)),
        _ => recheck::body::judge(&all, *number, body).err(),
    };
    let cause = cause.filter(|cause| cause.refusal == refusal);
    let words = reason(refusal.number, cause.as_ref());
    let mut text = wrapped(&words);
    match place {
        Place::Byte(at) => text += &around(body, item_at(body, at, refusal.number)),
        Place::Part(index) => text += &part_text(body, &parts[index], cause.as_ref()),
        _ => (),
    }
    if let Some(cause) = &cause {
        let before = match place {
            Place::Part(_) => "",
            _ => "\n",
        };
        text += &shown_text(cause, Holder::Body, body, before);
        text += &types_shown(cause, sections);
    }
    let (place_is, at) = named(&parts, &place, refusal.place);
    let headline = format!("no: refusal {} at {at}", refusal.number);
    let remark = remark(body, Wanted::Body);
    let non_null_at = cause.and_then(|cause| cause.non_null_at);
    let mended = non_null_at.map(|at| with_non_null(body, at));
    if let (Some(at), Some(mended)) = (non_null_at, &mended) {
        text += &format!("  mended, with {:02x} at byte {at}:\n", AS_NON_NULL);
        text += &around(mended, at..at + 1);
    }
    Told { headline, of: "body", place_is, own_number: None, words, remark, text, mended }
}

const AS_NON_NULL: u8 = PLAIN[Plain::AsNonNull as usize].1;

/// The body with ref.as_non_null at a place.
fn with_non_null(body: &[u8], at: usize) -> Vec<u8> {
    let (before, behind) = body.split_at(at);
    [before, &[AS_NON_NULL], behind].concat()
}

/// The parts of types that a cause speaks of, by the section that holds them.
fn types_shown(cause: &Cause, sections: &Sections) -> String {
    let addon = match sections.has_library() {
        true => "  in the add-on:\n",
        false => "  in the section:\n",
    };
    let of = |input, before| shown_text(cause, Holder::Section(input), sections.of(input), before);
    of(Input::Library, "  in the library:\n") + &of(Input::Addon, addon)
}

/// A byte fault is the item's; every other place is where an instruction or an entry of the locals begins. Neither begins at
/// 0, where the count of entries stands.
fn place_of(body: &[u8], parts: &[Placed<Item>], refusal: Refusal) -> Place {
    let at = refusal.place as usize;
    match refusal.number {
        NOT_A_FUNCTION => Place::TypeNumber,
        BUFFER_TOO_SMALL => Place::WholeInput,
        SIZE_EXCEEDED if body.len() > INPUT_BYTES => Place::WholeInput,
        SIZE_EXCEEDED if at == 0 => Place::Budget,
        NO_DEFAULT if at == 0 => Place::Parameters,
        1..=3 | 5 | NUMBER_PADDED => Place::Byte(at),
        _ => parts
            .iter()
            .position(|part| part.bytes.start == at)
            .map_or(Place::Byte(at), Place::Part),
    }
}

fn named(parts: &[Placed<Item>], place: &Place, at: u64) -> (&'static str, String) {
    match place {
        Place::Byte(_) => ("byte", format!("byte {at} of the body")),
        Place::Part(index) => {
            let is = match parts[*index].what {
                Item::Instruction(_) => "instruction",
                _ => "locals entry",
            };
            (is, format!("byte {at} of the body"))
        }
        Place::TypeNumber => ("type number", format!("{at}, for the type's number")),
        Place::WholeInput => ("whole", format!("byte {at} of the body, for the whole input")),
        Place::Budget => ("budget", format!("{at}, for the budget")),
        Place::Parameters => ("parameters", format!("{at}, for the parameters")),
    }
}

/// The parameters that 0 stands for.
fn without_default(all: &Joined, number: u64) -> Cause {
    let function = all.type_of(number).map(|own| (own, &own.form));
    let Some((own, Form::Function { parameters, .. })) = function else {
        return Cause::new(0, 0, "");
    };
    let lacking = parameters.iter().enumerate().filter(|(_, value)| !value.what.has_default());
    let lacking: Vec<_> = lacking.collect();
    let named: Vec<String> =
        lacking.iter().map(|(at, value)| format!("parameter {at} is {}", value.what)).collect();
    let words = format!(
        "a run starts with zero or null parameters, and {} without a default",
        named.join(", ")
    );
    lacking.iter().fold(Cause::new(NO_DEFAULT, 0, words), |cause, (at, value)| {
        let text = format!("{}: parameter {at}: {}", all.label(number), value.what);
        cause.showing(Holder::Section(own.input), &value.bytes, text)
    })
}

/// The part marked, its own line, not indented by the blocks around it, and for the operands what it takes and what was there.
fn part_text(body: &[u8], part: &Placed<Item>, cause: Option<&Cause>) -> String {
    let line = Line { bytes: part.bytes.clone(), indent: 0, text: part.what.to_string() };
    let marked = around(body, part.bytes.clone());
    let operands = cause.and_then(|cause| cause.operands.as_deref());
    let operands = operands.map_or(String::new(), operands_text);
    format!("{marked}\n{}{operands}", dump::line_text(body, &line))
}

fn operands_text(operands: &Operands) -> String {
    let Operands { wanted, there, unreachable } = operands;
    // Of one operand the cause says it all.
    if wanted.len() <= 1 && there.len() <= 1 && !unreachable {
        return String::new();
    }
    let there = match (unreachable, there.is_empty()) {
        (false, _) => stacked(there),
        (true, true) => UNKNOWNS.to_string(),
        (true, false) => format!("{UNKNOWNS}, {}", stacked(there)),
    };
    format!(
        "        it takes, the top last: {}\n        its block has, the top last: {there}\n",
        stacked(wanted)
    )
}

/// Below the operands of a frame whose code cannot be reached.
const UNKNOWNS: &str = "unknowns (unreachable)";
