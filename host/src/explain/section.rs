//! The refusal of a library or of an add-on's section.

use super::around::{around, item_at, remark, Wanted};
use super::{of_types, reason, shown_text, wrapped, Told};
use crate::recheck::{self, Cause, Joined, INPUT_BYTES};
use crate::sections::{self, Sections};
use chelbugan::{Input, Refusal};

/// What a refusal's place is.
#[derive(Clone, Copy)]
enum Place {
    Byte(Input, usize),
    Type(u64),
    /// The size of an input.
    Whole(Input),
    /// Neither byte nor type.
    Nothing,
}

pub fn section_refusal(sections: &Sections, refusal: Refusal) -> Told {
    let all = recheck::section::read(sections);
    let cause = cause_of(sections, refusal);
    let place = place_of(sections, refusal);
    let holder = holder_of(&all, place);
    let words = reason(refusal.number, cause.as_ref());
    let mut text = wrapped(&words) + &marked(sections, &all, place, refusal.number);
    if let Some(cause) = &cause {
        text += &shown(sections, cause, holder);
    }
    let (place_is, at) = named(sections, &all, place);
    Told {
        headline: format!("no: refusal {} at {at}", refusal.number),
        of: match holder {
            Some(input) if sections.has_library() => of_types(input),
            _ => "section",
        },
        place_is,
        own_number: match place {
            Place::Type(number) => own_number(&all, number),
            _ => None,
        },
        words,
        remark: holder.and_then(|input| remark(sections.of(input), Wanted::Section)),
        text,
        mended: None,
    }
}

/// Where the second check came to the loader's refusal, or the section was asked for a type that is not there.
fn cause_of(sections: &Sections, refusal: Refusal) -> Option<Cause> {
    match recheck::section::judge(sections) {
        Ok(all) => absent(&all, refusal),
        Err(cause) => Some(cause).filter(|cause| cause.refusal == refusal),
    }
}

/// Asked for a type that is not there: no rule of the sections is broken.
fn absent(all: &Joined, refusal: Refusal) -> Option<Cause> {
    let number = refusal.place;
    let words = format!("{}; there is no type {number}", all.has());
    (refusal.number == 6).then(|| Cause::new(6, number as usize, words))
}

/// A place with an input is a byte there, 0 for the whole of it where it is too long; any other is a type's number, but for
/// the 0 of 14.
fn place_of(sections: &Sections, refusal: Refusal) -> Place {
    match (refusal.input, refusal.number) {
        (Some(input), 4) if sections.of(input).len() > INPUT_BYTES => Place::Whole(input),
        (Some(input), _) => Place::Byte(input, refusal.place as usize),
        (None, 14) => Place::Nothing,
        (None, _) => Place::Type(refusal.place),
    }
}

/// The section at fault.
fn holder_of(all: &Joined, place: Place) -> Option<Input> {
    match place {
        Place::Byte(input, _) | Place::Whole(input) => Some(input),
        Place::Type(number) => all.type_of(number).map(|own| own.input),
        Place::Nothing => None,
    }
}

fn own_number(all: &Joined, number: u64) -> Option<usize> {
    all.own_number(usize::try_from(number).ok()?)
}

/// The bytes at fault, marked.
fn marked(sections: &Sections, all: &Joined, place: Place, number: u64) -> String {
    match place {
        Place::Byte(input, at) => {
            let bytes = sections.of(input);
            around(bytes, item_at(bytes, at, number))
        }
        Place::Type(number) => all
            .type_of(number)
            .map_or(String::new(), |own| around(sections.of(own.input), own.bytes.clone())),
        Place::Whole(_) | Place::Nothing => String::new(),
    }
}

/// First the parts of the section at fault, whose bytes stand above, then those of the other one.
fn shown(sections: &Sections, cause: &Cause, holder: Option<Input>) -> String {
    let first = holder.unwrap_or(Input::Addon);
    let (second, heading) = match first {
        Input::Library => (Input::Addon, "  in the add-on:\n"),
        Input::Addon => (Input::Library, "  in the library:\n"),
    };
    let of = |input, before| {
        shown_text(cause, recheck::Holder::Section(input), sections.of(input), before)
    };
    of(first, "\n") + &of(second, heading)
}

/// As JSON has it, and in a headline. Where no library was named, nothing is said of the input.
fn named(sections: &Sections, all: &Joined, place: Place) -> (&'static str, String) {
    let of = |input| match sections.has_library() {
        true => format!(" of {}", sections::words(input)),
        false => String::new(),
    };
    match place {
        Place::Byte(input, at) => ("byte", format!("byte {at}{}", of(input))),
        Place::Whole(input) => ("whole", format!("byte 0{}, for the whole input", of(input))),
        Place::Nothing => ("whole", "byte 0, for the whole input".to_string()),
        Place::Type(number) => {
            let library = holder_of(all, place) == Some(Input::Library);
            let at = match library {
                true => format!("type {number}{}", of(Input::Library)),
                false => all.label(number),
            };
            ("type", at)
        }
    }
}
