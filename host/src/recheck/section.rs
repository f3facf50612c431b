//! The first fault of the types: the library by itself, its size, its bytes, then its types in two passes; then the add-on's
//! section likewise, its rules asked over both.

use super::clauses::{
    clauses_agree, clauses_on_struct, described_follows, describes_earlier, descriptor_follows,
};
use super::matching::matches_supertype;
use super::{counted, Cause, Holder, Joined, INPUT_BYTES};
use crate::read::section::{read_addon, read_library, Section};
use crate::read::{Fault, Padding};
use crate::sections::Sections;
use crate::syntax::{Form, Type};
use chelbugan::Input;
use std::ops::Range;

/// Steps up a supertype chain, over both sections.
const CHAIN: usize = 63;

pub fn judge(sections: &Sections) -> Result<Joined, Cause> {
    let (library, addon) = read_both(sections);
    readable(sections.library(), Input::Library, &library)?;
    rules_kept(&Joined::library(&library, &addon))?;
    readable(sections.addon(), Input::Addon, &addon)?;
    let both = Joined::both(sections, library, addon);
    rules_kept(&both)?;
    Ok(both)
}

/// The types as far as they can be read; nothing is judged.
pub fn read(sections: &Sections) -> Joined {
    let (library, addon) = read_both(sections);
    Joined::both(sections, library, addon)
}

fn read_both(sections: &Sections) -> (Section, Section) {
    let library = read_library(sections.library(), Padding::Refused);
    let addon = read_addon(sections.addon(), library.types.len(), Padding::Refused);
    (library, addon)
}

/// Size, then bytes.
fn readable(bytes: &[u8], input: Input, read: &Section) -> Result<(), Cause> {
    if bytes.len() > INPUT_BYTES {
        let what = match input {
            Input::Library => "a library",
            Input::Addon => "a section",
        };
        let why = format!("{what} has at most {INPUT_BYTES} bytes");
        return Err(Cause::at_byte(input, Fault::new(4, 0, why)));
    }
    match &read.fault {
        Some((_, fault)) => Err(Cause::at_byte(input, fault.clone())),
        None => Ok(()),
    }
}

/// Type by type 6, 7 and the chain, then type by type the others.
fn rules_kept(all: &Joined) -> Result<(), Cause> {
    let passes: [&[Rule]; 2] = [
        &[in_reach, supertype_open, chain_short],
        &[
            matches_supertype,
            clauses_on_struct,
            describes_earlier,
            clauses_agree,
            descriptor_follows,
            described_follows,
        ],
    ];
    for rules in passes {
        for number in all.judged() {
            if let Some(cause) = rules.iter().find_map(|rule| rule(all, number)) {
                return Err(cause);
            }
        }
    }
    Ok(())
}

type Rule = fn(&Joined, usize) -> Option<Cause>;

/// A part of a type beside the cause.
pub fn type_part(cause: Cause, own: &Type, bytes: &Range<usize>, text: String) -> Cause {
    cause.showing(Holder::Section(own.input), bytes, text)
}

/// A type's numbers with what names them and where.
fn named(own: &Type) -> Vec<(u32, &Range<usize>, String)> {
    let mut all = Vec::new();
    if let Some(front) = &own.front {
        let supertypes = front.what.supertypes.iter();
        all.extend(supertypes.map(|&number| (number, &front.bytes, "supertype".to_string())));
    }
    all.extend(own.describes.iter().map(|it| (it.what, &it.bytes, "describes".to_string())));
    all.extend(own.descriptor.iter().map(|it| (it.what, &it.bytes, "descriptor".to_string())));
    match &own.form {
        Form::Struct(fields) => all.extend(fields.iter().enumerate().filter_map(|(at, it)| {
            Some((it.what.value.number()?, &it.bytes, format!("field {at}")))
        })),
        Form::Function { parameters, results } => {
            for (entries, word) in [(parameters, "parameter"), (results, "result")] {
                all.extend(entries.iter().enumerate().filter_map(|(at, it)| {
                    Some((it.what.number()?, &it.bytes, format!("{word} {at}")))
                }));
            }
        }
    }
    all
}

/// 6: a number may name any type up to the end of its own group.
fn in_reach(all: &Joined, number: usize) -> Option<Cause> {
    let own = &all.types[number];
    let names = named(own);
    let (far, bytes, what) = names.iter().find(|(far, ..)| *far as usize >= own.reach)?;
    let why = out_of_reach(all, own, *far as usize);
    let cause = Cause::new(6, number, format!("{what} of type {number} names type {far}: {why}"));
    Some(type_part(cause, own, bytes, format!("{}: {what} names {far}", all.label(number))))
}

fn out_of_reach(all: &Joined, own: &Type, far: usize) -> String {
    let count = all.types.len();
    if far < count {
        let last = own.reach - 1;
        return format!("type {far} stands in a later group; the last of its own group is {last}");
    }
    match far - count < all.after {
        true => format!(
            "that would be the add-on's type {}, and the library cannot name the add-on's types; the \
             library has {}",
            far - count,
            counted(count, "type")
        ),
        false => all.lacks(far),
    }
}

/// 7: at most one supertype; it is earlier and open.
fn supertype_open(all: &Joined, number: usize) -> Option<Cause> {
    let own = &all.types[number];
    let front = own.front.as_ref()?;
    let told = |words: String| {
        let text = format!("{}: {}", all.label(number), front_text(own));
        type_part(Cause::new(7, number, words), own, &front.bytes, text)
    };
    match own.supertypes() {
        [] => None,
        [supertype] if *supertype as usize >= number => {
            Some(told(format!("type {number} has supertype {supertype}, which is not earlier")))
        }
        [supertype] => {
            let supertype = *supertype as usize;
            if all.types[supertype].is_open() {
                return None;
            }
            let upper = all.name(supertype);
            let cause = told(format!("{upper}, the supertype of type {number}, is final"));
            Some(front_shown(cause, all, supertype))
        }
        many => Some(told(format!("type {number} has {} supertypes; one is the most", many.len()))),
    }
}

fn front_text(own: &Type) -> String {
    own.front.as_ref().map_or("final".to_string(), |front| front.what.to_string())
}

/// Openness and supertypes of another type; its first bytes where it says neither.
pub fn front_shown(cause: Cause, all: &Joined, number: usize) -> Cause {
    let (other, label) = (&all.types[number], all.label(number));
    match &other.front {
        Some(front) => {
            type_part(cause, other, &front.bytes, format!("{label}: {}", front_text(other)))
        }
        None => {
            let text = format!("{label}: neither 50 nor 4f before it, so final, no supertype");
            type_part(cause, other, &other.head, text)
        }
    }
}

/// 4: at most 63 steps from type to supertype, and how many of them are taken inside the library.
fn chain_short(all: &Joined, number: usize) -> Option<Cause> {
    let (mut steps, mut in_library) = (0, 0);
    let mut at = number;
    while let Some(supertype) = all.types[at].supertype() {
        steps += 1;
        in_library += (at < all.before) as usize;
        at = supertype as usize;
    }
    if steps <= CHAIN {
        return None;
    }
    let of_them = match in_library {
        0 => String::new(),
        count => format!(", {count} of them in the library"),
    };
    let words = format!(
        "{steps} steps up the supertype chain of type {number}{of_them}; {CHAIN} are the most"
    );
    Some(front_shown(Cause::new(4, number, words), all, number))
}
