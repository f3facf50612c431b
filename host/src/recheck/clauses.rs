//! Rules 3 to 5: clauses, and how they follow the supertype. Asked where 6 and 7 hold of every type.

use super::section::{front_shown, type_part};
use super::{Cause, Joined};

/// 9: clauses stand on structs only.
pub fn clauses_on_struct(all: &Joined, number: usize) -> Option<Cause> {
    let own = &all.types[number];
    let clause = own.describes.as_ref().map(|it| (it, "describes"));
    let (clause, word) = clause.or(own.descriptor.as_ref().map(|it| (it, "descriptor")))?;
    if own.fields().is_some() {
        return None;
    }
    let words = format!("type {number} is a function and says {word} {}", clause.what);
    let text = format!("{}: {word} {}", all.label(number), clause.what);
    let cause = type_part(Cause::new(9, number, words), own, &clause.bytes, text);
    Some(type_part(cause, own, &own.head, "function".to_string()))
}

/// 10: describes names an earlier type.
pub fn describes_earlier(all: &Joined, number: usize) -> Option<Cause> {
    let own = &all.types[number];
    let clause = own.describes.as_ref()?;
    let described = clause.what;
    if (described as usize) < number {
        return None;
    }
    let words = format!("type {number} describes type {described}, which is not earlier");
    let text = format!("{}: describes {described}", all.label(number));
    Some(type_part(Cause::new(10, number, words), own, &clause.bytes, text))
}

fn or_nothing(number: Option<u32>) -> String {
    number.map_or("nothing".to_string(), |number| number.to_string())
}

fn or_none(number: Option<u32>) -> String {
    number.map_or("none".to_string(), |number| number.to_string())
}

/// The clause of a type; its form where it has no such clause.
fn clause_shown(cause: Cause, all: &Joined, number: usize, word: &str) -> Cause {
    let (own, label) = (&all.types[number], all.label(number));
    let clause = if word == "describes" { &own.describes } else { &own.descriptor };
    match clause {
        Some(clause) => {
            type_part(cause, own, &clause.bytes, format!("{label}: {word} {}", clause.what))
        }
        None => type_part(cause, own, &own.bytes, format!("{label}: no {word} clause")),
    }
}

/// 11: if x has descriptor y then y describes x, and the reverse.
pub fn clauses_agree(all: &Joined, number: usize) -> Option<Cause> {
    descriptor_answered(all, number).or_else(|| describes_answered(all, number))
}

fn descriptor_answered(all: &Joined, number: usize) -> Option<Cause> {
    let descriptor = all.types[number].descriptor()?;
    let describes = all.types[descriptor as usize].describes();
    if describes == Some(number as u32) {
        return None;
    }
    let mut words = format!(
        "type {number} has descriptor {descriptor}, but {} describes {}",
        all.name(descriptor),
        or_nothing(describes)
    );
    if all.across(number, descriptor) {
        words += "; a type of the library cannot describe one of the add-on";
    }
    let cause = clause_shown(Cause::new(11, number, words), all, number, "descriptor");
    Some(clause_shown(cause, all, descriptor as usize, "describes"))
}

fn describes_answered(all: &Joined, number: usize) -> Option<Cause> {
    let described = all.types[number].describes()?;
    let descriptor = all.types[described as usize].descriptor();
    if descriptor == Some(number as u32) {
        return None;
    }
    let mut words = format!(
        "type {number} describes {described}, but the descriptor of {} is {}",
        all.name(described),
        or_none(descriptor)
    );
    if all.across(number, described) {
        words += "; a type of the library cannot have its descriptor in the add-on";
    }
    let cause = clause_shown(Cause::new(11, number, words), all, number, "describes");
    Some(clause_shown(cause, all, described as usize, "descriptor"))
}

/// 12, rule 4: if the supertype has descriptor y, the type has a descriptor whose supertype is y.
pub fn descriptor_follows(all: &Joined, number: usize) -> Option<Cause> {
    let own = &all.types[number];
    let supertype = own.supertype()? as usize;
    let wanted = all.types[supertype].descriptor()?;
    let (words, other) = match own.descriptor() {
        None => (format!("type {number} has none"), None),
        Some(has) => {
            let above = all.types[has as usize].supertype();
            if above == Some(wanted) {
                return None;
            }
            let words = format!(
                "type {number} has descriptor {has}, whose supertype is {} and not {wanted}",
                or_none(above)
            );
            (words, Some(has as usize))
        }
    };
    let upper = all.name(supertype);
    let words = format!("{upper}, its supertype, has descriptor {wanted}; {words}");
    let cause = clause_shown(Cause::new(12, number, words), all, number, "descriptor");
    let cause = clause_shown(cause, all, supertype, "descriptor");
    Some(match other {
        None => cause,
        Some(has) => front_shown(cause, all, has),
    })
}

/// 13, rule 5: both describe or neither does; the described types stand as subtype and supertype too.
pub fn described_follows(all: &Joined, number: usize) -> Option<Cause> {
    let own = &all.types[number];
    let supertype = own.supertype()? as usize;
    let upper = &all.types[supertype];
    let mut words = format!(
        "type {number} describes {}; {}, its supertype, describes {}",
        or_nothing(own.describes()),
        all.name(supertype),
        or_nothing(upper.describes())
    );
    let mut other = None;
    match (own.describes(), upper.describes()) {
        (None, None) => return None,
        (Some(lower), Some(above)) => {
            let has = all.types[lower as usize].supertype();
            if has == Some(above) {
                return None;
            }
            words += &format!(", but the supertype of {} is {}", all.name(lower), or_none(has));
            other = Some(lower as usize);
        }
        _ => (),
    }
    let cause = clause_shown(Cause::new(13, number, words), all, number, "describes");
    let cause = clause_shown(cause, all, supertype, "describes");
    Some(match other {
        None => cause,
        Some(lower) => front_shown(cause, all, lower),
    })
}
