//! Type rules 1 to 5 of a section, asked type by type in two passes.
//!
//! First 6, 7 and the chain's 4 of every type; then 8 to 13 of every type.
//! Each rule answers whether a type keeps it; the place is the type's number, which is that
//! of the joined list.

use crate::order::{value_fit, Fit};
use crate::refusal::{
    refuse, Number, Refusal, CLAUSES_DISAGREE, CLAUSE_NOT_ON_STRUCT, DESCRIBES_NOT_EARLIER,
    OUT_OF_REACH, RULE_4, RULE_5, SIZE_EXCEEDED, SUPERTYPE_RULE_1, SUPERTYPE_RULE_2,
};
use crate::sizes;
use crate::syntax::{Definition, Field, Form, Type, ValueType};

type Rule = fn(&[Type], usize) -> bool;

const FIRST_PASS: [(Number, Rule); 3] = [
    (OUT_OF_REACH, numbers_in_reach),
    (SUPERTYPE_RULE_1, supertype_earlier_and_open),
    (SIZE_EXCEEDED, chain_short_enough),
];

const SECOND_PASS: [(Number, Rule); 6] = [
    (SUPERTYPE_RULE_2, matches_supertype),
    (CLAUSE_NOT_ON_STRUCT, clauses_on_struct),
    (DESCRIBES_NOT_EARLIER, describes_earlier),
    (CLAUSES_DISAGREE, clauses_agree),
    (RULE_4, descriptor_follows_supertype),
    (RULE_5, described_follows_supertype),
];

/// The types from `first` on. Those before it are a judged library: they name none of
/// these, so nothing about them is new.
pub fn judge_types(types: &[Type], first: usize) -> Result<(), Refusal> {
    pass(types, first, &FIRST_PASS)?;
    pass(types, first, &SECOND_PASS)
}

fn pass(types: &[Type], first: usize, rules: &[(Number, Rule)]) -> Result<(), Refusal> {
    for number in first..types.len() {
        if let Some((refusal, _)) = rules.iter().find(|(_, rule)| !rule(types, number)) {
            return refuse(*refusal, number);
        }
    }
    Ok(())
}

fn definition(types: &[Type], number: u32) -> &Definition {
    &types[number as usize].definition
}

/// Rule 1: a number may name any type up to the end of its own group.
fn numbers_in_reach(types: &[Type], number: usize) -> bool {
    let reach = types[number].reach;
    types[number].definition.numbers().iter().all(|&named| (named as usize) < reach)
}

/// Rule 1: at most one supertype; it is earlier and open.
fn supertype_earlier_and_open(types: &[Type], number: usize) -> bool {
    match types[number].definition.supertypes[..] {
        [] => true,
        [supertype] => (supertype as usize) < number && definition(types, supertype).open,
        _ => false,
    }
}

/// At most 63 steps from type to supertype. Every earlier type has kept rule 1.
fn chain_short_enough(types: &[Type], number: usize) -> bool {
    let mut steps = 0;
    let mut step = types[number].definition.supertype();
    while let Some(supertype) = step {
        steps += 1;
        step = definition(types, supertype).supertype();
    }
    steps <= sizes::CHAIN_STEPS
}

/// Rule 2: forms are equal and what they hold matches.
fn matches_supertype(types: &[Type], number: usize) -> bool {
    let own = &types[number].definition;
    let Some(supertype) = own.supertype() else {
        return true;
    };
    match (&own.form, &definition(types, supertype).form) {
        (Form::Struct(lower), Form::Struct(upper)) => fields_match(types, lower, upper),
        (
            Form::Function { parameters: lower_in, results: lower_out },
            Form::Function { parameters: upper_in, results: upper_out },
        ) => all_below(types, upper_in, lower_in) && all_below(types, lower_out, upper_out),
        _ => false,
    }
}

fn fields_match(types: &[Type], lower: &[Field], upper: &[Field]) -> bool {
    lower.len() >= upper.len()
        && lower.iter().zip(upper).all(|(lower, upper)| field_matches(types, lower, upper))
}

fn field_matches(types: &[Type], lower: &Field, upper: &Field) -> bool {
    match (lower.mutable, upper.mutable) {
        (true, true) => lower.value == upper.value,
        (false, false) => fits(types, lower.value, upper.value),
        _ => false,
    }
}

fn all_below(types: &[Type], lower: &[ValueType], upper: &[ValueType]) -> bool {
    lower.len() == upper.len()
        && lower.iter().zip(upper).all(|(&lower, &upper)| fits(types, lower, upper))
}

/// To be below but for null is not to match.
fn fits(types: &[Type], lower: ValueType, upper: ValueType) -> bool {
    match value_fit(types, lower, upper) {
        Fit::Fits => true,
        Fit::ButForNull | Fit::DoesNotFit => false,
    }
}

/// Rule 3: clauses stand on structs only; this is about the clause's own type.
fn clauses_on_struct(types: &[Type], number: usize) -> bool {
    let own = &types[number].definition;
    let no_clause = own.describes.is_none() && own.descriptor.is_none();
    no_clause || own.fields().is_some()
}

/// Rule 3: describes names an earlier type.
fn describes_earlier(types: &[Type], number: usize) -> bool {
    types[number].definition.describes.is_none_or(|described| (described as usize) < number)
}

/// Rule 3: if x has descriptor y then y describes x, and the reverse.
fn clauses_agree(types: &[Type], number: usize) -> bool {
    let own = &types[number].definition;
    let this = Some(number as u32);
    let described_back = own.descriptor.is_none_or(|y| definition(types, y).describes == this);
    let descriptor_back = own.describes.is_none_or(|x| definition(types, x).descriptor == this);
    described_back && descriptor_back
}

/// Rule 4: if the supertype has descriptor y, the type has a descriptor whose
/// supertype is y.
fn descriptor_follows_supertype(types: &[Type], number: usize) -> bool {
    let own = &types[number].definition;
    let above = own.supertype().and_then(|supertype| definition(types, supertype).descriptor);
    let Some(descriptor_above) = above else {
        return true;
    };
    own.descriptor.is_some_and(|y| definition(types, y).supertype() == Some(descriptor_above))
}

/// Rule 5: a type and its supertype both describe or neither does; the described
/// types stand as subtype and supertype too.
fn described_follows_supertype(types: &[Type], number: usize) -> bool {
    let own = &types[number].definition;
    let Some(supertype) = own.supertype() else {
        return true;
    };
    match (own.describes, definition(types, supertype).describes) {
        (None, None) => true,
        (Some(lower), Some(upper)) => definition(types, lower).supertype() == Some(upper),
        _ => false,
    }
}
