//! Rule 2: a type beside its supertype.

use super::order::{value_fit, Fit};
use super::section::type_part;
use super::{counted, Cause, Joined};
use crate::syntax::{Field, Form, Placed, Type, ValueType};
use std::ops::Range;

/// 8: rule 2, forms are equal and what they hold matches.
pub fn matches_supertype(all: &Joined, number: usize) -> Option<Cause> {
    let own = &all.types[number];
    let supertype = own.supertype()? as usize;
    let upper = &all.types[supertype];
    let pair = Pair { all, number, supertype };
    match (&own.form, &upper.form) {
        (Form::Struct(lower), Form::Struct(above)) => pair.fields(lower, above),
        (
            Form::Function { parameters, results },
            Form::Function { parameters: above_in, results: above_out },
        ) => pair
            .values("parameter", (parameters, &own.head), (above_in, &upper.head), true)
            .or_else(|| {
                let (low, high) = (&own.results_head, &upper.results_head);
                pair.values("result", (results, low), (above_out, high), false)
            }),
        (lower, _) => {
            let (is, is_not) = match lower {
                Form::Struct(_) => ("struct", "function"),
                Form::Function { .. } => ("function", "struct"),
            };
            let above = all.name(supertype);
            let words = format!("type {number} is a {is} and its supertype, {above}, a {is_not}");
            let cause = pair.told(words, &own.head, is);
            Some(pair.beside(cause, &upper.head, is_not))
        }
    }
}

/// A type and its supertype.
struct Pair<'a> {
    all: &'a Joined,
    number: usize,
    supertype: usize,
}

impl Pair<'_> {
    fn own(&self) -> &Type {
        &self.all.types[self.number]
    }

    fn upper(&self) -> &Type {
        &self.all.types[self.supertype]
    }

    fn told(&self, words: String, bytes: &Range<usize>, text: impl std::fmt::Display) -> Cause {
        let text = format!("{}: {text}", self.all.label(self.number));
        type_part(Cause::new(8, self.number, words), self.own(), bytes, text)
    }

    fn beside(&self, cause: Cause, bytes: &Range<usize>, text: impl std::fmt::Display) -> Cause {
        let text = format!("{}, its supertype: {text}", self.all.label(self.supertype));
        type_part(cause, self.upper(), bytes, text)
    }

    fn counts(
        &self,
        word: &str,
        (own, own_at): (usize, &Range<usize>),
        (upper, upper_at): (usize, &Range<usize>),
    ) -> Cause {
        let (number, supertype) = (self.number, self.all.name(self.supertype));
        let (has, above) = (counted(own, word), counted(upper, word));
        let words = format!("type {number} has {has} and its supertype, {supertype}, has {above}");
        self.beside(self.told(words, own_at, has), upper_at, above)
    }

    fn fields(&self, lower: &[Placed<Field>], upper: &[Placed<Field>]) -> Option<Cause> {
        let (own, above) = (self.own(), self.upper());
        if lower.len() < upper.len() {
            return Some(self.counts(
                "field",
                (lower.len(), &own.head),
                (upper.len(), &above.head),
            ));
        }
        lower.iter().zip(upper).enumerate().find_map(|(at, (low, high))| {
            let why = self.field_fault(low.what, high.what)?;
            let words = format!(
                "field {at} of type {} is {} and its supertype, {}, has {} there: {why}",
                self.number,
                low.what,
                self.all.name(self.supertype),
                high.what
            );
            let cause = self.told(words, &low.bytes, format!("field {at}: {}", low.what));
            Some(self.beside(cause, &high.bytes, format!("field {at}: {}", high.what)))
        })
    }

    fn field_fault(&self, lower: Field, upper: Field) -> Option<String> {
        match (lower.mutable, upper.mutable) {
            (true, true) if lower.value != upper.value => {
                Some("mutable fields have identical types".to_string())
            }
            (false, false) if value_fit(&self.all.types, lower.value, upper.value) != Fit::Fits => {
                Some(format!("{} is not below {}", lower.value, upper.value))
            }
            (true, false) | (false, true) => Some("mutability is equal in both".to_string()),
            _ => None,
        }
    }

    /// Parameters against, results along.
    fn values(
        &self,
        word: &str,
        (lower, lower_at): (&[Placed<ValueType>], &Range<usize>),
        (upper, upper_at): (&[Placed<ValueType>], &Range<usize>),
        against: bool,
    ) -> Option<Cause> {
        if lower.len() != upper.len() {
            return Some(self.counts(word, (lower.len(), lower_at), (upper.len(), upper_at)));
        }
        lower.iter().zip(upper).enumerate().find_map(|(at, (low, high))| {
            let (below, above) = match against {
                true => (high.what, low.what),
                false => (low.what, high.what),
            };
            if value_fit(&self.all.types, below, above) == Fit::Fits {
                return None;
            }
            let words = format!(
                "{word} {at} of type {} is {} and its supertype, {}, has {} there: {below} is not \
                 below {above}",
                self.number,
                low.what,
                self.all.name(self.supertype),
                high.what
            );
            let cause = self.told(words, &low.bytes, format!("{word} {at}: {}", low.what));
            Some(self.beside(cause, &high.bytes, format!("{word} {at}: {}", high.what)))
        })
    }
}
