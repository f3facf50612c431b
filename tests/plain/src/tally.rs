//! Counts the kinds of answer in a list of answer lines.

use std::collections::BTreeMap;

/// What an answer is, without its places, steps and state.
fn kind(answer: &str) -> String {
    let parts: Vec<&str> = answer.split(' ').collect();
    match parts[..] {
        ["no" | "trap", number, ..] => format!("{} {number:>2}", parts[0]),
        [word, ..] => word.to_string(),
        [] => "nothing".to_string(),
    }
}

pub fn tally<'a>(answers: impl Iterator<Item = &'a str>) -> BTreeMap<String, usize> {
    let mut counts = BTreeMap::new();
    for answer in answers {
        *counts.entry(kind(answer)).or_insert(0) += 1;
    }
    counts
}
