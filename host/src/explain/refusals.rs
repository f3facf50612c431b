//! `chelbugan explain` and docs/REFUSALS.md, both made from the list of numbers. A test runs every example and every mend of
//! it through the loader.

use crate::ask::{self, AddOn};
use crate::commands::types;
use crate::sections::Sections;
use chelbugan::{calls, Loader, Refusal};

pub struct Entry {
    pub number: u64,
    /// The documents' words for it.
    pub title: &'static str,
    /// What it means, in plain words.
    pub means: &'static str,
    pub place: &'static str,
    /// Document 01's words for the rule, as document 02 amends them.
    pub rule: &'static str,
    pub examples: &'static [Example],
}

pub struct Example {
    pub broken: Case,
    /// The refusal's place, or the trap's: what the loader is held to.
    #[cfg_attr(not(test), allow(dead_code))]
    pub place: u64,
    pub why: &'static str,
    pub mended: Case,
    pub mend: &'static str,
}

/// What is asked.
#[derive(Clone, Copy)]
pub enum Case {
    Section(&'static str),
    /// A section after a library.
    After(&'static str, &'static str),
    /// The same, and the library is at fault.
    Library(&'static str, &'static str),
    Body(&'static str, &'static str, u64),
    Run(&'static str, &'static str, u64, u64),
    /// A section judged with so many words lent for `rows`: the program itself lends enough.
    Rows(&'static str, usize),
}

pub use super::numbers::ENTRIES;
use Case::{After, Body, Library, Rows, Run, Section};

/// The greatest number of a refusal; traps come after.
const LAST_REFUSAL: u64 = 32;

impl Entry {
    pub fn is_trap(&self) -> bool {
        self.number > LAST_REFUSAL
    }

    pub fn kind(&self) -> &'static str {
        match self.is_trap() {
            true => "trap",
            false => "refusal",
        }
    }
}

pub fn entry(number: u64) -> Option<&'static Entry> {
    ENTRIES.iter().find(|entry| entry.number == number)
}

/// Document 01's words for a refusal or trap.
pub fn title(number: u64) -> &'static str {
    entry(number).map_or("a number that this program has no words for", |entry| entry.title)
}

/// The numbers in words.
pub const NUMBERS: &str = "refusals 1 to 14, 20 to 25, 27 to 29, 31 and 32, and traps 41 to 46";

impl Case {
    /// As a person asks it.
    pub fn command(&self) -> String {
        match self {
            Section(section) => format!("chelbugan check '{section}'"),
            After(library, section) | Library(library, section) => {
                format!("chelbugan check --library '{library}' '{section}'")
            }
            Body(section, body, number) => format!("chelbugan check '{section}' '{body}' {number}"),
            Run(section, body, number, budget) => {
                format!("chelbugan run '{section}' '{body}' {number} {budget}")
            }
            Rows(section, words) => {
                format!("chelbugan_judge_section of {section}, with `rows` of {words} elements")
            }
        }
    }
}

impl Case {
    /// The first line that the program says, as it asks the loader; of a call that the program cannot make, the refusal.
    pub fn answer(&self) -> String {
        let mut loader = Loader::new();
        match *self {
            Section(section) => section_answer(&mut loader, Sections::new(None, bytes(section))),
            After(library, section) | Library(library, section) => {
                let sections = Sections::new(Some(bytes(library)), bytes(section));
                section_answer(&mut loader, sections)
            }
            Body(section, body, number) => {
                let add_on = add_on(section, body, number);
                match ask::body(&mut loader, &add_on) {
                    Ok(count) => format!("yes: {}", super::counted(count, "instruction")),
                    Err(refusal) => super::body_refusal(&add_on, refusal).headline,
                }
            }
            Run(section, body, number, budget) => {
                let add_on = add_on(section, body, number);
                match ask::run(&mut loader, &add_on, budget) {
                    Ok(run) => first_line(&super::ended(&add_on.body, &run)),
                    Err(refusal) => super::body_refusal(&add_on, refusal).headline,
                }
            }
            Rows(section, words) => {
                let (mut rows, mut shared) = (vec![0; words], vec![0; calls::SHARED]);
                let mut codes = vec![0; calls::CODES];
                let library = calls::EMPTY_LIBRARY;
                let judged = calls::judge_section(
                    library,
                    &bytes(section),
                    &mut rows,
                    &mut shared,
                    &mut codes,
                );
                match judged {
                    Ok(_) => "yes".to_string(),
                    Err(Refusal { number, place, .. }) => {
                        format!("no: refusal {number} at {place}")
                    }
                }
            }
        }
    }
}

fn section_answer(loader: &mut Loader, sections: Sections) -> String {
    match ask::section(loader, &sections) {
        Ok(table) => format!("yes: {}", types(&table, sections.has_library())),
        Err(refusal) => super::section_refusal(&sections, refusal).headline,
    }
}

fn first_line(text: &str) -> String {
    text.lines().next().unwrap_or("").to_string()
}

/// Of the examples, which are hex digits.
fn bytes(text: &str) -> Vec<u8> {
    crate::hex::read_text(text).unwrap_or_default()
}

fn add_on(section: &str, body: &str, number: u64) -> AddOn {
    AddOn { sections: Sections::new(None, bytes(section)), body: bytes(body), number }
}

/// For a terminal.
pub fn text(entry: &Entry) -> String {
    let mut text = format!("{} {}: {}\n\n", entry.kind(), entry.number, entry.title);
    for (name, words) in [("meaning", entry.means), ("place", entry.place), ("rule", entry.rule)] {
        text += &format!("{name}\n{}", super::wrapped(words));
    }
    for example in entry.examples {
        text += &format!(
            "\nexample: {}\n  {}\n  {}\nmended: {}\n  {}\n  {}\n",
            example.why,
            example.broken.command(),
            example.broken.answer(),
            example.mend,
            example.mended.command(),
            example.mended.answer()
        );
    }
    text
}

/// All of them, a line each.
pub fn list() -> String {
    let lines =
        ENTRIES.iter().map(|it| format!("{:>3}  {:<8} {}\n", it.number, it.kind(), it.title));
    lines.collect()
}

/// docs/REFUSALS.md.
pub fn page() -> String {
    let mut text = "\
# Refusals and traps

For whoever got a no, or a trap, and has to mend an add-on. `chelbugan explain N` prints the same for one number. This page is \
made by `chelbugan explain --page`, and a test runs every example and every mend of it through the loader.

A refusal has a number and a place. The place is a byte's offset, from 0; or a type's number, from 0; or 0 where neither is \
meant. Of an instruction it is the first byte. Of a byte of a type section the answer says in which of the two sections it lies: \
the library, which comes first, or the add-on's. Type numbers count through both, the library's first. Without a library the \
answer speaks of none. All faults of the library come before any of the add-on's. The numbers are 1 to 14, 20 to 25, 27 to 29, 31 and 32; there is no 15 to 19, no 26 and no 30. \
Traps are 41 to 46: the add-on was accepted, and its trial run stopped there.

| No. | When | Place |
|---|---|---|
"
    .to_string();
    for entry in ENTRIES {
        text += &format!(
            "| [{0}](#{1}-{0}) | {2} | {3} |\n",
            entry.number,
            entry.kind(),
            entry.title,
            entry.place
        );
    }
    for entry in ENTRIES {
        text += &section_text(entry);
    }
    text
}

fn section_text(entry: &Entry) -> String {
    let kind = if entry.is_trap() { "Trap" } else { "Refusal" };
    let mut text =
        format!("\n## {kind} {}\n\n**{}.** {}\n\n", entry.number, entry.title, entry.means);
    text += &format!("Place: {}\n\nRule: \"{}\"\n", entry.place, entry.rule);
    for example in entry.examples {
        text += &format!(
            "\nExample, {}:\n\n    {}\n    {}\n\nMended, {}:\n\n    {}\n    {}\n",
            example.why,
            example.broken.command(),
            example.broken.answer(),
            example.mend,
            example.mended.command(),
            example.mended.answer()
        );
    }
    text
}

#[cfg(test)]
mod tests {
    use super::*;
    use chelbugan::{Ended, Input};

    /// The loader's answer: Ok with the trap's number and place, or 0 where nothing stopped it.
    fn answer(case: Case) -> Result<(u64, u64), Refusal> {
        let mut loader = Loader::new();
        match case {
            Section(section) => {
                let sections = Sections::new(None, bytes(section));
                ask::section(&mut loader, &sections).map(|_| (0, 0))
            }
            After(library, section) | Library(library, section) => {
                let sections = Sections::new(Some(bytes(library)), bytes(section));
                ask::section(&mut loader, &sections).map(|_| (0, 0))
            }
            Body(section, body, number) => {
                ask::body(&mut loader, &add_on(section, body, number)).map(|_| (0, 0))
            }
            Run(section, body, number, budget) => {
                let add_on = add_on(section, body, number);
                ask::run(&mut loader, &add_on, budget).map(|run| match run.ended {
                    Ended::Done { .. } => (0, 0),
                    Ended::Trap { number, place, .. } => (number, place),
                    Ended::Spent { .. } => panic!("{section}, {body} is spent"),
                })
            }
            Rows(section, words) => {
                let (mut rows, mut shared) = (vec![0; words], vec![0; calls::SHARED]);
                let (library, section) = (calls::EMPTY_LIBRARY, bytes(section));
                let codes = &mut vec![0; calls::CODES];
                calls::judge_section(library, &section, &mut rows, &mut shared, codes)
                    .map(|_| (0, 0))
            }
        }
    }

    /// The section that a place is a byte of; byte faults alone have such a place.
    fn input(case: Case, number: u64) -> Option<Input> {
        match (case, number) {
            (Library(..), 1..=5 | 32) => Some(Input::Library),
            (Section(_) | After(..), 1..=5 | 32) => Some(Input::Addon),
            _ => None,
        }
    }

    #[test]
    fn every_example_and_every_mend_is_the_loaders() {
        for entry in ENTRIES {
            assert!(!entry.examples.is_empty());
            for example in entry.examples {
                let (number, place) = (entry.number, example.place);
                let input = input(example.broken, number);
                let wanted = match entry.is_trap() {
                    true => Ok((number, place)),
                    false => Err(Refusal { number, place, input }),
                };
                assert_eq!(answer(example.broken), wanted, "{}", example.broken.command());
                assert_eq!(answer(example.mended), Ok((0, 0)), "{}", example.mended.command());
            }
        }
    }

    #[test]
    fn the_numbers_are_the_documents() {
        let numbers: Vec<u64> = ENTRIES.iter().map(|entry| entry.number).collect();
        let wanted: Vec<u64> =
            (1..=14).chain(20..=25).chain(27..=29).chain(31..=32).chain(41..=46).collect();
        assert_eq!(numbers, wanted);
    }

    #[test]
    fn the_page_is_made_from_this_list() {
        let file = concat!(env!("CARGO_MANIFEST_DIR"), "/../docs/REFUSALS.md");
        let there = std::fs::read_to_string(file).expect("docs/REFUSALS.md");
        assert!(there == page(), "write it again: chelbugan explain --page > docs/REFUSALS.md");
    }
}
