//! The loader asked, one place for each call.

use crate::sections::Sections;
use chelbugan::{Input, Loader, Refusal, Run, Table};

/// A body with its sections and the number of its function type.
pub struct AddOn {
    pub sections: Sections,
    pub body: Vec<u8>,
    pub number: u64,
}

pub fn section<'a>(loader: &'a mut Loader, sections: &Sections) -> Result<Table<'a>, Refusal> {
    loader.judge_section(sections.library(), sections.addon())
}

/// The definition's bytes, and the section that holds them.
pub fn type_bytes<'s>(
    loader: &mut Loader,
    sections: &'s Sections,
    number: u64,
) -> Result<(&'s [u8], Input), Refusal> {
    loader.type_bytes(sections.library(), sections.addon(), number)
}

/// The body's count of instructions.
pub fn body(loader: &mut Loader, add_on: &AddOn) -> Result<u64, Refusal> {
    let AddOn { sections, body, number } = add_on;
    loader.judge_body(sections.library(), sections.addon(), body, *number)
}

pub fn run<'a>(loader: &'a mut Loader, add_on: &AddOn, budget: u64) -> Result<Run<'a>, Refusal> {
    let AddOn { sections, body, number } = add_on;
    loader.try_run(sections.library(), sections.addon(), body, *number, budget)
}
