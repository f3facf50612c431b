//! A trial run instruction by instruction. The loader keeps no state between calls, so that each step is a run of its own, with
//! a budget that ends just before it: what is shown is the loader's own state and not that of a second interpreter.

use super::stacked;
use super::state::told;
use crate::ask::{self, AddOn};
use crate::dump;
use crate::read::section::Line;
use chelbugan::state::Value;
use chelbugan::Loader;
use std::collections::HashMap;

/// Instructions that are shown, the last ones of a longer run: a run of n steps costs n/2 times as many as it has, up to 1,000
/// times as many.
pub const SHOWN: u64 = 1_000;

/// An instruction and the operands that it found.
pub struct Step {
    /// The first is 1.
    pub number: u64,
    pub line: Line,
    pub operands: Vec<Value>,
}

/// Of a run that took so many steps, the one that trapped among them.
pub fn steps(add_on: &AddOn, count: u64) -> Vec<Step> {
    let lines = dump::body(&add_on.body).lines.into_iter();
    let lines: HashMap<u64, Line> = lines.map(|line| (line.bytes.start as u64, line)).collect();
    let mut loader = Loader::new();
    let shown = (count.saturating_sub(SHOWN)..count).filter_map(|before| {
        let run = ask::run(&mut loader, add_on, before).ok()?;
        let Line { bytes, text, .. } = lines.get(&run.state.place())?;
        let line = Line { bytes: bytes.clone(), indent: 0, text: text.clone() };
        Some(Step { number: before + 1, line, operands: run.state.operands() })
    });
    shown.collect()
}

/// A line each.
pub fn text(steps: &[Step]) -> String {
    let Some(first) = steps.first() else { return String::new() };
    let mut text = match first.number {
        1 => String::new(),
        number => format!(
            "the last {SHOWN} instructions; BUDGET {} shows those before them\n",
            number - 1
        ),
    };
    text += "    step  place  instruction                     operands that it found\n";
    for Step { number, line, operands } in steps {
        let (place, found) = (line.bytes.start, stacked(&told(operands)));
        text += &format!("{number:>8} {place:>6}  {:<30}  {found}\n", line.text);
    }
    text.push('\n');
    text
}
