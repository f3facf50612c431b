//! How a trial run ended, and what it left.

use super::around::around;
use super::state::{state_text, told};
use super::{counted, refusals, stacked, trap, wrapped};
use crate::dump;
use crate::read::section::Line;
use chelbugan::{Ended, Run};

pub fn ended(body: &[u8], run: &Run) -> String {
    let (how, place) = match run.ended {
        Ended::Done { steps, .. } => (done(steps, run), "the body's end"),
        Ended::Trap { number, place, steps } => {
            let why = trap::cause(body, number, place as usize, &run.state);
            let why = why.unwrap_or(refusals::title(number).to_string());
            (trapped(body, (number, place as usize), steps, &why), "the trapping instruction")
        }
        Ended::Spent { steps } => {
            (spent(body, steps, run.state.place() as usize), "the next instruction")
        }
    };
    format!("{how}\n{}", state_text(&run.state, place))
}

fn done(steps: u64, run: &Run) -> String {
    let results = run.state.operands();
    format!("done after {}, results: {}\n", counted(steps, "step"), stacked(&told(&results)))
}

fn trapped(body: &[u8], (number, place): (u64, usize), steps: u64, why: &str) -> String {
    let mut text = format!(
        "trap {number} at byte {place} of the body, after {}\n{}",
        counted(steps, "step"),
        wrapped(why)
    );
    if let Some(line) = instruction_at(body, place) {
        text += &around(body, line.bytes.clone());
        text.push('\n');
        text += &dump::line_text(body, &line);
    }
    text
}

fn spent(body: &[u8], steps: u64, place: usize) -> String {
    let mut text =
        format!("spent after {}\n  the next instruction would be\n", counted(steps, "step"));
    if let Some(line) = instruction_at(body, place) {
        text += &dump::line_text(body, &line);
    }
    text
}

/// Its line of the listing, not indented by the blocks around it.
fn instruction_at(body: &[u8], place: usize) -> Option<Line> {
    let lines = dump::body(body).lines;
    let line = lines.into_iter().find(|line| line.bytes.start == place)?;
    Some(Line { indent: 0, ..line })
}
