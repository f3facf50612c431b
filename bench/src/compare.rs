//! Two archives on the same inputs in one run, in turns. Each is linked with a program of this benchmark, which is asked for
//! its measures.

use crate::inputs::{Input, Numbers};
use crate::{machine, measure};
use std::io;
use std::process::{Command, Stdio};

/// Each archive has a turn in every round, so that a while of other work falls on both.
const ROUNDS: usize = 20;

/// For each input the figures that its line has after its name.
type Figures = Vec<Vec<f64>>;

/// What was measured of an archive.
struct Archive {
    /// Microseconds: the least of a round, and the median.
    rounds: Vec<Figures>,
    /// Of one call; none where they cannot be counted.
    instructions: Option<Figures>,
}

impl Archive {
    fn least(&self, input: usize) -> f64 {
        measure::least(self.rounds.iter().map(|round| round[input][0]).collect())
    }

    fn median(&self, input: usize) -> f64 {
        measure::median(self.rounds.iter().map(|round| round[input][1]).collect())
    }

    fn instructions(&self, input: usize) -> Option<f64> {
        self.instructions.as_ref().map(|figures| figures[input][0])
    }
}

/// The machine and a table, of the program before and the program after.
pub fn compared(programs: [&str; 2], text: &[&str], inputs: &[Input]) -> io::Result<String> {
    let mut archives = programs.map(|program| Archive {
        rounds: Vec::new(),
        instructions: instructions(program, text, inputs),
    });
    for _ in 0..ROUNDS {
        for (program, archive) in programs.iter().zip(&mut archives) {
            archive.rounds.push(asked(program, &[&["loader"], text].concat(), inputs)?);
        }
    }
    let (machine, table) = (machine::kind(), table(inputs, &archives));
    Ok(format!("Machine: {machine}.\n\n{table}"))
}

fn instructions(program: &str, text: &[&str], inputs: &[Input]) -> Option<Figures> {
    let counter = concat!(env!("CARGO_MANIFEST_DIR"), "/count-instructions");
    asked(counter, &[&[program], text].concat(), inputs).ok()
}

/// A program that says a line for each input.
fn asked(program: &str, arguments: &[&str], inputs: &[Input]) -> io::Result<Figures> {
    let said = Command::new(program).args(arguments).stderr(Stdio::inherit()).output()?;
    let text = String::from_utf8_lossy(&said.stdout);
    let lines = text.lines().zip(inputs);
    let figures: Vec<_> = lines.filter_map(|(line, input)| figures(line, input)).collect();
    match said.status.success() && figures.len() == inputs.len() {
        true => Ok(figures),
        false => Err(io::Error::other(format!("{program} says no line for each input"))),
    }
}

/// None in the line of another input, or without figures.
fn figures(line: &str, input: &Input) -> Option<Vec<f64>> {
    let figures = line.strip_prefix(&input.to_string())?.strip_prefix('\t')?;
    figures.split('\t').map(|figure| figure.parse().ok()).collect()
}

fn table(inputs: &[Input], archives: &[Archive; 2]) -> String {
    let mut text = String::from("| Input | Bytes | Numbers | Before, µs (median) | After, µs (median) | Ratio (of medians) | Before, thousand instructions | After, thousand instructions | Ratio |\n");
    text += "|---|---|---|---|---|---|---|---|---|\n";
    for (index, input) in inputs.iter().enumerate() {
        let numbers = input.numbers.map(|Numbers { all, .. }| all as f64);
        let [least, median] = [Archive::least, Archive::median]
            .map(|of| archives.each_ref().map(|archive| of(archive, index)));
        let counts = archives.each_ref().map(|archive| archive.instructions(index));
        text += &format!(
            "| {input} | {} | {} | {:.1} ({:.1}) | {:.1} ({:.1}) | {:.3} ({:.3}) | {} | {} | {} |\n",
            input.amount(),
            told(numbers, 0),
            least[0],
            median[0],
            least[1],
            median[1],
            least[1] / least[0],
            median[1] / median[0],
            told(counts[0].map(|count| count / 1000.0), 0),
            told(counts[1].map(|count| count / 1000.0), 0),
            told(counts[0].zip(counts[1]).map(|(before, after)| after / before), 3)
        );
    }
    text
}

fn told(figure: Option<f64>, decimals: usize) -> String {
    figure.map_or("-".to_string(), |figure| format!("{figure:.decimals$}"))
}
