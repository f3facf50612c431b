//! An answer told to a person. A refusal or a trap: its number, its place, its one cause, and the bytes that it speaks of. A
//! run: how it ended, and its state.

pub mod accepted;
mod around;
mod body;
mod numbers;
pub mod refusals;
mod run;
mod section;
mod state;
pub mod trace;
pub mod trap;

pub use body::body_refusal;
pub use run::ended;
pub use section::section_refusal;

use crate::dump;
use crate::read::section::Line;
use crate::recheck::{Cause, Holder};
use chelbugan::Input;

/// A refusal in words.
pub struct Told {
    /// Number and place.
    pub headline: String,
    /// Whose bytes the place is in: `section`, or `library` or `addon` where a library was named, or `body`.
    pub of: &'static str,
    pub place_is: &'static str,
    /// Of a type at fault, its number in its own section where that is another one.
    pub own_number: Option<usize>,
    /// The cause, on one line.
    pub words: String,
    /// What the input is, where it is another thing than what was wanted.
    pub remark: Option<String>,
    /// What stands below the headline.
    pub text: String,
    /// The whole input with the mend that the cause speaks of.
    pub mended: Option<Vec<u8>>,
}

impl Told {
    pub fn whole(&self) -> String {
        let remark = self.remark.as_ref().map_or(String::new(), |remark| wrapped(remark));
        format!("{}\n{}{remark}", self.headline, self.text)
    }

    pub fn line(&self) -> String {
        format!("{}: {}", self.headline, self.cause())
    }

    /// The cause and the remark, on one line.
    pub fn cause(&self) -> String {
        match &self.remark {
            Some(remark) => format!("{}; {remark}", self.words),
            None => self.words.clone(),
        }
    }
}

const WIDTH: usize = 100;

/// A section as the answers name it.
fn of_types(input: Input) -> &'static str {
    match input {
        Input::Library => "library",
        Input::Addon => "addon",
    }
}

/// The cause, where the check by itself came to the loader's refusal; else document 01's words for the number.
fn reason(number: u64, cause: Option<&Cause>) -> String {
    match cause {
        Some(cause) => cause.words.clone(),
        None => refusals::title(number).to_string(),
    }
}

/// Of a part that is shown beside the cause.
const SHOWN_BYTES: usize = 16;

/// The parts of an input that a cause speaks of, behind a line of their own where there are any.
fn shown_text(cause: &Cause, of: Holder, bytes: &[u8], before: &str) -> String {
    let shown: Vec<_> = cause.shown.iter().filter(|shown| shown.of == of).collect();
    if shown.is_empty() {
        return String::new();
    }
    let lines = shown.into_iter().map(|shown| {
        let end = shown.bytes.end.min(shown.bytes.start + SHOWN_BYTES);
        let line = Line { bytes: shown.bytes.start..end, indent: 0, text: shown.text.clone() };
        let rest = match end < shown.bytes.end {
            true => format!("        and on, to byte {}\n", shown.bytes.end - 1),
            false => String::new(),
        };
        dump::line_text(bytes, &line) + &rest
    });
    before.to_string() + &lines.collect::<String>()
}

/// Words in lines of a width that a terminal has, a little to the right. What is in parentheses stays together.
fn wrapped(words: &str) -> String {
    let mut lines = vec![String::new()];
    let mut depth = 0;
    let apart = |character: char| {
        depth += (character == '(') as usize;
        depth -= (character == ')' && depth > 0) as usize;
        character == ' ' && depth == 0
    };
    for word in words.split(apart) {
        let line = lines.last_mut().expect("there is always a line");
        if line.len() + word.len() < WIDTH || line.is_empty() {
            line.push(' ');
            line.push_str(word);
        } else {
            lines.push(format!(" {word}"));
        }
    }
    lines.iter().map(|line| format!(" {line}\n")).collect()
}

/// Of a list too long to show whole, so many.
const SHOWN: usize = 8;

/// The bottom first; of more than a few, the topmost and how many lie below them.
fn stacked<T: ToString>(items: &[T]) -> String {
    let hidden = items.len().saturating_sub(SHOWN);
    let mut shown: Vec<String> = items[hidden..].iter().map(T::to_string).collect();
    match (items.is_empty(), hidden) {
        (true, _) => return "nothing".to_string(),
        (_, 0) => (),
        _ => shown.insert(0, format!("{hidden} more")),
    }
    shown.join(", ")
}

fn counted(count: u64, word: &str) -> String {
    match count {
        1 => format!("1 {word}"),
        _ => format!("{count} {word}s"),
    }
}

#[cfg(test)]
mod tests {
    use super::*;
    use crate::ask::AddOn;
    use crate::sections::Sections;
    use chelbugan::Refusal;

    fn alone(section: &[u8]) -> Sections {
        Sections::new(None, section.to_vec())
    }

    /// Where the check by itself comes to another number, place or input, only what the loader said is told.
    #[test]
    fn the_loaders_verdict_is_the_one_told() {
        let sections = alone(&[0x00, 0x00]);
        let of_addon = |number, place| Refusal { number, place, input: Some(Input::Addon) };
        assert_eq!(section_refusal(&sections, of_addon(5, 1)).words, "1 byte is left over");
        let others = [
            of_addon(5, 0),
            of_addon(3, 1),
            Refusal { number: 5, place: 1, input: Some(Input::Library) },
            Refusal { number: 8, place: 0, input: None },
        ];
        for refusal in others {
            let told = section_refusal(&sections, refusal);
            assert!(told.headline.starts_with(&format!("no: refusal {} at ", refusal.number)));
            assert_eq!(told.words, refusals::title(refusal.number));
        }
        let sections = alone(&[0x01, 0x60, 0x00, 0x00]);
        let add_on = AddOn { sections, body: vec![0x00, 0x1A, 0x0B], number: 0 };
        let of_body = |number, place| Refusal { number, place, input: None };
        let own = body_refusal(&add_on, of_body(20, 1));
        assert_eq!(own.words, "drop wants any value on top, and its block has no operand");
        for (number, place) in [(20, 2), (23, 1), (28, 2), (3, 9)] {
            let told = body_refusal(&add_on, of_body(number, place));
            assert_eq!(told.headline, format!("no: refusal {number} at byte {place} of the body"));
            assert_eq!(told.words, refusals::title(number));
            assert!(!told.text.contains("it takes"), "{}", told.text);
        }
    }

    /// 31 tells what 20 would, and what would do; the instruction is marked, and the one that put the operand there is shown.
    #[test]
    fn only_null_is_told() {
        let sections = alone(&[0x02, 0x5F, 0x00, 0x60, 0x00, 0x01, 0x64, 0x00]);
        let body = vec![0x00, 0xD0, 0x00, 0x0B];
        let add_on = AddOn { sections, body, number: 1 };
        let told = body_refusal(&add_on, Refusal { number: 31, place: 3, input: None });
        assert_eq!(told.headline, "no: refusal 31 at byte 3 of the body");
        assert_eq!(
            told.words,
            "end wants (ref 0) on top and finds (ref null 0); only null is wrong: this operand may be \
             null, a non-null one is wanted; ref.as_non_null after byte 2 would do"
        );
        let put = "     1  d0 00                   ref.null 0, which put (ref null 0) there\n";
        assert!(told.text.contains(put), "{}", told.text);
        assert!(told.text.contains("00 d0 00 0b\n                   ^^\n"), "{}", told.text);
        assert!(told.text.contains("00 d0 00 d4 0b\n                   ^^\n"), "{}", told.text);
        assert_eq!(told.mended, Some(vec![0x00, 0xD0, 0x00, 0xD4, 0x0B]));
    }
}
