//! Counts of answers, by what was asked and by what the answer is.

use crate::compare::Answer;
use crate::requests::Request;
use chelbugan::Input;
use std::collections::BTreeMap;
use std::fmt;

/// What an answer is, without its counts and places.
#[derive(Clone, Copy, Debug, PartialEq, Eq, PartialOrd, Ord)]
pub enum Kind {
    Yes,
    Done,
    Trap(u64),
    Spent,
    No(u64),
}

impl Kind {
    fn of(answer: &Answer) -> Kind {
        match *answer {
            Answer::Count(_) | Answer::Bytes(..) => Kind::Yes,
            Answer::Done(..) => Kind::Done,
            Answer::Trap(number, ..) => Kind::Trap(number),
            Answer::Spent(_) => Kind::Spent,
            Answer::No(number, ..) => Kind::No(number),
        }
    }
}

#[derive(Default)]
pub struct Tally {
    all: Counts,
    with_library: Counts,
    /// Refusals at a byte of the library, by their number.
    in_library: BTreeMap<u64, usize>,
}

/// By what is asked and what the answer is.
type Counts = BTreeMap<(&'static str, Kind), usize>;

impl Tally {
    pub fn count(&mut self, request: &Request, answer: &Answer) {
        let of = (request.kind(), Kind::of(answer));
        *self.all.entry(of).or_default() += 1;
        if request.library.is_some() {
            *self.with_library.entry(of).or_default() += 1;
        }
        if let Answer::No(number, _, Some(Input::Library)) = *answer {
            *self.in_library.entry(number).or_default() += 1;
        }
    }

    pub fn of(&self, asked: &'static str, kind: Kind) -> usize {
        self.all.get(&(asked, kind)).copied().unwrap_or(0)
    }

    /// Of the requests that have a library.
    pub fn with_library(&self, asked: &'static str, kind: Kind) -> usize {
        self.with_library.get(&(asked, kind)).copied().unwrap_or(0)
    }

    /// Of the refusals at a byte of the library.
    pub fn in_library(&self, number: u64) -> usize {
        self.in_library.get(&number).copied().unwrap_or(0)
    }
}

fn written(counts: &Counts, asked: &str) -> String {
    let own = counts.iter().filter(|((of, _), _)| *of == asked);
    let answers: Vec<String> = own.map(|((_, kind), count)| format!("{kind}: {count}")).collect();
    answers.join(", ")
}

/// For each kind of request a line, and one of those that have a library.
impl fmt::Display for Tally {
    fn fmt(&self, to: &mut fmt::Formatter) -> fmt::Result {
        for asked in ["sections", "types", "bodies", "runs"] {
            writeln!(to, "{asked}: {}", written(&self.all, asked))?;
            writeln!(to, "  with a library: {}", written(&self.with_library, asked))?;
        }
        writeln!(to, "refused at a byte of the library: {:?}", self.in_library)
    }
}

impl fmt::Display for Kind {
    fn fmt(&self, to: &mut fmt::Formatter) -> fmt::Result {
        match self {
            Kind::Yes => write!(to, "yes"),
            Kind::Done => write!(to, "done"),
            Kind::Trap(number) => write!(to, "trap {number}"),
            Kind::Spent => write!(to, "spent"),
            Kind::No(number) => write!(to, "no {number}"),
        }
    }
}
