//! One request to the loader and to the plain checker: the answers and every lent word must be the same.

use crate::expected;
use crate::memory::{Lengths, Memory, SIZES};
use crate::requests::{Asked, Request};
use crate::tally::Tally;
use chelbugan::calls::{self, Ended, RunMemory};
use chelbugan::Input;
use plain::body::judge_body;
use plain::generate::random::Random;
use plain::machine::{trial_run, Outcome, Run};
use plain::refusal::{self, Refusal};
use plain::section::judge_section;
use plain::syntax::Type;

/// An answer without its kind of call: values, or the refusal.
#[derive(Clone, Debug, PartialEq, Eq)]
pub enum Answer {
    Count(u64),
    /// The first byte's place, the place after the last, and the section that holds them.
    Bytes(u64, u64, Input),
    /// Steps, and count of results.
    Done(u64, u64),
    /// Number, place, steps.
    Trap(u64, u64, u64),
    /// Steps.
    Spent(u64),
    /// Number and place; where the place is a byte of a section, of which.
    No(u64, u64, Option<Input>),
}

/// Refused at a place that is no section's byte.
pub fn no(number: u64, place: u64) -> Answer {
    Answer::No(number, place, None)
}

/// Refused at a byte of the add-on's section.
pub fn no_addon(number: u64, place: u64) -> Answer {
    Answer::No(number, place, Some(Input::Addon))
}

/// Refused at a byte of the library.
pub fn no_library(number: u64, place: u64) -> Answer {
    Answer::No(number, place, Some(Input::Library))
}

/// An answer with the memory that it left.
#[derive(Clone, Debug, PartialEq, Eq)]
pub struct Left {
    pub answer: Answer,
    pub memory: Memory,
}

/// What the loader answers with these lent buffers.
pub fn ask_loader(request: &Request, lent: &mut RunMemory) -> Answer {
    ask_with(request.library(), &request.section, &request.asked, lent)
}

/// The same with the sections where the caller has put them.
pub fn ask_with(library: &[u8], section: &[u8], asked: &Asked, lent: &mut RunMemory) -> Answer {
    let RunMemory { rows, shared, codes, work, .. } = lent;
    let answered = match asked {
        Asked::Section => {
            calls::judge_section(library, section, rows, shared, codes).map(Answer::Count)
        }
        Asked::Type(number) => {
            let found = calls::ask_type(library, section, *number, rows, shared, codes);
            found.map(|bytes| Answer::Bytes(bytes.from, bytes.to, bytes.input))
        }
        Asked::Body(number, body) => {
            let judged =
                calls::judge_body(library, section, body, *number, rows, shared, codes, work);
            judged.map(Answer::Count)
        }
        Asked::Run(number, body, budget) => {
            calls::try_run(library, section, body, *number, *budget, lent).map(run_answer)
        }
    };
    answered.unwrap_or_else(|no| Answer::No(no.number, no.place, no.input))
}

fn run_answer(ended: Ended) -> Answer {
    match ended {
        Ended::Done { steps, results } => Answer::Done(steps, results),
        Ended::Trap { number, place, steps } => Answer::Trap(number, place, steps),
        Ended::Spent { steps } => Answer::Spent(steps),
    }
}

/// What documents 01 and 02 ask for with buffers of these lengths, by the plain checker.
pub fn ask_plain(request: &Request, lengths: Lengths) -> Left {
    let lengths = lent_to(request, lengths);
    if is_short(request, lengths) {
        return zeroed(no(14, 0), lengths);
    }
    let (library, section) = (request.library(), &request.section[..]);
    let judged = match &request.asked {
        Asked::Section => judge_section(library, section).map(|types| table(&types, lengths)),
        Asked::Type(number) => {
            judge_section(library, section).and_then(|types| type_of(&types, *number, lengths))
        }
        Asked::Body(number, body) => {
            let judged = judge_body(library, section, nearest(*number), body);
            judged.map(|body| zeroed(Answer::Count(body.code.len() as u64), lengths))
        }
        Asked::Run(number, body, budget) => {
            let run = trial_run(library, section, nearest(*number), body, *budget);
            run.map(|run| state(&run, lengths))
        }
    };
    judged.unwrap_or_else(|Refusal { number, place, input }| {
        zeroed(Answer::No(number.into(), place as u64, input.map(input_of)), lengths)
    })
}

fn input_of(input: refusal::Input) -> Input {
    match input {
        refusal::Input::Library => Input::Library,
        refusal::Input::Addon => Input::Addon,
    }
}

/// Without the buffers that this call is not lent.
pub fn lent_to(request: &Request, mut lengths: Lengths) -> Lengths {
    lengths[request.buffers()..].fill(0);
    lengths
}

/// Whether a buffer that this call is lent is under its size.
pub fn is_short(request: &Request, lengths: Lengths) -> bool {
    let lent = lengths.iter().zip(SIZES).take(request.buffers());
    lent.into_iter().any(|(&length, size)| length < size)
}

/// The plain checker takes numbers below 2 to the 32; there are no types of the greatest of them or beyond.
fn nearest(number: u64) -> u32 {
    u32::try_from(number).unwrap_or(u32::MAX)
}

fn table(types: &[Type], lengths: Lengths) -> Left {
    let mut left = zeroed(Answer::Count(types.len() as u64), lengths);
    let words = expected::table(types);
    put(&mut left.memory.rows, &words.rows);
    put(&mut left.memory.shared, &words.shared);
    put(&mut left.memory.codes, &words.codes);
    left
}

/// The table as after the sections alone; an absent number is refusal 6 with that number as place.
fn type_of(types: &[Type], number: u64, lengths: Lengths) -> Result<Left, Refusal> {
    let number = number as usize;
    let found = types.get(number).ok_or(Refusal { number: 6, place: number, input: None })?;
    let (from, to) = (found.start as u64, found.end as u64);
    let answer = Answer::Bytes(from, to, input_of(found.input));
    Ok(Left { answer, ..table(types, lengths) })
}

fn state(run: &Run, lengths: Lengths) -> Left {
    let answer = match run.outcome {
        Outcome::Done => Answer::Done(run.steps, run.state.operands.len() as u64),
        Outcome::Trap(number) => Answer::Trap(number.into(), run.place as u64, run.steps),
        Outcome::Spent => Answer::Spent(run.steps),
    };
    let mut left = zeroed(answer, lengths);
    let words = expected::state(run);
    put(&mut left.memory.counts, &words.counts);
    put(&mut left.memory.objects, &words.objects);
    put(&mut left.memory.cells, &words.cells);
    put(&mut left.memory.locals, &words.locals);
    put(&mut left.memory.operands, &words.operands);
    put(&mut left.memory.blocks, &words.blocks);
    left
}

/// From the first word on; what lies beyond stays zero.
fn put<T: Copy>(memory: &mut [T], words: &[T]) {
    memory[..words.len()].copy_from_slice(words);
}

fn zeroed(answer: Answer, lengths: Lengths) -> Left {
    Left { answer, memory: Memory::filled(lengths, 0) }
}

/// Where the two differ, in words.
pub fn difference(loader: &Left, plain: &Left) -> Option<String> {
    if loader.answer != plain.answer {
        return Some(format!("loader: {:?}\nplain:  {:?}", loader.answer, plain.answer));
    }
    loader.memory.difference(&plain.memory)
}

/// Asks on and on, with buffers full of rubbish before each request, and counts the answers.
pub struct Comparison {
    random: Random,
    tally: Tally,
}

impl Comparison {
    pub fn new(seed: u64) -> Comparison {
        Comparison { random: Random::new(!seed), tally: Tally::default() }
    }

    pub fn ask(&mut self, request: &Request) -> Result<(), String> {
        // Mostly the very size, now and then more of it.
        let more = if self.random.one_in(4) { self.random.below(100) } else { 0 };
        let lengths = lent_to(request, SIZES.map(|size| size + more));
        // A word's worth of chance, repeated: cheap, and never all zero.
        let rubbish = self.random.draw() | 0x0001_0001_0001_0001;
        let mut memory = Memory::filled(lengths, rubbish);
        let answer = ask_loader(request, &mut memory.lent());
        self.tally.count(request, &answer);
        match difference(&Left { answer, memory }, &ask_plain(request, lengths)) {
            None => Ok(()),
            Some(difference) => Err(difference),
        }
    }

    /// How many answers there were of each kind.
    pub fn tally(&self) -> &Tally {
        &self.tally
    }
}
