//! What the words of an answer tell: a value, how a run ended, or a refusal. What is not known is a no.

use crate::refusal::{Input, Refusal, Trap};
use core::fmt;

/// The words of an answer.
pub(crate) const ANSWER: usize = 4;

/// What a call returns: a refusal, the one yes of a judgement, or how a run ended.
const NO: u64 = 0;
const YES: u64 = 1;
const DONE: u64 = 1;
const TRAP: u64 = 2;
const SPENT: u64 = 3;

/// Where the bytes of a definition begin in the section that holds it, and the place after them.
#[derive(Clone, Copy, Debug, PartialEq, Eq)]
pub struct Bytes {
    /// The place of the first byte.
    pub from: u64,
    /// The place after the last byte.
    pub to: u64,
    /// The one of the two sections that holds it.
    pub input: Input,
}

/// How a trial run ended, with its steps.
#[derive(Clone, Copy, Debug, PartialEq, Eq)]
pub enum Ended {
    /// It came to its end.
    Done {
        /// How many instructions were done.
        steps: u64,
        /// How many results there are; they are all of the operands.
        results: u64,
    },
    /// Stopped by an instruction.
    Trap {
        /// The trap's number in document 01 or 02; [`Trap::of_number`] names it.
        number: u64,
        /// Of the instruction in the body.
        place: u64,
        /// How many instructions were done, the trapping one among them.
        steps: u64,
    },
    /// The budget was used up.
    Spent {
        /// The budget.
        steps: u64,
    },
}

impl fmt::Display for Ended {
    fn fmt(&self, to: &mut fmt::Formatter) -> fmt::Result {
        match *self {
            Ended::Done { steps, results } => {
                write!(to, "done after {steps} steps, results: {results}")
            }
            Ended::Trap { number, place, steps } => {
                write!(to, "trap {number} at {place}")?;
                Trap::of_number(number).map_or(Ok(()), |trap| write!(to, ", {trap}"))?;
                write!(to, ", after {steps} steps")
            }
            Ended::Spent { steps } => write!(to, "spent after {steps} steps"),
        }
    }
}

pub(crate) fn ended(kind: u64, answer: [u64; ANSWER]) -> Result<Ended, Refusal> {
    let [first, second, third, _] = answer;
    match kind {
        NO => Err(refused(answer)),
        DONE => Ok(Ended::Done { steps: first, results: second }),
        TRAP => {
            known(Trap::of_number(first).is_some(), kind)?;
            Ok(Ended::Trap { number: first, place: second, steps: third })
        }
        SPENT => Ok(Ended::Spent { steps: first }),
        _ => Err(Refusal::unknown(kind)),
    }
}

/// The words of a yes. What is neither a yes nor a no is a no.
pub(crate) fn told(kind: u64, answer: [u64; ANSWER]) -> Result<[u64; ANSWER], Refusal> {
    match kind {
        YES => Ok(answer),
        NO => Err(refused(answer)),
        _ => Err(Refusal::unknown(kind)),
    }
}

/// The words of a no. A place in an input that is not known is not told on: it would be looked up in the wrong bytes.
fn refused([number, place, input, _]: [u64; ANSWER]) -> Refusal {
    match (input, Input::of_number(input)) {
        (0, _) => Refusal { number, place, input: None },
        (_, Some(input)) => Refusal { number, place, input: Some(input) },
        (_, None) => Refusal::unknown(NO),
    }
}

/// The words of a type that is handed back: of which section, and inside of it.
pub(crate) fn bytes(
    kind: u64,
    [from, to, input, _]: [u64; ANSWER],
    library: &[u8],
    section: &[u8],
) -> Result<Bytes, Refusal> {
    let input = Input::of_number(input).ok_or(Refusal::unknown(kind))?;
    let holder = match input {
        Input::Library => library,
        Input::Addon => section,
    };
    known(from <= to && to <= holder.len() as u64, kind)?;
    Ok(Bytes { from, to, input })
}

pub(crate) fn known(holds: bool, kind: u64) -> Result<(), Refusal> {
    match holds {
        true => Ok(()),
        false => Err(Refusal::unknown(kind)),
    }
}

#[cfg(test)]
mod tests {
    use super::*;

    #[test]
    fn an_answer_that_is_not_known_is_a_no() {
        let words = [1, 0, 0, 0];
        for kind in [2, 3, 4, u64::MAX] {
            assert_eq!(told(kind, words), Err(Refusal::unknown(kind)));
        }
        for kind in [4, 5, u64::MAX] {
            assert_eq!(ended(kind, words), Err(Refusal::unknown(kind)));
        }
        for number in [0, 40, 47, u64::MAX] {
            assert_eq!(ended(TRAP, [number, 0, 0, 0]), Err(Refusal::unknown(TRAP)));
        }
        for input in [3, u64::MAX] {
            assert_eq!(told(NO, [3, 1, input, 0]), Err(Refusal::unknown(NO)));
            assert_eq!(ended(NO, [3, 1, input, 0]), Err(Refusal::unknown(NO)));
        }
    }

    #[test]
    fn a_refusal_tells_its_input() {
        let inputs = [(0, None), (1, Some(Input::Library)), (2, Some(Input::Addon))];
        for (word, input) in inputs {
            let refusal = Refusal { number: 3, place: 1, input };
            assert_eq!(told(NO, [3, 1, word, 0]), Err(refusal));
            assert_eq!(ended(NO, [3, 1, word, 0]), Err(refusal));
        }
    }

    /// A library of 3 bytes and a section of 5: a definition ends inside of the one that holds it.
    #[test]
    fn a_type_lies_in_one_of_the_two_sections() {
        let of = |words| bytes(YES, words, &[0; 3], &[0; 5]);
        assert_eq!(of([1, 3, 1, 0]), Ok(Bytes { from: 1, to: 3, input: Input::Library }));
        assert_eq!(of([1, 5, 2, 0]), Ok(Bytes { from: 1, to: 5, input: Input::Addon }));
        for words in [[1, 4, 1, 0], [1, 6, 2, 0], [2, 1, 2, 0], [1, 3, 0, 0], [1, 3, 3, 0]] {
            assert_eq!(of(words), Err(Refusal::unknown(YES)));
        }
    }
}
