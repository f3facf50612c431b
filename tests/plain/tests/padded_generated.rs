//! What is accepted has no padded number, and with any one of its numbers padded it is
//! refused with 32 there: each kind of number, each length. Generated requests have both.

use plain::body::judge_body;
use plain::generate::random::Random;
use plain::generate::requests;
use plain::generate::thin_padded::{Pair, Written};
use plain::generate::written::{Number, What, IN_BODIES, IN_SECTIONS};
use plain::lines::{answer, hex, judge_request, read_request};
use plain::refusal::{Input, Refusal, NUMBER_PADDED, NUMBER_TOO_LONG};
use plain::section::{judge_section, EMPTY_LIBRARY};
use std::collections::BTreeMap;

const PAIRS: usize = 1_000;
const LEAST: usize = 10;
const SEVERAL: usize = 3;

type Counts = BTreeMap<String, usize>;

fn count(counts: &mut Counts, shape: String) {
    *counts.entry(shape).or_insert(0) += 1;
}

fn at_least(counts: &Counts, shape: String, least: usize) {
    let found = counts.get(&shape).copied().unwrap_or(0);
    println!("{shape}: {found}");
    assert!(found >= least, "{shape} only {found} times");
}

/// The number in each length that is too great: 32 up to the greatest, then 2.
fn refused_in_each_length(
    number: &Number,
    bytes: &[u8],
    input: Option<Input>,
    judge: impl Fn(&[u8]) -> Result<(), Refusal>,
) {
    let place = number.first;
    for length in number.length + 1..=number.greatest {
        let refusal = judge(&number.padded(bytes, length)).err();
        let there = Refusal { number: NUMBER_PADDED, place, input };
        assert_eq!(refusal, Some(there), "{number:?} {length}");
    }
    let refusal = judge(&number.padded(bytes, number.greatest + 1)).err();
    assert_eq!(refusal, Some(Refusal { number: NUMBER_TOO_LONG, place, input }), "{number:?}");
}

fn each_number(
    counts: &mut Counts,
    place: &str,
    written: &Written,
    input: Option<Input>,
    judge: impl Fn(&[u8]) -> Result<(), Refusal>,
) {
    for number in &written.numbers {
        refused_in_each_length(number, &written.bytes, input, &judge);
        count(counts, format!("{:?} in a {place}", number.what));
        if number.what == What::Constant64 {
            count(counts, format!("i64.const of {} bytes", number.length));
        }
        if number.what == What::Constant32 {
            count(counts, format!("i32.const of {} bytes", number.length));
        }
    }
}

/// The judgement of request 10: each accepted input with one number padded.
#[test]
fn what_is_accepted_is_refused_with_any_number_padded() {
    let mut counts = Counts::new();
    let mut random = Random::new(32);
    for index in 0..PAIRS {
        let pair = Pair::make(&mut random, index % 2 == 0);
        let (section, body) = (&pair.section, &pair.body);
        let (library, addon) = (Some(Input::Library), Some(Input::Addon));
        let judge_of = |library: &[u8], section: &[u8], body: &[u8]| {
            judge_body(library, section, pair.function, body).map(|_| ())
        };
        if judge_of(EMPTY_LIBRARY, &section.bytes, &body.bytes).is_err() {
            continue;
        }
        count(&mut counts, "accepted".to_string());
        each_number(&mut counts, "section", section, addon, |bytes| {
            judge_section(EMPTY_LIBRARY, bytes).map(|_| ())
        });
        // The same types in a library; the add-on has none.
        each_number(&mut counts, "library", section, library, |bytes| {
            judge_section(bytes, EMPTY_LIBRARY).map(|_| ())
        });
        each_number(&mut counts, "section of a body", section, addon, |bytes| {
            judge_of(EMPTY_LIBRARY, bytes, &body.bytes)
        });
        each_number(&mut counts, "body", body, None, |bytes| {
            judge_of(EMPTY_LIBRARY, &section.bytes, bytes)
        });
    }
    let accepted = counts["accepted"];
    assert!(accepted * 10 >= PAIRS * 9, "{accepted} of {PAIRS} accepted");
    for what in IN_SECTIONS {
        at_least(&counts, format!("{what:?} in a section"), LEAST);
        at_least(&counts, format!("{what:?} in a library"), LEAST);
        at_least(&counts, format!("{what:?} in a section of a body"), LEAST);
    }
    IN_BODIES.iter().for_each(|what| at_least(&counts, format!("{what:?} in a body"), LEAST));
    (1..=5).for_each(|length| at_least(&counts, format!("i32.const of {length} bytes"), SEVERAL));
    (1..=10).for_each(|length| at_least(&counts, format!("i64.const of {length} bytes"), SEVERAL));
}

/// A refused input with one number padded: 32 at that number, or the fault of before where
/// that comes earlier.
#[test]
fn what_is_refused_is_refused_no_later() {
    let mut random = Random::new(33);
    for _ in 0..PAIRS {
        let pair = Pair::make(&mut random, true);
        // Cut, or with a byte that begins no instruction.
        let cut = random.below(pair.body.bytes.len());
        let spoilt = match random.below(2) {
            0 => pair.body.bytes[..cut].to_vec(),
            _ => [&pair.body.bytes[..cut], &[0x05], &pair.body.bytes[cut + 1..]].concat(),
        };
        let judge =
            |body: &[u8]| judge_body(EMPTY_LIBRARY, &pair.section.bytes, pair.function, body);
        let Err(before) = judge(&spoilt) else {
            continue;
        };
        for number in pair.body.numbers.iter().filter(|number| number.first + number.length <= cut)
        {
            if number.length == number.greatest {
                continue;
            }
            let padded = judge(&number.padded(&spoilt, number.length + 1)).err();
            let there = Refusal { number: NUMBER_PADDED, place: number.first, input: None };
            let padded = padded.expect("refused");
            assert!(padded == there || padded == before && before.place < number.first);
        }
    }
}

/// How many bytes the number at the place has.
fn length_at(bytes: &[u8], place: usize) -> usize {
    bytes[place..].iter().take_while(|&&byte| byte >= 0x80).count() + 1
}

#[test]
fn generated_requests_have_padded_numbers_of_each_length() {
    for small in [false, true] {
        let mut counts = Counts::new();
        for line in requests(34, 20_000, small) {
            let request = read_request(&line).expect("the generator writes requests");
            let Err(Refusal { number: NUMBER_PADDED, place, input }) = judge_request(&request)
            else {
                continue;
            };
            let (name, bytes) = match input {
                Some(Input::Library) => ("library", request.library()),
                Some(Input::Addon) => ("section", &request.section[..]),
                None => ("body", request.body().expect("it has one").1),
            };
            count(&mut counts, format!("{} and 32 in its {name}", &line[..1]));
            count(&mut counts, format!("{} bytes in a {name}", length_at(bytes, place)));
        }
        for letter in ["S", "T", "B", "R"] {
            at_least(&counts, format!("{letter} and 32 in its section"), LEAST);
            at_least(&counts, format!("{letter} and 32 in its library"), SEVERAL);
        }
        for letter in ["B", "R"] {
            at_least(&counts, format!("{letter} and 32 in its body"), LEAST);
        }
        for length in 2..=5 {
            at_least(&counts, format!("{length} bytes in a section"), LEAST);
            at_least(&counts, format!("{length} bytes in a library"), SEVERAL);
            at_least(&counts, format!("{length} bytes in a body"), LEAST);
        }
    }
}

/// Numbers are padded on purpose alone: all that is written as valid is judged as such.
#[test]
fn what_is_written_is_not_padded() {
    let mut random = Random::new(35);
    for _ in 0..PAIRS {
        let pair = Pair::make(&mut random, true);
        let request =
            format!("B {} {} {}", hex(&pair.section.bytes), pair.function, hex(&pair.body.bytes));
        assert!(!answer(&request).starts_with("no 32"), "{request}");
    }
}
