//! What the generator promises: the same lines for the same seed, every kind of
//! answer often, and a third of the bodies accepted and run with objects.

use plain::generate::requests;
use plain::lines::{answer, answer_request, read_request, Asked};
use plain::tally::tally;

const COUNT: usize = 12_000;

fn answered(seed: u64, small: bool) -> Vec<(String, String)> {
    let answer_to = |request: String| {
        let answer = answer(&request);
        (request, answer)
    };
    requests(seed, COUNT, small).map(answer_to).collect()
}

#[test]
fn the_same_seed_gives_the_same_lines() {
    let first: Vec<String> = requests(5, 300, true).collect();
    let again: Vec<String> = requests(5, 300, true).collect();
    let other: Vec<String> = requests(6, 300, true).collect();
    assert_eq!(first, again);
    assert_ne!(first, other);
}

#[test]
fn every_kind_of_answer_is_there() {
    for small in [false, true] {
        let answers = answered(1, small);
        let counts = tally(answers.iter().map(|(_, answer)| answer.as_str()));
        let refusals = (1..=13)
            .chain(20..=25)
            .chain(27..=29)
            .chain([31, 32])
            .map(|number| format!("no {number:>2}"));
        let traps = (41..=46).map(|number| format!("trap {number}"));
        for kind in refusals.chain(traps).chain(["yes".into(), "done".into(), "spent".into()]) {
            let count = counts.get(&kind).copied().unwrap_or(0);
            assert!(count >= 15, "{kind} only {count} times, small: {small}");
        }
        assert!(!counts.contains_key("error"));
    }
}

#[test]
fn a_third_of_the_runs_allocate() {
    for small in [false, true] {
        let answers = answered(2, small);
        let runs: Vec<_> = answers.iter().filter(|(request, _)| request.starts_with('R')).collect();
        let allocating = runs.iter().filter(|(_, answer)| answer.contains("heap=[0:")).count();
        assert!(3 * allocating >= runs.len(), "{allocating} of {}", runs.len());
    }
}

/// A run of n steps is a longer run's state after n steps, so where a run ends
/// does not depend on the budget, and a body is accepted whatever is asked of it.
#[test]
fn runs_and_judgements_agree() {
    for (line, ended) in answered(3, true) {
        let mut request = read_request(&line).expect("the generator writes requests");
        let Asked::Run(number, body, _) = request.asked else {
            continue;
        };
        request.asked = Asked::Body(number, body);
        let judged = answer_request(&request);
        let refused_later = ended == "no 4 0" || ended == "no 29 0";
        assert!(judged.starts_with("yes") != ended.starts_with("no") || refused_later, "{line}");
    }
}

#[test]
fn small_requests_are_small() {
    let lengths: Vec<usize> = requests(4, COUNT, true).map(|request| request.len()).collect();
    let short = lengths.iter().filter(|&&length| length < 2 * (80 + 60) + 20).count();
    assert!(short * 10 >= COUNT * 9, "{short} of {COUNT}");
}
