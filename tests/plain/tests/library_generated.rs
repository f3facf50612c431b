//! Laws of a library over generated requests, and that these have each fault in either
//! section and in both, types that name each other over the boundary, and every size.

use plain::generate::library::all_cuts;
use plain::generate::{requests, requests_without_library};
use plain::lines::{answer_request, judge_request, read_request, Asked, Request};
use plain::refusal::{Input, Refusal};
use plain::section::{judge_section, EMPTY_LIBRARY};
use plain::sizes;
use plain::syntax::Type;
use std::collections::BTreeMap;

const COUNT: usize = 6_000;
const LEAST: usize = 10;
const SEVERAL: usize = 3;

type Counts = BTreeMap<String, usize>;

fn count(counts: &mut Counts, shape: impl Into<String>) {
    *counts.entry(shape.into()).or_insert(0) += 1;
}

fn at_least(counts: &Counts, shape: &str, least: usize) {
    let found = counts.get(shape).copied().unwrap_or(0);
    println!("{shape}: {found}");
    assert!(found >= least, "{shape} only {found} times");
}

fn read(line: &str) -> Request {
    read_request(line).expect("the generator writes requests")
}

fn with_library(request: &Request, library: &[u8], section: &[u8]) -> Request {
    let (library, section) = (Some(library.to_vec()), section.to_vec());
    Request { library, section, asked: request.asked.clone() }
}

fn is_refused(answer: &str) -> bool {
    answer.starts_with("no ")
}

/// A library of no types changes no answer, but that it is said where something lies: in
/// the add-on.
#[test]
fn the_empty_library_changes_nothing() {
    for small in [false, true] {
        for line in requests_without_library(51, COUNT, small) {
            let request = read(&line);
            let with = answer_request(&with_library(&request, EMPTY_LIBRARY, &request.section));
            assert!(!with.contains(" library"), "{line}");
            assert_eq!(with.replace(" addon", ""), answer_request(&request), "{line}");
        }
    }
}

/// The word is there exactly for what lies in the add-on.
#[test]
fn the_empty_library_says_where() {
    for line in requests_without_library(52, COUNT, true) {
        let request = read(&line);
        let with = with_library(&request, EMPTY_LIBRARY, &request.section);
        let (answer, words) =
            (answer_request(&with), answer_request(&with).matches(" addon").count());
        let wanted = match (judge_request(&request), &request.asked) {
            (Err(refusal), _) => usize::from(refusal.input == Some(Input::Addon)),
            (Ok(_), Asked::TypeBytes(_)) => 1,
            (Ok(answer), Asked::Section) => answer.matches("..").count(),
            (Ok(_), Asked::Body(..) | Asked::Run(..)) => 0,
        };
        assert_eq!(words, wanted, "{line}: {answer}");
    }
}

/// What is accepted stays so wherever it is cut, and a type keeps its bytes, a body its
/// count and a run its state; what is refused stays refused.
#[test]
fn a_cut_changes_places_alone() {
    let mut counts = Counts::new();
    for line in requests_without_library(53, COUNT / 2, true) {
        let request = read(&line);
        let whole = answer_request(&request);
        for (library, section) in all_cuts(&request.section) {
            let cut = answer_request(&with_library(&request, &library, &section));
            assert_eq!(is_refused(&cut), is_refused(&whole), "{line}: {cut}");
            if is_refused(&whole) {
                continue;
            }
            match request.asked {
                Asked::Section => {
                    assert_eq!(without_places(&cut), without_places(&whole), "{line}");
                    count(&mut counts, "sections");
                }
                Asked::TypeBytes(_) => {
                    let bytes = cut.trim_end_matches(" library").trim_end_matches(" addon");
                    assert_eq!(bytes, whole, "{line}");
                    count(&mut counts, "types");
                }
                Asked::Body(..) | Asked::Run(..) => {
                    assert_eq!(cut, whole, "{line}");
                    count(&mut counts, "bodies and runs");
                }
            }
        }
    }
    for shape in ["sections", "types", "bodies and runs"] {
        at_least(&counts, shape, 300);
    }
}

/// An answer's rows without where their bytes lie.
fn without_places(answer: &str) -> Vec<String> {
    let rows = answer.split(';');
    rows.map(|row| row.split(' ').filter(|word| !is_place(word)).collect()).collect()
}

fn is_place(word: &str) -> bool {
    word.contains("..") || word == "library" || word == "addon"
}

/// In a body the same faults lie at the same places, where the sections are accepted.
#[test]
fn a_cut_moves_no_place_of_a_body() {
    let mut counts = Counts::new();
    for line in requests_without_library(54, COUNT / 2, true) {
        let request = read(&line);
        let accepted = judge_section(EMPTY_LIBRARY, &request.section).is_ok();
        let (Err(refusal), true, true) =
            (judge_request(&request), accepted, request.body().is_some())
        else {
            continue;
        };
        for (library, section) in all_cuts(&request.section) {
            let cut = judge_request(&with_library(&request, &library, &section)).err();
            assert_eq!(cut, Some(refusal), "{line}");
            count(&mut counts, "refused");
        }
    }
    at_least(&counts, "refused", 1_000);
}

/// A refused library decides alone: before any add-on the answer is the same.
#[test]
fn a_refused_library_decides() {
    let mut counts = Counts::new();
    for line in requests(55, COUNT, true) {
        let request = read(&line);
        let Err(alone) = judge_section(request.library(), EMPTY_LIBRARY) else {
            continue;
        };
        assert_eq!(judge_request(&request).err(), Some(alone), "{line}");
        assert_ne!(alone.input, Some(Input::Addon));
        count(&mut counts, "refused");
    }
    at_least(&counts, "refused", 100);
}

#[test]
fn half_of_the_requests_have_a_library() {
    for small in [false, true] {
        let with = requests(56, COUNT, small).filter(|line| read(line).library.is_some()).count();
        assert!(with * 20 > COUNT * 9 && with * 20 < COUNT * 11, "{with} of {COUNT}");
        assert!(requests_without_library(56, 100, small).all(|line| read(&line).library.is_none()));
    }
}

/// Where a refusal of the sections lies: at a byte, or at a type of either.
fn section_of_fault(request: &Request, refusal: Refusal) -> Input {
    refusal.input.unwrap_or_else(|| match judge_section(request.library(), EMPTY_LIBRARY) {
        Ok(types) if refusal.place >= types.len() => Input::Addon,
        _ => Input::Library,
    })
}

#[test]
fn every_fault_of_either_section_and_of_both() {
    for small in [false, true] {
        let mut counts = Counts::new();
        for line in requests(57, 2 * COUNT, small) {
            let request = read(&line);
            let (library, section) = (request.library(), &request.section[..]);
            let Err(refusal) = judge_section(library, section) else {
                continue;
            };
            if request.library.is_none() {
                continue;
            }
            let input = section_of_fault(&request, refusal);
            count(&mut counts, format!("{} in the {input:?}", refusal.number));
            if input == Input::Library && judge_section(EMPTY_LIBRARY, section).is_err() {
                count(&mut counts, "both");
            }
        }
        for number in (1..=13).chain([32]) {
            at_least(&counts, &format!("{number} in the Library"), SEVERAL);
            at_least(&counts, &format!("{number} in the Addon"), SEVERAL);
        }
        at_least(&counts, "both", 100);
    }
}

/// How an add-on's type names the library's.
fn count_named(counts: &mut Counts, types: &[Type]) {
    let shared = |number: u32| types[number as usize].input == Input::Library;
    for own in types.iter().filter(|found| found.input == Input::Addon) {
        let definition = &own.definition;
        let above = definition.supertype().filter(|&above| shared(above));
        if let Some(above) = above {
            let above = &types[above as usize].definition;
            let form = if definition.fields().is_some() { "struct" } else { "function" };
            count(counts, format!("a {form} below the library's"));
            if above.descriptor.is_some() {
                count(counts, "below the library's with a descriptor");
            }
            if above.describes.is_some() {
                count(counts, "below the library's that describes");
            }
        }
        let values = definition.numbers().into_iter().filter(|&number| shared(number)).count();
        if values > above.iter().len() {
            let form = if definition.fields().is_some() { "struct" } else { "function" };
            count(counts, format!("a {form} that has the library's types"));
        }
    }
}

#[test]
fn types_name_each_other_over_the_boundary() {
    for small in [false, true] {
        let mut counts = Counts::new();
        for line in requests(58, COUNT, small) {
            let request = read(&line);
            let Ok(types) = judge_section(request.library(), &request.section) else {
                continue;
            };
            count_named(&mut counts, &types);
            if let (Some((number, _)), Ok(_)) = (request.body(), judge_request(&request)) {
                let held = types[number as usize].input;
                let both = types[0].input != types[types.len() - 1].input;
                count(&mut counts, format!("accepted body of the {held:?}, both: {both}"));
            }
        }
        for form in ["struct", "function"] {
            at_least(&counts, &format!("a {form} below the library's"), LEAST);
            at_least(&counts, &format!("a {form} that has the library's types"), LEAST);
        }
        for shape in [
            "below the library's with a descriptor",
            "below the library's that describes",
            "accepted body of the Addon, both: true",
            "accepted body of the Library, both: true",
            "accepted body of the Addon, both: false",
            "accepted body of the Library, both: false",
        ] {
            at_least(&counts, shape, LEAST);
        }
    }
}

/// At the sizes that are never small: types and chain over both, bytes of each.
#[test]
fn sizes_over_both() {
    let mut counts = Counts::new();
    for line in requests(59, 3 * COUNT, false).filter(|line| line.len() > 500) {
        let request = read(&line);
        if request.library.is_none() {
            continue;
        }
        count_size(&mut counts, &request);
    }
    for shape in [
        "1,024 types",
        "1,024 types in the library",
        "more than 1,024 types",
        "63 steps",
        "64 steps",
    ] {
        at_least(&counts, shape, LEAST);
    }
    for shape in ["32,768 bytes", "32,769 bytes"] {
        at_least(&counts, &format!("{shape} in the Library"), SEVERAL);
        at_least(&counts, &format!("{shape} in the Addon"), SEVERAL);
    }
}

fn count_size(counts: &mut Counts, request: &Request) {
    let (library, section) = (request.library(), &request.section[..]);
    for (input, bytes) in [(Input::Library, library), (Input::Addon, section)] {
        match bytes.len() {
            sizes::INPUT_BYTES => count(counts, format!("32,768 bytes in the {input:?}")),
            32_769 => count(counts, format!("32,769 bytes in the {input:?}")),
            _ => {}
        }
    }
    match judge_section(library, section) {
        Ok(types) => count_accepted(counts, &types),
        Err(Refusal { number: 4, place, input: Some(Input::Addon) }) if place > 0 => {
            let full = judge_section(library, EMPTY_LIBRARY).is_ok_and(|types| !types.is_empty());
            if full {
                count(counts, "more than 1,024 types");
            }
        }
        Err(Refusal { number: 4, input: None, .. }) => count(counts, "64 steps"),
        Err(_) => {}
    }
}

fn count_accepted(counts: &mut Counts, types: &[Type]) {
    if types.len() == sizes::TYPES {
        count(counts, "1,024 types");
    }
    let shared = types.iter().filter(|found| found.input == Input::Library).count();
    if shared == sizes::TYPES {
        count(counts, "1,024 types in the library");
    }
    if let Some(last) = types.last().filter(|last| last.input == Input::Addon && shared > 0) {
        let mut steps = 0;
        let mut above = last.definition.supertype();
        while let Some(number) = above {
            steps += 1;
            above = types[number as usize].definition.supertype();
        }
        if steps == sizes::CHAIN_STEPS {
            count(counts, "63 steps");
        }
    }
}
