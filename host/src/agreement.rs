//! The check that finds causes, against the loader on generated requests, with a library and without: the same number, place and
//! input.

use crate::ask::{self, AddOn};
use crate::hex;
use crate::recheck::{body, section, Cause};
use crate::sections::Sections;
use chelbugan::{Input, Loader, Refusal};
use plain::generate;
use plain::lines::{read_request, Asked, Request};

fn requests(seed: u64, count: usize, small: bool) -> impl Iterator<Item = Request> {
    generate::requests(seed, count, small).map(|line| read_request(&line).expect("a request"))
}

fn sections(request: &Request) -> Sections {
    Sections::new(request.library.clone(), request.section.clone())
}

/// Of a request that has a body.
fn add_on(request: &Request) -> Option<AddOn> {
    let (number, body) = request.body()?;
    let number = u64::from(number);
    Some(AddOn { sections: sections(request), body: body.to_vec(), number })
}

fn told<T>(answer: Result<T, Cause>) -> Result<T, Refusal> {
    answer.map_err(|cause| {
        assert!(!cause.words.is_empty());
        cause.refusal
    })
}

/// Every refusal that a section or a body can have comes up, those of types with a library and without, in either section. And
/// nothing that is accepted is taken for hex digits.
#[test]
fn causes_have_the_loaders_number_and_place() {
    let mut loader = Loader::new();
    let (mut seen, mut with_library, mut lies) = ([0; 33], [0; 33], [0; 2]);
    for request in requests(20_260_807, 12_000, false) {
        let sections = sections(&request);
        let asked = ask::section(&mut loader, &sections).map(|table| table.count());
        let own = told(section::judge(&sections));
        let count = own.as_ref().map(|all| all.types.len()).map_err(|refusal| *refusal);
        assert_eq!(count, asked, "{request}");
        match asked {
            Err(refusal) => {
                seen[refusal.number as usize] += 1;
                with_library[refusal.number as usize] += sections.has_library() as usize;
                lies[0] += (refusal.input == Some(Input::Library)) as usize;
                lies[1] += (refusal.input == Some(Input::Addon)) as usize;
            }
            Ok(_) => assert!(!hex::is_text(sections.addon()), "{request}"),
        }
        let (Ok(all), Some(add_on)) = (own, add_on(&request)) else { continue };
        let asked = ask::body(&mut loader, &add_on);
        assert_eq!(told(body::judge(&all, add_on.number, &add_on.body)), asked, "{request}");
        match asked {
            Err(refusal) => seen[refusal.number as usize] += 1,
            Ok(_) => assert!(!hex::is_text(&add_on.body), "{request}"),
        }
    }
    for number in (1..=13).chain(20..=25).chain(27..=29).chain(31..=32) {
        assert!(seen[number] > 0, "{number} never came up: {seen:?}");
    }
    for number in (1..=13).chain([32]) {
        assert!(with_library[number] > 0, "{number} never came up: {with_library:?}");
    }
    assert!(lies.iter().all(|&count| count > 50), "{lies:?}");
}

/// The mend of 31 does what it says: the loader goes past that operand. Another of the same instruction may be next.
#[test]
fn the_mend_of_31_is_one() {
    let mut loader = Loader::new();
    let (mut mended, mut below) = (0, 0);
    for request in requests(31, 6_000, true) {
        let Some(mut add_on) = add_on(&request) else { continue };
        if section::judge(&add_on.sections).is_err() {
            continue;
        }
        while let Err(refusal) = ask::body(&mut loader, &add_on) {
            let told = crate::explain::body_refusal(&add_on, refusal);
            let Some(body) = told.mended else { break };
            assert_eq!(refusal.number, 31, "{request}");
            assert_eq!(body.len(), add_on.body.len() + 1);
            add_on.body = body;
            mended += 1;
            below += told.words.contains("below the top") as usize;
            match ask::body(&mut loader, &add_on) {
                Ok(_) => break,
                Err(next) => {
                    let again = crate::explain::body_refusal(&add_on, next).words;
                    let later = next.place > refusal.place + 1;
                    let lower = next.place == refusal.place + 1 && again != told.words;
                    assert!(later || lower, "{request}: {refusal}, then {next}");
                }
            }
        }
    }
    assert!(mended > 20 && below > 5, "{mended} mended, {below} of them below the top");
}

/// The operands that an explanation shows are the plain checker's.
#[test]
fn operands_are_the_plain_checkers() {
    let mut told = 0;
    for request in requests(32, 4_000, true) {
        let Asked::Body(number, of_body) = &request.asked else { continue };
        let Ok(all) = section::judge(&sections(&request)) else { continue };
        for place in 0..of_body.len() {
            let own = body::operands_before(&all, u64::from(*number), of_body, place);
            let Some((own, unreachable)) = own else { continue };
            let (library, section) = (request.library(), &request.section);
            let plain = plain::body::operands_before(library, section, *number, of_body, place);
            let (operands, also_unreachable) = plain.expect("an instruction stands there");
            let operands: Vec<String> = operands.iter().map(operand).collect();
            assert_eq!((own, unreachable), (operands, also_unreachable), "{request} at {place}");
            told += 1;
        }
    }
    assert!(told > 2_000, "{told}");
}

/// A trap's cause is found in the state that the run left.
#[test]
fn traps_have_a_cause() {
    let mut loader = Loader::new();
    let mut seen = [0; 6];
    for request in requests(51, 6_000, true) {
        let Asked::Run(_, _, budget) = request.asked else { continue };
        let add_on = add_on(&request).expect("a run has a body");
        let Ok(run) = ask::run(&mut loader, &add_on, budget) else { continue };
        if let chelbugan::Ended::Trap { number, place, .. } = run.ended {
            let place = place as usize;
            let cause = crate::explain::trap::cause(&add_on.body, number, place, &run.state);
            assert!(cause.is_some(), "{request}");
            seen[number as usize - 41] += 1;
        }
    }
    let often = [41, 42, 43, 44, 46].iter().all(|trap| seen[trap - 41] > 10);
    assert!(often, "{seen:?}");
}

fn operand(operand: &plain::frames::Operand) -> String {
    use plain::frames::Operand;
    use plain::syntax::ValueType;
    match operand {
        Operand::Unknown => "unknown".to_string(),
        Operand::UnknownHeap => "(ref unknown)".to_string(),
        Operand::Known(ValueType::I32) => "i32".to_string(),
        Operand::Known(ValueType::I64) => "i64".to_string(),
        Operand::Known(ValueType::F32) => "f32".to_string(),
        Operand::Known(ValueType::F64) => "f64".to_string(),
        Operand::Known(ValueType::Ref(reference)) => {
            let null = if reference.nullable { "null " } else { "" };
            format!("(ref {null}{})", heap(reference.heap))
        }
    }
}

fn heap(heap: plain::syntax::Heap) -> String {
    use plain::syntax::Heap;
    match heap {
        Heap::Defined(number) => number.to_string(),
        Heap::Exact(number) => format!("(exact {number})"),
        Heap::Abstract(heap) => format!("{heap:?}").to_lowercase(),
    }
}
