//! Refused bodies as a person meets them, held to what the plain checker says of the same bytes.

mod common;

use common::{asked, hex, section_arguments};
use plain::body::{judge_body, operands_before};
use plain::frames::Operand;
use plain::generate;
use plain::instruction_reader::read_instruction;
use plain::lines::{read_request, Asked, Request};
use plain::number::Reader;
use plain::refusal::Refusal;
use plain::section::judge_section;
use plain::syntax::{Abstract, Heap, Reference, ValueType};

/// Bodies of generated requests, short enough for a command line, with their numbers; about half have a library.
fn bodies(seed: u64, count: usize) -> impl Iterator<Item = (Request, u32, Vec<u8>)> {
    let all = generate::requests(seed, usize::MAX, true);
    let all = all.map(|line| read_request(&line).expect("a request"));
    let bodies = all.filter_map(|request| match request.asked.clone() {
        Asked::Body(number, body) => Some((request, number, body)),
        _ => None,
    });
    let short = |request: &Request| request.section.len() + request.library().len() < 1_000;
    bodies.filter(move |(request, _, body)| short(request) && body.len() < 1_000).take(count)
}

#[test]
fn generated_bodies_are_answered_and_explained() {
    let (mut accepted, mut of_types, mut of_bodies) = (0, [0; 2], [0; 2]);
    for (request, number, body) in bodies(31, 700) {
        let arguments = section_arguments(&request);
        let said = asked(&["check"], &arguments, &[&hex(&body), &number.to_string()]);
        let has_library = request.library.is_some() as usize;
        let shown = format!("{request}\n{}", said.out);
        let refusal = match judge_body(request.library(), &request.section, number, &body) {
            Ok(judged) => {
                let instructions = judged.code.len();
                assert_eq!(said.status, 0, "{shown}");
                let wanted = format!("yes: {instructions} instruction");
                assert!(said.out.starts_with(&wanted), "{shown}");
                accepted += 1;
                continue;
            }
            Err(refusal) => refusal,
        };
        assert_eq!(said.status, 1, "{shown}");
        if judge_section(request.library(), &request.section).is_err() {
            let wanted = format!("no: refusal {} at ", refusal.number);
            assert!(said.out.starts_with(&wanted), "{shown}");
            assert!(said.out.contains(" itself is refused; the body was not looked at"), "{shown}");
            of_types[has_library] += 1;
            continue;
        }
        held_to(&said.out, refusal, &shown);
        of_bodies[has_library] += 1;
    }
    assert!(accepted > 100, "{accepted}");
    assert!(of_types.iter().all(|&count| count > 5), "{of_types:?}");
    assert!(of_bodies.iter().all(|&count| count > 50), "{of_bodies:?}");
}

/// Number and place, a cause, and a mark, but for 27, whose place is no byte.
fn held_to(said: &str, refusal: Refusal, request: &str) {
    let Refusal { number, place, .. } = refusal;
    let wanted = match number {
        27 => "no: refusal 27 at 0, for the type's number\n".to_string(),
        _ => format!("no: refusal {number} at byte {place} of the body\n"),
    };
    assert!(said.starts_with(&wanted), "{request}");
    let cause = said.lines().nth(1).expect("a cause");
    assert!(cause.starts_with("  ") && cause.len() > 10, "{request}");
    assert_eq!(said.contains("^^"), number != 27, "{request}");
}

/// The mark is under the instruction's bytes, and the operands are the plain checker's.
#[test]
fn the_instruction_and_its_operands_are_told() {
    let (mut told, mut unreachable) = (0, 0);
    for (request, number, body) in bodies(32, 3_000) {
        let (library, section) = (request.library(), &request.section);
        let Err(refusal) = judge_body(library, section, number, &body) else { continue };
        if judge_section(library, section).is_err() || !matches!(refusal.number, 20 | 28 | 31) {
            continue;
        }
        let arguments = section_arguments(&request);
        let said = asked(&["check"], &arguments, &[&hex(&body), &number.to_string()]);
        let shown = format!("{request}\n{}", said.out);
        assert_eq!(marked(&said.out), instruction_bytes(&body, refusal.place), "{shown}");
        let before = operands_before(library, section, number, &body, refusal.place);
        let (operands, is_unreachable) = before.expect("an instruction is refused");
        let Some(there) = said.out.split("its block has, the top last: ").nth(1) else {
            assert!(operands.len() <= 1 && !is_unreachable, "{shown}");
            continue;
        };
        let wanted = stack(&operands, is_unreachable);
        assert_eq!(there.lines().next(), Some(&*wanted), "{shown}");
        told += 1;
        unreachable += is_unreachable as usize;
    }
    assert!(told > 50 && unreachable > 3, "{told}, {unreachable} of them unreachable");
}

/// How many bytes are marked, above a mend.
fn marked(said: &str) -> usize {
    let fault = said.split("  mended, with").next().unwrap_or("");
    let marks = fault.lines().filter(|line| line.trim_start().starts_with('^'));
    marks.map(|line| line.matches("^^").count()).sum()
}

fn instruction_bytes(body: &[u8], place: usize) -> usize {
    let mut reader = Reader::new(&body[place..]);
    read_instruction(&mut reader).expect("the instruction can be read");
    reader.place()
}

/// Bottom first; of more than eight, the topmost and how many more there are.
fn stack(operands: &[Operand], unreachable: bool) -> String {
    let hidden = operands.len().saturating_sub(8);
    let mut parts: Vec<String> = Vec::new();
    parts.extend(unreachable.then(|| "unknowns (unreachable)".to_string()));
    parts.extend((hidden > 0).then(|| format!("{hidden} more")));
    parts.extend(operands[hidden..].iter().map(|operand| match operand {
        Operand::Known(value) => value_text(*value),
        Operand::UnknownHeap => "(ref unknown)".to_string(),
        Operand::Unknown => panic!("an unknown is never on the stack"),
    }));
    match parts.is_empty() {
        true => "nothing".to_string(),
        false => parts.join(", "),
    }
}

fn value_text(value: ValueType) -> String {
    match value {
        ValueType::I32 => "i32".to_string(),
        ValueType::I64 => "i64".to_string(),
        ValueType::F32 => "f32".to_string(),
        ValueType::F64 => "f64".to_string(),
        ValueType::Ref(Reference { nullable: true, heap }) => {
            format!("(ref null {})", heap_text(heap))
        }
        ValueType::Ref(Reference { nullable: false, heap }) => format!("(ref {})", heap_text(heap)),
    }
}

fn heap_text(heap: Heap) -> String {
    match heap {
        Heap::Defined(number) => number.to_string(),
        Heap::Exact(number) => format!("(exact {number})"),
        Heap::Abstract(heap) => match heap {
            Abstract::NoFunc => "nofunc",
            Abstract::NoExtern => "noextern",
            Abstract::None => "none",
            Abstract::Func => "func",
            Abstract::Extern => "extern",
            Abstract::Any => "any",
            Abstract::Eq => "eq",
            Abstract::I31 => "i31",
            Abstract::Struct => "struct",
            Abstract::Array => "array",
        }
        .to_string(),
    }
}
