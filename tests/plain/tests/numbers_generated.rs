//! Generated requests have numeric codes and constants of every kind, accepted, refused,
//! run and trapped: told from the requests, their answers and their runs alone.

use plain::body::judge_body;
use plain::generate::requests;
use plain::instruction_reader::{read_instruction, read_locals_entry};
use plain::lines::{answer, read_request, Asked};
use plain::machine::{trial_run, Outcome, NUMERIC_NOT_DONE};
use plain::number::Reader;
use plain::numeric::{row_of_code, TABLE};
use plain::refusal::Refusal;
use plain::state::Value;
use plain::syntax::Instruction;
use std::collections::BTreeMap;

const COUNT: usize = 40_000;
const LEAST: usize = 10;
const SEVERAL: usize = 4;

type Counts = BTreeMap<String, usize>;

fn count(counts: &mut Counts, shape: impl Into<String>) {
    *counts.entry(shape.into()).or_insert(0) += 1;
}

fn at_least(counts: &Counts, shape: &str, least: usize) {
    let found = counts.get(shape).copied().unwrap_or(0);
    assert!(found >= least, "{shape} only {found} times");
}

/// The codes that stand in accepted bodies, and those of them in unreachable code.
#[test]
fn every_code_is_accepted_and_refused() {
    let mut counts = Counts::new();
    for request in requests(24, COUNT, true).chain(requests(25, COUNT / 3, false)) {
        let request = read_request(&request).expect("the generator writes requests");
        let Some((number, bytes)) = request.body() else {
            continue;
        };
        match judge_body(request.library(), &request.section, number, bytes) {
            Ok(body) => count_accepted(
                &mut counts,
                &body.code.iter().map(|p| p.instruction).collect::<Vec<_>>(),
            ),
            Err(Refusal { input: None, number, place }) => {
                count_refused(&mut counts, bytes, number, place);
            }
            // In a section.
            Err(_) => {}
        }
    }
    for row in &TABLE {
        at_least(&counts, &format!("accepted {}", row.name), LEAST);
        at_least(&counts, &format!("in unreachable code {}", row.name), SEVERAL);
    }
    for constant in ["i64.const", "f32.const", "f64.const"] {
        at_least(&counts, &format!("accepted {constant}"), 100);
    }
    // An operand of a numeric code missing or wrong; a code that is not listed; a cut
    // float; a number too long.
    for shape in ["20 at a numeric code", "3 after C4", "1 in a float", "2 in an i64"] {
        at_least(&counts, shape, LEAST);
    }
}

fn count_accepted(counts: &mut Counts, code: &[Instruction]) {
    let mut after_unreachable = false;
    for instruction in code {
        match *instruction {
            Instruction::Numeric(code) => {
                let name = row_of_code(code).expect("it is accepted").name;
                count(counts, format!("accepted {name}"));
                if after_unreachable {
                    count(counts, format!("in unreachable code {name}"));
                }
            }
            Instruction::I64Const(_) => count(counts, "accepted i64.const"),
            Instruction::F32Const(_) => count(counts, "accepted f32.const"),
            Instruction::F64Const(_) => count(counts, "accepted f64.const"),
            Instruction::Unreachable => after_unreachable = true,
            Instruction::End => after_unreachable = false,
            _ => {}
        }
    }
}

/// What stands where a body is refused.
fn count_refused(counts: &mut Counts, bytes: &[u8], number: u32, place: usize) {
    let byte = |place: usize| bytes.get(place).copied().unwrap_or(0);
    let begins = |place: usize| begins_instruction(bytes, place);
    let item_of = |codes: &[u8]| place > 0 && codes.contains(&byte(place - 1)) && begins(place - 1);
    match number {
        20 if row_of_code(byte(place)).is_some() => count(counts, "20 at a numeric code"),
        3 if byte(place) > 0xC4 && begins(place) => count(counts, "3 after C4"),
        1 if item_of(&[0x43, 0x44]) => count(counts, "1 in a float"),
        2 if item_of(&[0x42]) => count(counts, "2 in an i64"),
        _ => {}
    }
}

fn begins_instruction(bytes: &[u8], place: usize) -> bool {
    let mut reader = Reader::new(bytes);
    let Ok(entries) = reader.u32() else {
        return false;
    };
    let read = (0..entries).all(|_| read_locals_entry(&mut reader).is_ok());
    while read && reader.place() < place {
        if read_instruction(&mut reader).is_err() {
            return false;
        }
    }
    reader.place() == place
}

/// The operations that runs do, told by running to just before them and just past.
#[test]
fn every_operation_is_run() {
    let mut counts = Counts::new();
    for request in requests(23, COUNT, true) {
        let request = read_request(&request).expect("the generator writes requests");
        let Asked::Run(number, bytes, _) = &request.asked else {
            continue;
        };
        let run =
            |budget: u64| trial_run(request.library(), &request.section, *number, bytes, budget);
        for budget in 0..36 {
            let Ok(run) = run(budget) else {
                break;
            };
            let next = run.code.get(run.state.next).map(|placed| placed.instruction);
            if let (Outcome::Spent, Some(Instruction::Numeric(code))) = (run.outcome, next) {
                let row = row_of_code(code).expect("it is accepted");
                let below = run.state.operands.len() - row.operands.len();
                count_step(&mut counts, row.name, &run.state.operands[below..]);
            }
            if run.outcome != Outcome::Spent {
                break;
            }
        }
    }
    for row in TABLE.iter().filter(|row| is_done(row.name)) {
        at_least(&counts, row.name, LEAST);
    }
    for kind in ["f32", "f64"] {
        for operation in ["add", "sub", "mul", "div", "neg", "eq", "lt", "ge"] {
            at_least(&counts, &format!("{kind}.{operation} of a NaN"), SEVERAL);
        }
    }
}

const DONE_OF_INTEGERS: [&str; 13] = [
    "eqz", "eq", "ne", "lt_s", "lt_u", "gt_s", "gt_u", "le_s", "le_u", "ge_s", "ge_u", "add", "sub",
];
const DONE_OF_FLOATS: [&str; 11] =
    ["eq", "ne", "lt", "gt", "le", "ge", "neg", "add", "sub", "mul", "div"];

fn is_done(name: &str) -> bool {
    let (kind, operation) = name.split_once('.').expect("a kind and an operation");
    match kind {
        "i32" | "i64" => DONE_OF_INTEGERS.contains(&operation),
        _ => DONE_OF_FLOATS.contains(&operation),
    }
}

fn count_step(counts: &mut Counts, name: &str, operands: &[Value]) {
    count(counts, name);
    let nan = |value: &Value| match *value {
        Value::F32(bits) => bits & 0x7FFF_FFFF > 0x7F80_0000,
        Value::F64(bits) => bits & !(1 << 63) > 0x7FF0_0000_0000_0000,
        _ => false,
    };
    if operands.iter().any(nan) {
        count(counts, format!("{name} of a NaN"));
    }
}

/// The codes that a run stops at with 46.
#[test]
fn every_other_code_traps() {
    let mut counts = Counts::new();
    for request in requests(24, 3 * COUNT, true).filter(|request| request.starts_with('R')) {
        let answer = answer(&request);
        let Some(place) = answer.strip_prefix(&format!("trap {NUMERIC_NOT_DONE} ")) else {
            continue;
        };
        let place: usize = place.split(' ').next().and_then(|p| p.parse().ok()).expect("a place");
        let request = read_request(&request).expect("the generator writes requests");
        let (_, bytes) = request.body().expect("a run has a body");
        count(&mut counts, row_of_code(bytes[place]).expect("a numeric code").name);
    }
    assert_eq!(counts.len(), 128 - 48);
    counts.keys().for_each(|name| at_least(&counts, name, SEVERAL));
    assert!(counts.values().sum::<usize>() > 1_000);
}
