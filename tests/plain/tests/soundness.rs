//! Runs of accepted bodies keep to their types, whatever the budget: a check of
//! the checker against the machine, over generated bodies.

use plain::body::{judge_body, Body};
use plain::generate::requests;
use plain::lines::{read_request, Asked, Request};
use plain::machine::{trial_run, Outcome, Run};
use plain::state::{Object, Value};
use plain::syntax::{Instruction, ValueType};
use std::collections::BTreeSet;
use std::mem::discriminant;

fn fits(run: &Run, body: &Body, value: Value, wanted: ValueType) -> bool {
    match (value, wanted) {
        (Value::I32(_), ValueType::I32)
        | (Value::I64(_), ValueType::I64)
        | (Value::F32(_), ValueType::F32)
        | (Value::F64(_), ValueType::F64) => true,
        (Value::Null | Value::Object(_), ValueType::Ref(reference)) => {
            run.state.is_of(&body.types, value, reference)
        }
        _ => false,
    }
}

fn object_fits(run: &Run, body: &Body, object: &Object) -> bool {
    let definition = &body.types[object.type_number as usize].definition;
    let fields = definition.fields().expect("only structs are allocated");
    let descriptor = object.descriptor.map(|number| run.state.heap[number].type_number);
    let fields_fit =
        object.fields.iter().zip(fields).all(|(&value, field)| fits(run, body, value, field.value));
    fields.len() == object.fields.len() && fields_fit && descriptor == definition.descriptor
}

fn run_fits(run: &Run, body: &Body) -> bool {
    let locals = run.state.locals.iter().zip(&body.locals);
    let mut locals = locals.filter_map(|(value, &wanted)| value.map(|value| (value, wanted)));
    let locals_fit = locals.all(|(value, wanted)| fits(run, body, value, wanted));
    let heap_fits = run.state.heap.iter().all(|object| object_fits(run, body, object));
    let results_fit = run.outcome != Outcome::Done
        || run.state.operands.len() == body.results.len()
            && run
                .state
                .operands
                .iter()
                .zip(&body.results)
                .all(|(&value, &wanted)| fits(run, body, value, wanted));
    locals_fit && heap_fits && results_fit
}

/// A request for a run whose body is accepted.
struct Accepted {
    request: Request,
    body: Body,
}

impl Accepted {
    fn of(line: &str) -> Option<Accepted> {
        let request = read_request(line).ok()?;
        let Asked::Run(number, bytes, _) = &request.asked else {
            return None;
        };
        let body = judge_body(request.library(), &request.section, *number, bytes).ok()?;
        Some(Accepted { request, body })
    }

    fn run(&self, budget: u64) -> Option<Run> {
        let (number, bytes) = self.request.body()?;
        trial_run(self.request.library(), &self.request.section, number, bytes, budget).ok()
    }
}

#[test]
fn states_keep_to_their_types() {
    for request in requests(11, 6000, true).chain(requests(12, 2000, false)) {
        let Some(accepted) = Accepted::of(&request) else {
            continue;
        };
        for budget in (0..12).chain([50, 999]) {
            if let Some(run) = accepted.run(budget) {
                assert!(run_fits(&run, &accepted.body), "{request} with {budget}");
            }
        }
    }
}

/// Without a loop a run stops within as many steps as there are instructions.
#[test]
fn bodies_without_loop_stop() {
    for request in requests(13, 4000, true) {
        let Some(accepted) = Accepted::of(&request) else {
            continue;
        };
        let code = &accepted.body.code;
        let has_loop = code.iter().any(|placed| matches!(placed.instruction, Instruction::Loop(_)));
        if let (false, Some(run)) = (has_loop, accepted.run(1_000_000)) {
            assert!(run.outcome != Outcome::Spent && run.steps <= code.len() as u64);
        }
    }
}

/// Every kind of instruction stands in accepted bodies.
#[test]
fn every_instruction_is_accepted_somewhere() {
    let mut kinds = BTreeSet::new();
    for request in requests(14, 3000, true) {
        let Some(Accepted { body, .. }) = Accepted::of(&request) else {
            continue;
        };
        let kind_of = |instruction: Instruction| match instruction {
            Instruction::BranchingCast(cast) => {
                format!("branching cast {} {}", cast.by_descriptor, cast.fail)
            }
            Instruction::RefTest(target) => format!("test {}", target.nullable),
            Instruction::RefCast(target) => format!("cast {}", target.nullable),
            Instruction::RefCastDescEq(target) => format!("cast_desc_eq {}", target.nullable),
            other => format!("{:?}", discriminant(&other)),
        };
        kinds.extend(body.code.iter().map(|placed| kind_of(placed.instruction)));
    }
    // 32 instructions, four of which stand for 4, 2, 2 and 2 of the paper's; the numeric
    // codes, which are one here, are counted in numbers_generated.rs.
    assert_eq!(kinds.len(), 32 - 4 + 4 + 2 + 2 + 2, "{kinds:?}");
}
