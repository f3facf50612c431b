//! Generated requests are refused with 31 at every instruction that may want a non-null
//! operand, each with its 20 beside it: told from the requests and their answers alone.

use plain::body::{judge_body, operands_before};
use plain::frames::Operand;
use plain::generate::requests;
use plain::instruction_reader::read_instruction;
use plain::lines::read_request;
use plain::number::Reader;
use plain::refusal::{ONLY_NULL, OPERAND, VALUES_LEFT};
use plain::syntax::{Instruction, ValueType};
use std::collections::BTreeMap;

const COUNT: usize = 30_000;
const LEAST: usize = 10;

type Counts = BTreeMap<String, usize>;

const INSTRUCTIONS: [&str; 9] = [
    "end",
    "br",
    "return",
    "br_if",
    "local.set",
    "local.tee",
    "struct.new",
    "struct.set",
    "branching cast",
];

/// Where an operand may have to be non-null.
fn name(instruction: Instruction) -> Option<&'static str> {
    Some(match instruction {
        Instruction::End => "end",
        Instruction::Br(_) => "br",
        Instruction::Return => "return",
        Instruction::BrIf(_) => "br_if",
        Instruction::LocalSet(_) => "local.set",
        Instruction::LocalTee(_) => "local.tee",
        Instruction::StructNew(_) | Instruction::StructNewDesc(_) => "struct.new",
        Instruction::StructSet(..) => "struct.set",
        Instruction::BranchingCast(_) => "branching cast",
        _ => return None,
    })
}

fn instruction_at(body: &[u8], place: usize) -> Option<Instruction> {
    let mut reader = Reader::new(&body[place..]);
    read_instruction(&mut reader).ok().map(|placed| placed.instruction)
}

/// The topmost of the operands is a reference that may be null.
fn null_on_top(own: &[Operand]) -> bool {
    matches!(own.last(), Some(Operand::Known(ValueType::Ref(reference))) if reference.nullable)
}

fn count(counts: &mut Counts, request: &str) -> Option<()> {
    let request = read_request(request).ok()?;
    let (library, section) = (request.library(), &request.section);
    let (number, body) = request.body()?;
    let refusal = judge_body(library, section, number, body).err()?;
    if ![OPERAND, ONLY_NULL, VALUES_LEFT].contains(&refusal.number) {
        return None;
    }
    let (own, unreachable) = operands_before(library, section, number, body, refusal.place)?;
    let mut add = |shape: String| *counts.entry(shape).or_insert(0) += 1;
    add(format!("{} at {}", refusal.number, name(instruction_at(body, refusal.place)?)?));
    if unreachable {
        add(format!("{} in unreachable code", refusal.number));
    }
    match (refusal.number, null_on_top(&own)) {
        (ONLY_NULL, false) => add("31 below the top".to_string()),
        (OPERAND, true) => add("20 with a null on top".to_string()),
        _ => {}
    }
    Some(())
}

#[test]
fn every_operand_has_its_31_and_its_20() {
    for small in [false, true] {
        let mut counts = Counts::new();
        requests(31, COUNT, small).filter_map(|request| count(&mut counts, &request)).count();
        let at_each =
            INSTRUCTIONS.iter().flat_map(|name| [20, 31].map(|n| format!("{n} at {name}")));
        let others = ["20 in unreachable code", "31 in unreachable code", "28 at end"];
        let others = others.iter().chain(&["31 below the top", "20 with a null on top"]);
        for shape in at_each.chain(others.map(|shape| shape.to_string())) {
            let count = counts.get(&shape).copied().unwrap_or(0);
            println!("{shape}: {count}");
            assert!(count >= LEAST, "{shape} only {count} times, small: {small}");
        }
    }
}
