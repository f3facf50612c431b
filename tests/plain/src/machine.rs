//! The trial run: one instruction is one step.
//!
//! A step first asks whether it traps, looking only; then it is done. So a
//! trapping step changes nothing.

use crate::body::{judge_body, Body};
use crate::compute::computed;
use crate::numeric::row_of_code;
use crate::refusal::{refuse, Refusal, NO_DEFAULT, SIZE_EXCEEDED};
use crate::sizes;
use crate::state::{default_of, BlockKind, OpenBlock, State, Value};
use crate::syntax::{BranchingCast, Field, Instruction, Placed, Reference};

pub const UNREACHABLE: u32 = 41;
pub const NULL_USED: u32 = 42;
pub const NULL_DESCRIPTOR: u32 = 43;
pub const CAST_FAILED: u32 = 44;
pub const NO_ROOM: u32 = 45;
pub const NUMERIC_NOT_DONE: u32 = 46;

#[derive(Clone, Copy, Debug, PartialEq, Eq)]
pub enum Outcome {
    Done,
    Trap(u32),
    Spent,
}

pub struct Run {
    pub outcome: Outcome,
    pub steps: u64,
    pub state: State,
    /// The place of the next or the trapping instruction, or the body's length.
    pub place: usize,
    /// The body's instructions, for the places of open blocks.
    pub code: Vec<Placed>,
}

struct Machine<'a> {
    body: &'a Body,
    /// For each block or loop, which instruction is its `end`.
    ends: Vec<usize>,
    state: State,
}

/// The body's refusals, then budget, then parameters; then the run.
pub fn trial_run(
    library: &[u8],
    section: &[u8],
    number: u32,
    body: &[u8],
    budget: u64,
) -> Result<Run, Refusal> {
    let body = judge_body(library, section, number, body)?;
    if budget > sizes::BUDGET {
        return refuse(SIZE_EXCEEDED, 0);
    }
    if !body.parameters.iter().all(|parameter| parameter.has_default()) {
        return refuse(NO_DEFAULT, 0);
    }
    let ends = ends_of(&body.code);
    let mut machine = Machine { body: &body, ends, state: State::start(&body.locals) };
    let (outcome, steps) = machine.run(budget);
    let state = machine.state;
    let place = body.code.get(state.next).map_or(body.length, |placed| placed.place);
    Ok(Run { outcome, steps, state, place, code: body.code })
}

/// The `end` of each block and loop; other instructions stand for themselves.
fn ends_of(code: &[Placed]) -> Vec<usize> {
    let mut ends: Vec<usize> = (0..code.len()).collect();
    let mut open = Vec::new();
    for (index, placed) in code.iter().enumerate() {
        match placed.instruction {
            Instruction::Block(_) | Instruction::Loop(_) => open.push(index),
            Instruction::End => {
                if let Some(opened_by) = open.pop() {
                    ends[opened_by] = index;
                }
            }
            _ => {}
        }
    }
    ends
}

impl Machine<'_> {
    fn run(&mut self, budget: u64) -> (Outcome, u64) {
        let mut steps = 0;
        while !self.is_done() {
            if steps == budget {
                return (Outcome::Spent, steps);
            }
            steps += 1;
            let instruction = self.body.code[self.state.next].instruction;
            if let Some(trap) = self.trap(&instruction) {
                return (Outcome::Trap(trap), steps);
            }
            self.step(&instruction);
        }
        (Outcome::Done, steps)
    }

    /// Past the last `end`.
    fn is_done(&self) -> bool {
        self.state.next == self.body.code.len()
    }

    fn fields(&self, number: u32) -> &[Field] {
        self.body.types[number as usize].definition.fields().unwrap_or(&[])
    }

    fn trap(&self, instruction: &Instruction) -> Option<u32> {
        match *instruction {
            Instruction::Unreachable => Some(UNREACHABLE),
            Instruction::StructGet(..) | Instruction::RefAsNonNull | Instruction::RefGetDesc(_) => {
                self.trap_on_null(0, NULL_USED)
            }
            // The object lies below the value.
            Instruction::StructSet(..) => self.trap_on_null(1, NULL_USED),
            Instruction::StructNew(number) | Instruction::StructNewDefault(number) => {
                self.trap_on_room(number)
            }
            Instruction::StructNewDesc(number) | Instruction::StructNewDefaultDesc(number) => {
                self.trap_on_null(0, NULL_DESCRIPTOR).or_else(|| self.trap_on_room(number))
            }
            Instruction::RefCast(target) => trap_unless(self.passes(target), CAST_FAILED),
            Instruction::RefCastDescEq(target) => self
                .trap_on_null(0, NULL_DESCRIPTOR)
                .or_else(|| trap_unless(self.passes_by_descriptor(target), CAST_FAILED)),
            Instruction::BranchingCast(BranchingCast { by_descriptor: true, .. }) => {
                self.trap_on_null(0, NULL_DESCRIPTOR)
            }
            Instruction::Numeric(code) => {
                trap_unless(self.computed(code).is_some(), NUMERIC_NOT_DONE)
            }
            _ => None,
        }
    }

    fn trap_on_null(&self, below_top: usize, code: u32) -> Option<u32> {
        trap_unless(self.state.operand(below_top) != Value::Null, code)
    }

    fn trap_on_room(&self, number: u32) -> Option<u32> {
        trap_unless(self.state.has_room(self.fields(number).len()), NO_ROOM)
    }

    /// Whether the operand on top passes a cast to the target.
    fn passes(&self, target: Reference) -> bool {
        self.state.is_of(&self.body.types, self.state.operand(0), target)
    }

    /// Whether the operand below the descriptor passes a descriptor cast.
    fn passes_by_descriptor(&self, target: Reference) -> bool {
        self.state.is_described_by(self.state.operand(1), self.state.operand(0), target)
    }

    /// The result of a numeric code on the operands that are there; None where the run
    /// does not do it.
    fn computed(&self, code: u8) -> Option<Value> {
        let row = row_of_code(code)?;
        let first = self.state.operands.len() - row.operands.len();
        computed(row.operation(), &self.state.operands[first..])
    }

    fn compute(&mut self, code: u8) {
        let result = self.computed(code).expect("what is not done has trapped");
        let row = row_of_code(code).expect("it has been read");
        self.state.pop_many(row.operands.len());
        self.state.operands.push(result);
    }

    fn step(&mut self, instruction: &Instruction) {
        let index = self.state.next;
        self.state.next += 1;
        match *instruction {
            Instruction::Nop => {}
            Instruction::Block(value) => {
                self.open(BlockKind::Block, index, value.map_or(0, |_| 1));
            }
            Instruction::Loop(_) => self.open(BlockKind::Loop, index, 0),
            Instruction::End => drop(self.state.blocks.pop()),
            Instruction::Br(label) => self.branch(label),
            Instruction::BrIf(label) => {
                if self.state.pop() != Value::I32(0) {
                    self.branch(label);
                }
            }
            Instruction::Return => self.leave(),
            Instruction::Drop => drop(self.state.pop()),
            Instruction::LocalGet(local) => self.get_local(local),
            Instruction::LocalSet(local) => {
                let value = self.state.pop();
                self.state.locals[local as usize] = Some(value);
            }
            Instruction::LocalTee(local) => {
                self.state.locals[local as usize] = Some(self.state.operand(0));
            }
            Instruction::I32Const(number) => self.state.operands.push(Value::I32(number)),
            Instruction::I64Const(number) => self.state.operands.push(Value::I64(number)),
            Instruction::F32Const(bits) => self.state.operands.push(Value::F32(bits)),
            Instruction::F64Const(bits) => self.state.operands.push(Value::F64(bits)),
            Instruction::Numeric(code) => self.compute(code),
            _ => self.step_on_references(instruction),
        }
    }

    fn step_on_references(&mut self, instruction: &Instruction) {
        match *instruction {
            Instruction::RefNull(_) => self.state.operands.push(Value::Null),
            Instruction::RefIsNull => {
                let value = self.state.pop();
                self.push_truth(value == Value::Null);
            }
            Instruction::RefEq => {
                let (right, left) = (self.state.pop(), self.state.pop());
                self.push_truth(left == right);
            }
            Instruction::RefTest(target) => {
                let passed = self.passes(target);
                self.state.pop();
                self.push_truth(passed);
            }
            // What would not pass has trapped; the reference stays as it is.
            Instruction::RefAsNonNull | Instruction::RefCast(_) => {}
            Instruction::RefCastDescEq(_) => drop(self.state.pop()),
            Instruction::BranchingCast(cast) => self.branch_on_cast(&cast),
            _ => self.step_on_structs(instruction),
        }
    }

    fn step_on_structs(&mut self, instruction: &Instruction) {
        match *instruction {
            Instruction::StructNew(number) => {
                let fields = self.state.pop_many(self.fields(number).len());
                self.state.allocate(number, None, fields);
            }
            Instruction::StructNewDefault(number) => {
                self.state.allocate(number, None, self.default_fields(number));
            }
            Instruction::StructNewDesc(number) => {
                let descriptor = self.state.pop_object();
                let fields = self.state.pop_many(self.fields(number).len());
                self.state.allocate(number, Some(descriptor), fields);
            }
            Instruction::StructNewDefaultDesc(number) => {
                let descriptor = self.state.pop_object();
                self.state.allocate(number, Some(descriptor), self.default_fields(number));
            }
            Instruction::StructGet(_, field) => {
                let object = self.state.pop_object();
                let value = self.state.heap[object].fields[field as usize];
                self.state.operands.push(value);
            }
            Instruction::StructSet(_, field) => {
                let value = self.state.pop();
                let object = self.state.pop_object();
                self.state.heap[object].fields[field as usize] = value;
            }
            Instruction::RefGetDesc(_) => {
                let object = self.state.pop_object();
                let descriptor = self.state.heap[object].descriptor;
                let number = descriptor.expect("a checked body asks only objects that have one");
                self.state.operands.push(Value::Object(number));
            }
            _ => unreachable!("every other instruction is stepped before or traps"),
        }
    }

    fn default_fields(&self, number: u32) -> Vec<Value> {
        let value = |field: &Field| default_of(field.value).expect("29 was looked at before");
        self.fields(number).iter().map(value).collect()
    }

    fn push_truth(&mut self, truth: bool) {
        self.state.operands.push(Value::I32(i32::from(truth)));
    }

    fn get_local(&mut self, local: u32) {
        let value = self.state.locals[local as usize];
        self.state.operands.push(value.expect("22 was looked at before"));
    }

    fn open(&mut self, kind: BlockKind, opened_by: usize, carried: usize) {
        let height = self.state.operands.len();
        self.state.blocks.push(OpenBlock { kind, opened_by, height, carried });
    }

    /// Out of a block past its `end`; to a loop, after its `loop`, still open.
    fn branch(&mut self, label: u32) {
        let depth = self.state.blocks.len();
        let Some(target) = depth.checked_sub(label as usize + 1) else {
            return self.leave();
        };
        let block = self.state.blocks[target];
        self.carry(block.carried, block.height);
        match block.kind {
            BlockKind::Loop => {
                self.state.blocks.truncate(target + 1);
                self.state.next = block.opened_by + 1;
            }
            BlockKind::Block => {
                self.state.blocks.truncate(target);
                self.state.next = self.ends[block.opened_by] + 1;
            }
        }
    }

    /// To the function's own label: done, with the results as operands.
    fn leave(&mut self) {
        self.carry(self.body.results.len(), 0);
        self.state.blocks.clear();
        self.state.next = self.body.code.len();
    }

    /// Keeps so many values from the top and what lies below the height.
    fn carry(&mut self, count: usize, height: usize) {
        let carried = self.state.pop_many(count);
        self.state.operands.truncate(height);
        self.state.operands.extend(carried);
    }

    fn branch_on_cast(&mut self, cast: &BranchingCast) {
        let passed = if cast.by_descriptor {
            let passed = self.passes_by_descriptor(cast.target);
            self.state.pop();
            passed
        } else {
            self.passes(cast.target)
        };
        if passed != cast.fail {
            self.branch(cast.label);
        }
    }
}

fn trap_unless(holds: bool, code: u32) -> Option<u32> {
    (!holds).then_some(code)
}
