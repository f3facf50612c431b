//! The first fault of a body whose section was accepted: its size, its number, its locals, then instruction by instruction.

use super::order::Fit;
use super::section::type_part;
use super::stack::{Frame, Kind, Operand};
use super::{Cause, Holder, Joined, INPUT_BYTES};
use crate::read;
use crate::syntax::{Form, Heap, Instruction, Item, Placed, Plain, Type, ValueType};

/// Sizes that the instructions are held to.
const LOCALS: u64 = 256;
const OPERANDS: usize = 512;
const FRAMES: usize = 64;

/// The count of instructions, or the first fault.
pub fn judge(all: &Joined, number: u64, body: &[u8]) -> Result<u64, Cause> {
    if body.len() > INPUT_BYTES {
        return Err(Cause::new(4, 0, format!("a body has at most {INPUT_BYTES} bytes")));
    }
    let Some(function) = all.type_of(number) else {
        return Err(Cause::new(27, 0, all.lacks(number)));
    };
    let Form::Function { parameters, results } = &function.form else {
        let cause = Cause::new(27, 0, format!("{} is a struct", all.name(number)));
        let text = format!("{}: struct", all.label(number));
        return Err(type_part(cause, function, &function.head, text));
    };
    let values = |entries: &[Placed<ValueType>]| entries.iter().map(|it| it.what).collect();
    let read = read::body::read(body);
    let mut check = Check::new(all, function, &read.parts, values(parameters), values(results));
    for at in 0..read.parts.len() {
        check.part(at)?;
    }
    match read.fault {
        Some((_, fault)) => Err(Cause::new(fault.number, fault.place, fault.why)),
        None => Ok(check.instructions),
    }
}

pub struct Check<'a> {
    pub all: &'a Joined,
    pub types: &'a [Type],
    /// Of the body.
    pub function: &'a Type,
    pub parts: &'a [Placed<Item>],
    pub locals: Vec<ValueType>,
    /// By which part of the body each is set; parameters and defaults by its first.
    pub set: Vec<Option<usize>>,
    /// The set, the opening and the end of a block that forgot a local's set.
    pub forgotten: Vec<Option<[usize; 3]>>,
    pub frames: Vec<Frame>,
    pub operands: Vec<Operand>,
    instructions: u64,
}

impl<'a> Check<'a> {
    fn new(
        all: &'a Joined,
        function: &'a Type,
        parts: &'a [Placed<Item>],
        parameters: Vec<ValueType>,
        results: Vec<ValueType>,
    ) -> Check<'a> {
        let set = vec![Some(0); parameters.len()];
        let own = Frame {
            label: results.clone(),
            results,
            height: 0,
            unreachable: false,
            opened: None,
            set_before: Vec::new(),
        };
        Check {
            all,
            types: &all.types,
            function,
            parts,
            forgotten: vec![None; parameters.len()],
            locals: parameters,
            set,
            frames: vec![own],
            operands: Vec::new(),
            instructions: 0,
        }
    }

    fn part(&mut self, at: usize) -> Result<(), Cause> {
        match self.parts[at].what {
            Item::Entries(_) => Ok(()),
            Item::Locals(count, value) => self.entry(at, count, value),
            Item::Instruction(instruction) => {
                self.instructions += 1;
                self.instruction(at, &instruction)
            }
        }
    }

    pub fn cause(&self, number: u64, at: usize, words: String) -> Cause {
        Cause::new(number, self.parts[at].bytes.start, words)
    }

    /// A cause with another part of the body beside it.
    pub fn with_part(&self, cause: Cause, at: usize, remark: &str) -> Cause {
        let part = &self.parts[at];
        cause.showing(Holder::Body, &part.bytes, format!("{}{remark}", part.what))
    }

    /// An entry of the locals: 6, then 4.
    fn entry(&mut self, at: usize, count: u32, value: ValueType) -> Result<(), Cause> {
        if let Some(number) = value.number().filter(|&number| self.absent(number)) {
            return Err(self.cause(6, at, self.all.lacks(number)));
        }
        let all = self.locals.len() as u64 + u64::from(count);
        if all > LOCALS {
            let words = format!("{all} locals with parameters; {LOCALS} are the most");
            return Err(self.cause(4, at, words));
        }
        self.locals.extend((0..count).map(|_| value));
        self.set.resize(self.locals.len(), value.has_default().then_some(0));
        self.forgotten.resize(self.locals.len(), None);
        Ok(())
    }

    pub fn absent(&self, number: u32) -> bool {
        number as usize >= self.types.len()
    }

    fn instruction(&mut self, at: usize, instruction: &Instruction) -> Result<(), Cause> {
        if let Some((number, words, shown)) = self.broken_rule(instruction) {
            let mut cause = self.cause(number, at, words);
            cause.shown = shown;
            return Err(cause);
        }
        let wanted = self.taken(instruction);
        let taken = self.take_all(at, instruction, &wanted)?;
        self.values_left(at, instruction, &wanted, &taken)?;
        let top = taken.last().map_or(Kind::Unknown, |operand| operand.kind);
        self.give(at, instruction, top);
        self.within_sizes(at)
    }

    pub fn frame(&self) -> &Frame {
        self.frames.last().expect("a frame is open while instructions are left")
    }

    /// The operands of the innermost frame.
    pub fn own(&self) -> &[Operand] {
        &self.operands[self.frame().height..]
    }

    fn within_sizes(&self, at: usize) -> Result<(), Cause> {
        let (operands, frames) = (self.operands.len(), self.frames.len());
        if operands > OPERANDS {
            let words = format!("{operands} operands in all frames; {OPERANDS} are the most");
            return Err(self.cause(4, at, words));
        }
        if frames > FRAMES {
            let words =
                format!("{frames} frames, the function's own counted; {FRAMES} are the most");
            return Err(self.cause(4, at, words));
        }
        Ok(())
    }

    fn push(&mut self, by: usize, values: impl IntoIterator<Item = ValueType>) {
        let values: Vec<ValueType> = values.into_iter().collect();
        let above = (0..values.len()).rev();
        let operands = values.iter().zip(above);
        let operands =
            operands.map(|(&value, above)| Operand { kind: Kind::Known(value), by, above });
        self.operands.extend(operands);
    }

    /// What an instruction does once its operands are taken.
    fn give(&mut self, at: usize, instruction: &Instruction, top: Kind) {
        match *instruction {
            Instruction::Block(value) => {
                let results: Vec<ValueType> = value.into_iter().collect();
                self.open(at, results.clone(), results);
            }
            Instruction::Loop(value) => self.open(at, Vec::new(), value.into_iter().collect()),
            Instruction::Plain(Plain::End) => self.close(at),
            Instruction::Plain(Plain::Unreachable | Plain::Return) | Instruction::Br(_) => {
                let height = self.frame().height;
                self.operands.truncate(height);
                if let Some(frame) = self.frames.last_mut() {
                    frame.unreachable = true;
                }
            }
            Instruction::Plain(Plain::AsNonNull) => {
                let kind = match top {
                    Kind::Known(ValueType::Ref(reference)) => {
                        Kind::Known(ValueType::non_null(reference.heap))
                    }
                    _ => Kind::UnknownHeap,
                };
                self.operands.push(Operand { kind, by: at, above: 0 });
            }
            Instruction::GetDescriptor(number) => {
                let exact = ValueType::nullable(Heap::Exact(number));
                let descriptor = self.descriptor(number).unwrap_or(number);
                let heap = match top.fit(self.types, exact) {
                    Fit::Fits => Heap::Exact(descriptor),
                    Fit::ButForNull | Fit::DoesNotFit => Heap::Defined(descriptor),
                };
                self.push(at, [ValueType::non_null(heap)]);
            }
            Instruction::LocalSet(local) | Instruction::LocalTee(local) => {
                self.set[local as usize] = Some(at);
                if let Instruction::LocalTee(_) = instruction {
                    self.push(at, [self.locals[local as usize]]);
                }
            }
            _ => {
                let given = self.given(instruction);
                self.push(at, given);
            }
        }
    }

    fn open(&mut self, at: usize, label: Vec<ValueType>, results: Vec<ValueType>) {
        self.frames.push(Frame {
            label,
            results,
            height: self.operands.len(),
            unreachable: false,
            opened: Some(at),
            set_before: self.set.clone(),
        });
    }

    /// Sets inside a block are forgotten at its end.
    fn close(&mut self, at: usize) {
        let Some(frame) = self.frames.pop() else { return };
        if let Some(opened) = frame.opened {
            for (local, before) in frame.set_before.iter().enumerate() {
                if let (None, Some(by)) = (before, self.set[local]) {
                    self.forgotten[local] = Some([by, opened, at]);
                }
            }
            self.set = frame.set_before;
            self.push(at, frame.results);
        }
    }
}

/// The operands of the innermost frame before the instruction at a place, and whether the frame is unreachable; none where no
/// instruction begins there or an earlier one is refused.
#[cfg(test)]
pub fn operands_before(
    all: &Joined,
    number: u64,
    body: &[u8],
    place: usize,
) -> Option<(Vec<String>, bool)> {
    let function = all.type_of(number)?;
    let Form::Function { parameters, results } = &function.form else { return None };
    let values = |entries: &[Placed<ValueType>]| entries.iter().map(|it| it.what).collect();
    let read = read::body::read(body);
    let mut check = Check::new(all, function, &read.parts, values(parameters), values(results));
    for at in 0..read.parts.len() {
        let instruction = matches!(read.parts[at].what, Item::Instruction(_));
        if instruction && read.parts[at].bytes.start == place {
            let own = check.own().iter().map(Operand::to_string).collect();
            return Some((own, check.frame().unreachable));
        }
        check.part(at).ok()?;
    }
    None
}
