//! A body judged: its locals, then instruction by instruction.
//!
//! Each instruction is read whole, asked the rules of instruction_rules, and then
//! its operands are taken from the top and its results put there.

use crate::frames::{as_non_null, Frame, Operand, Stack};
use crate::instruction_reader::{read_instruction, read_locals_entry};
use crate::instruction_rules::{descriptor_wanted, fallen_through, RULES};
use crate::number::Reader;
use crate::numeric::row_of_code;
use crate::order::{top_of, Fit};
use crate::refusal::{
    refuse, Number, Refusal, NOT_A_FUNCTION, OPERAND, OUT_OF_REACH, SIZE_EXCEEDED, VALUES_LEFT,
};
use crate::section::{judge_section, within_input_size};
use crate::sizes;
use crate::syntax::{
    Abstract, BranchingCast, Definition, Field, Form, Heap, Instruction, Placed, Type, ValueType,
};

/// An accepted body, ready to be run.
pub struct Body {
    /// The library's and then the add-on's.
    pub types: Vec<Type>,
    pub parameters: Vec<ValueType>,
    pub results: Vec<ValueType>,
    /// Parameters first.
    pub locals: Vec<ValueType>,
    pub code: Vec<Placed>,
    pub length: usize,
}

pub struct Checker<'a> {
    pub stack: Stack<'a>,
    pub locals: Vec<ValueType>,
    pub set: Vec<bool>,
}

/// Sections, body size, 27, locals, instructions, and last what is left over.
pub fn judge_body(
    library: &[u8],
    section: &[u8],
    number: u32,
    body: &[u8],
) -> Result<Body, Refusal> {
    let types = judge_section(library, section)?;
    within_input_size(body)?;
    let (parameters, results) = function_of(&types, number)?;
    let mut reader = Reader::new(body);
    let locals = read_locals(&mut reader, &types, &parameters)?;
    let mut checker = Checker::new(&types, &parameters, &results, locals);
    let code = checker.judge_instructions(&mut reader)?;
    reader.finish()?;
    let locals = checker.locals;
    Ok(Body { types, parameters, results, locals, code, length: body.len() })
}

/// The operands of the innermost frame before the instruction at a place, bottom first, and whether the frame is
/// unreachable. None where no instruction begins there, or an earlier one is refused.
pub fn operands_before(
    library: &[u8],
    section: &[u8],
    number: u32,
    body: &[u8],
    place: usize,
) -> Option<(Vec<Operand>, bool)> {
    let types = judge_section(library, section).ok()?;
    let (parameters, results) = function_of(&types, number).ok()?;
    let mut reader = Reader::new(body);
    let locals = read_locals(&mut reader, &types, &parameters).ok()?;
    let mut checker = Checker::new(&types, &parameters, &results, locals);
    while reader.place() < place {
        let placed = read_instruction(&mut reader).ok()?;
        checker.judge(&placed.instruction).ok()?;
    }
    let frame = checker.stack.frames.last()?;
    let own = checker.stack.operands[frame.height..].to_vec();
    (reader.place() == place).then_some((own, frame.unreachable))
}

fn function_of(types: &[Type], number: u32) -> Result<(Vec<ValueType>, Vec<ValueType>), Refusal> {
    match types.get(number as usize).map(|found| &found.definition.form) {
        Some(Form::Function { parameters, results }) => Ok((parameters.clone(), results.clone())),
        _ => refuse(NOT_A_FUNCTION, 0),
    }
}

/// Entry by entry: bytes, 6, 4.
fn read_locals(
    reader: &mut Reader,
    types: &[Type],
    parameters: &[ValueType],
) -> Result<Vec<ValueType>, Refusal> {
    let mut locals = parameters.to_vec();
    let entries = reader.u32()?;
    for _ in 0..entries {
        let entry = read_locals_entry(reader)?;
        if entry.value.number().is_some_and(|number| number as usize >= types.len()) {
            return refuse(OUT_OF_REACH, entry.place);
        }
        if locals.len() as u64 + u64::from(entry.count) > sizes::LOCALS {
            return refuse(SIZE_EXCEEDED, entry.place);
        }
        locals.extend((0..entry.count).map(|_| entry.value));
    }
    Ok(locals)
}

impl<'a> Checker<'a> {
    fn new(
        types: &'a [Type],
        parameters: &[ValueType],
        results: &[ValueType],
        locals: Vec<ValueType>,
    ) -> Checker<'a> {
        let parameter = |local: usize| local < parameters.len();
        let set: Vec<bool> = (0..locals.len())
            .map(|local| parameter(local) || locals[local].has_default())
            .collect();
        let stack = Stack { types, operands: Vec::new(), frames: Vec::new() };
        let mut checker = Checker { stack, locals, set };
        checker.open_frame(results.to_vec(), results.to_vec());
        checker
    }

    pub fn definition(&self, number: u32) -> &'a Definition {
        &self.stack.types[number as usize].definition
    }

    pub fn fields(&self, number: u32) -> &'a [Field] {
        self.definition(number).fields().unwrap_or(&[])
    }

    pub fn field(&self, number: u32, field: u32) -> Option<&'a Field> {
        self.fields(number).get(field as usize)
    }

    /// Up to the `end` that closes the function's own frame.
    fn judge_instructions(&mut self, reader: &mut Reader) -> Result<Vec<Placed>, Refusal> {
        let mut code = Vec::new();
        while !self.stack.frames.is_empty() {
            let placed = read_instruction(reader)?;
            self.judge(&placed.instruction).or_else(|number| refuse(number, placed.place))?;
            code.push(placed);
        }
        Ok(code)
    }

    fn judge(&mut self, instruction: &Instruction) -> Result<(), Number> {
        if let Some((number, _)) = RULES.iter().find(|(_, rule)| !rule(self, instruction)) {
            return Err(*number);
        }
        self.operate(instruction)?;
        self.within_sizes()
    }

    fn within_sizes(&self) -> Result<(), Number> {
        let too_many_operands = self.stack.operands.len() > sizes::OPERANDS;
        let too_many_frames = self.stack.frames.len() > sizes::FRAMES;
        if too_many_operands || too_many_frames {
            return Err(SIZE_EXCEEDED);
        }
        Ok(())
    }

    fn open_frame(&mut self, label: Vec<ValueType>, results: Vec<ValueType>) {
        let height = self.stack.operands.len();
        let set_before = self.set.clone();
        self.stack.frames.push(Frame { label, results, height, unreachable: false, set_before });
    }

    /// Operands from the top (20 and 31), then what is left (28); then the results.
    fn operate(&mut self, instruction: &Instruction) -> Result<(), Number> {
        match *instruction {
            Instruction::Nop => {}
            Instruction::Unreachable => self.stack.become_unreachable(),
            Instruction::Block(value) => {
                let results: Vec<ValueType> = value.into_iter().collect();
                self.open_frame(results.clone(), results);
            }
            // A branch to a loop carries nothing.
            Instruction::Loop(value) => self.open_frame(Vec::new(), value.into_iter().collect()),
            Instruction::End => self.close_frame()?,
            Instruction::Br(label) => self.branch(label)?,
            Instruction::BrIf(label) => self.branch_if(label)?,
            Instruction::Return => self.branch(self.stack.frames.len() as u32 - 1)?,
            Instruction::Drop => drop(self.stack.pop_any()?),
            Instruction::LocalGet(local) => self.stack.push(self.locals[local as usize]),
            Instruction::LocalSet(local) => self.set_local(local)?,
            Instruction::LocalTee(local) => {
                self.set_local(local)?;
                self.stack.push(self.locals[local as usize]);
            }
            Instruction::I32Const(_) => self.stack.push(ValueType::I32),
            Instruction::I64Const(_) => self.stack.push(ValueType::I64),
            Instruction::F32Const(_) => self.stack.push(ValueType::F32),
            Instruction::F64Const(_) => self.stack.push(ValueType::F64),
            Instruction::Numeric(code) => self.compute(code)?,
            _ => self.operate_on_references(instruction)?,
        }
        Ok(())
    }

    fn operate_on_references(&mut self, instruction: &Instruction) -> Result<(), Number> {
        match *instruction {
            Instruction::RefNull(heap) => self.stack.push(ValueType::nullable(heap)),
            Instruction::RefIsNull => {
                self.stack.pop_reference()?;
                self.stack.push(ValueType::I32);
            }
            Instruction::RefEq => {
                let comparable = ValueType::nullable(Heap::Abstract(Abstract::Eq));
                self.stack.pop_all(&[comparable, comparable])?;
                self.stack.push(ValueType::I32);
            }
            Instruction::RefAsNonNull => {
                let operand = self.stack.pop_reference()?;
                self.stack.operands.push(as_non_null(operand));
            }
            Instruction::RefTest(target) => {
                self.pop_of_hierarchy(target.heap)?;
                self.stack.push(ValueType::I32);
            }
            Instruction::RefCast(target) => {
                self.pop_of_hierarchy(target.heap)?;
                self.stack.push(ValueType::Ref(target));
            }
            Instruction::BranchingCast(cast) => self.branch_on_cast(&cast)?,
            _ => self.operate_on_structs(instruction)?,
        }
        Ok(())
    }

    fn operate_on_structs(&mut self, instruction: &Instruction) -> Result<(), Number> {
        match *instruction {
            Instruction::StructNew(number) => self.allocate(number, self.fields(number))?,
            Instruction::StructNewDefault(number) => self.allocate(number, &[])?,
            Instruction::StructNewDesc(number) => {
                self.pop_exact_descriptor(number)?;
                self.allocate(number, self.fields(number))?;
            }
            Instruction::StructNewDefaultDesc(number) => {
                self.pop_exact_descriptor(number)?;
                self.allocate(number, &[])?;
            }
            Instruction::StructGet(number, field) => {
                self.stack.pop(ValueType::nullable(Heap::Defined(number)))?;
                self.stack.push(self.fields(number)[field as usize].value);
            }
            Instruction::StructSet(number, field) => {
                self.stack.pop(self.fields(number)[field as usize].value)?;
                self.stack.pop(ValueType::nullable(Heap::Defined(number)))?;
            }
            Instruction::RefGetDesc(number) => self.get_descriptor(number)?,
            Instruction::RefCastDescEq(target) => {
                let descriptor = descriptor_wanted(self, target).ok_or(OPERAND)?;
                self.stack.pop(descriptor)?;
                self.stack.pop(ValueType::nullable(Heap::Abstract(Abstract::Any)))?;
                self.stack.push(ValueType::Ref(target));
            }
            _ => unreachable!("every other instruction is operated before"),
        }
        Ok(())
    }

    /// As the table says.
    fn compute(&mut self, code: u8) -> Result<(), Number> {
        let row = row_of_code(code).expect("a numeric code is read only where it has a row");
        self.stack.pop_all(row.operands)?;
        self.stack.push(row.result);
        Ok(())
    }

    fn close_frame(&mut self) -> Result<(), Number> {
        let results = self.stack.frame().results.clone();
        self.stack.pop_all(&results)?;
        if self.stack.operands.len() > self.stack.frame().height {
            return Err(VALUES_LEFT);
        }
        if let Some(frame) = self.stack.frames.pop() {
            self.set = frame.set_before;
        }
        self.stack.push_all(&results);
        Ok(())
    }

    /// The types that a label carries; 21 has made sure that it exists.
    fn label_types(&self, label: u32) -> Vec<ValueType> {
        self.stack.label(label).map_or(Vec::new(), |frame| frame.label.clone())
    }

    fn branch(&mut self, label: u32) -> Result<(), Number> {
        let types = self.label_types(label);
        self.stack.pop_all(&types)?;
        self.stack.become_unreachable();
        Ok(())
    }

    /// What is kept is read as the label's types afterwards.
    fn branch_if(&mut self, label: u32) -> Result<(), Number> {
        self.stack.pop(ValueType::I32)?;
        let types = self.label_types(label);
        self.stack.pop_all(&types)?;
        self.stack.push_all(&types);
        Ok(())
    }

    /// The descriptor, the object, then the values below it.
    fn branch_on_cast(&mut self, cast: &BranchingCast) -> Result<(), Number> {
        if cast.by_descriptor {
            let descriptor = descriptor_wanted(self, cast.target).ok_or(OPERAND)?;
            self.stack.pop(descriptor)?;
        }
        self.stack.pop(ValueType::Ref(cast.source))?;
        let mut below = self.label_types(cast.label);
        // The last one takes what is carried, which 25 has looked at.
        below.pop();
        self.stack.pop_all(&below)?;
        self.stack.push_all(&below);
        self.stack.push(ValueType::Ref(fallen_through(cast)));
        Ok(())
    }

    fn set_local(&mut self, local: u32) -> Result<(), Number> {
        self.stack.pop(self.locals[local as usize])?;
        self.set[local as usize] = true;
        Ok(())
    }

    fn pop_of_hierarchy(&mut self, heap: Heap) -> Result<Operand, Number> {
        let top = top_of(self.stack.types, heap);
        self.stack.pop(ValueType::nullable(Heap::Abstract(top)))
    }

    fn pop_exact_descriptor(&mut self, number: u32) -> Result<(), Number> {
        let descriptor = self.definition(number).descriptor.ok_or(OPERAND)?;
        self.stack.pop(ValueType::nullable(Heap::Exact(descriptor))).map(|_| ())
    }

    /// Takes the fields given and leaves an exact reference.
    fn allocate(&mut self, number: u32, fields: &[Field]) -> Result<(), Number> {
        let values: Vec<ValueType> = fields.iter().map(|field| field.value).collect();
        self.stack.pop_all(&values)?;
        self.stack.push(ValueType::non_null(Heap::Exact(number)));
        Ok(())
    }

    /// The result is exact when the operand is below (ref null (exact x)).
    fn get_descriptor(&mut self, number: u32) -> Result<(), Number> {
        let descriptor = self.definition(number).descriptor.ok_or(OPERAND)?;
        let operand = self.stack.pop(ValueType::nullable(Heap::Defined(number)))?;
        let heap = match self.stack.fit(operand, ValueType::nullable(Heap::Exact(number))) {
            Fit::Fits => Heap::Exact(descriptor),
            Fit::ButForNull | Fit::DoesNotFit => Heap::Defined(descriptor),
        };
        self.stack.push(ValueType::non_null(heap));
        Ok(())
    }
}
