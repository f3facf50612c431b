//! What docs/LAYOUT.md says of the lent words, put together from the plain checker's tree and from the state of its run.

use plain::machine::Run;
use plain::refusal::Input;
use plain::state::{BlockKind, Object, OpenBlock, Value};
use plain::syntax::{Abstract, Definition, Field, Form, Heap, Reference, Type, ValueType};

/// The sizes of docs/LAYOUT.md, in elements.
pub const ROWS: usize = 16_384;
pub const SHARED: usize = 32_768;
pub const CODES: usize = 32_768;
pub const WORK: usize = 4_096;
pub const ENDS: usize = 32_768;
pub const COUNTS: usize = 6;
pub const OBJECTS: usize = 4_096;
pub const CELLS: usize = 8_192;
pub const LOCALS: usize = 512;
pub const OPERANDS: usize = 1_024;
pub const BLOCKS: usize = 189;

/// The words of an accepted table, without what is zero beyond.
#[derive(Default)]
pub struct TableWords {
    pub rows: Vec<u16>,
    pub shared: Vec<u16>,
    pub codes: Vec<u16>,
}

/// A first code from here on is a place in `shared`, so much more.
const IN_SHARED: usize = 32_768;

/// The library's types first, with their codes in `shared`; then the add-on's.
pub fn table(types: &[Type]) -> TableWords {
    let mut words = TableWords::default();
    let ranges = ranges(types);
    for (found, range) in types.iter().zip(ranges) {
        let (codes, more) = match found.input {
            Input::Library => (&mut words.shared, IN_SHARED),
            Input::Addon => (&mut words.codes, 0),
        };
        words.rows.extend(row(found, more + codes.len(), range));
        codes.extend(codes_of(&found.definition.form));
    }
    words
}

/// Where each type stands, from 1 on, and where what is below it ends: types in the order of a walk that goes down to the subtypes
/// of a type before it goes on to the next, lower numbers first.
fn ranges(types: &[Type]) -> Vec<(u16, u16)> {
    fn place(types: &[Type], above: Option<u32>, next: &mut u16, ranges: &mut [(u16, u16)]) {
        for (number, found) in types.iter().enumerate() {
            if found.definition.supertypes.first().copied() == above {
                let start = *next;
                *next += 1;
                place(types, Some(number as u32), next, ranges);
                ranges[number] = (start, *next);
            }
        }
    }
    let mut ranges = vec![(0, 0); types.len()];
    place(types, None, &mut 1, &mut ranges);
    ranges
}

fn row(found: &Type, first_code: usize, (start, end): (u16, u16)) -> [u16; 16] {
    let Definition { open, supertypes, describes, descriptor, form } = &found.definition;
    let (kind, fields, results) = match form {
        Form::Struct(fields) => (1, fields.len(), 0),
        Form::Function { parameters, results } => (2, parameters.len(), results.len()),
    };
    [
        kind,
        fields as u16,
        results as u16,
        *open as u16,
        one_more(supertypes.first()),
        one_more(describes.as_ref()),
        one_more(descriptor.as_ref()),
        found.start as u16,
        found.end as u16,
        found.reach as u16,
        first_code as u16,
        0,
        start,
        end,
        0,
        0,
    ]
}

fn one_more(number: Option<&u32>) -> u16 {
    number.map_or(0, |&number| number as u16 + 1)
}

fn codes_of(form: &Form) -> Vec<u16> {
    match form {
        Form::Struct(fields) => fields.iter().map(field_code).collect(),
        Form::Function { parameters, results } => {
            parameters.iter().chain(results).map(value_code).collect()
        }
    }
}

fn field_code(field: &Field) -> u16 {
    2 * value_code(&field.value) + field.mutable as u16
}

fn value_code(value: &ValueType) -> u16 {
    match value {
        ValueType::I32 => 0,
        ValueType::I64 => 1,
        ValueType::F32 => 2,
        ValueType::F64 => 3,
        ValueType::Ref(Reference { nullable: false, heap }) => 4 + 2 * heap_code(heap),
        ValueType::Ref(Reference { nullable: true, heap }) => 5 + 2 * heap_code(heap),
    }
}

fn heap_code(heap: &Heap) -> u16 {
    match heap {
        Heap::Abstract(Abstract::NoFunc) => 0,
        Heap::Abstract(Abstract::NoExtern) => 1,
        Heap::Abstract(Abstract::None) => 2,
        Heap::Abstract(Abstract::Func) => 3,
        Heap::Abstract(Abstract::Extern) => 4,
        Heap::Abstract(Abstract::Any) => 5,
        Heap::Abstract(Abstract::Eq) => 6,
        Heap::Abstract(Abstract::I31) => 7,
        Heap::Abstract(Abstract::Struct) => 8,
        Heap::Abstract(Abstract::Array) => 9,
        Heap::Defined(number) => 10 + 2 * *number as u16,
        Heap::Exact(number) => 11 + 2 * *number as u16,
    }
}

/// The words of a run's state, without what is zero beyond.
pub struct StateWords {
    pub counts: Vec<u64>,
    pub objects: Vec<u16>,
    pub cells: Vec<u64>,
    pub locals: Vec<u64>,
    pub operands: Vec<u64>,
    pub blocks: Vec<u16>,
}

pub fn state(run: &Run) -> StateWords {
    let state = &run.state;
    let cells: Vec<Value> = state.heap.iter().flat_map(|object| object.fields.clone()).collect();
    let sizes = [cells.len(), state.locals.len(), state.operands.len(), state.blocks.len()];
    let counts = [run.place, state.heap.len()].into_iter().chain(sizes);
    StateWords {
        counts: counts.map(|count| count as u64).collect(),
        objects: objects(&state.heap),
        cells: cells.iter().flat_map(|&value| value_words(value)).collect(),
        locals: state.locals.iter().flat_map(|local| local.map_or([0, 0], value_words)).collect(),
        operands: state.operands.iter().flat_map(|&value| value_words(value)).collect(),
        blocks: state.blocks.iter().flat_map(|block| block_words(run, block)).collect(),
    }
}

/// Each object's cells begin where those of the one before end.
fn objects(heap: &[Object]) -> Vec<u16> {
    let mut words = Vec::new();
    let mut first_cell = 0;
    for object in heap {
        let descriptor = object.descriptor.map_or(0, |number| number as u16 + 1);
        let fields = object.fields.len() as u16;
        words.extend([object.type_number as u16, descriptor, first_cell, fields]);
        first_cell += fields;
    }
    words
}

fn value_words(value: Value) -> [u64; 2] {
    match value {
        Value::I32(number) => [1, u64::from(number as u32)],
        Value::I64(number) => [2, number as u64],
        Value::F32(bits) => [3, u64::from(bits)],
        Value::F64(bits) => [4, bits],
        Value::Null => [5, 0],
        Value::Object(number) => [6, number as u64],
    }
}

fn block_words(run: &Run, block: &OpenBlock) -> [u16; 3] {
    let kind = match block.kind {
        BlockKind::Block => 1,
        BlockKind::Loop => 2,
    };
    [kind, run.code[block.opened_by].place as u16, block.height as u16]
}
