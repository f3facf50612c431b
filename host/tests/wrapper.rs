//! The wrapper's values, worked out by hand from docs/LAYOUT.md's states.

use chelbugan::state::{Block, Object, Value};
use chelbugan::table::{Field, Form, Heap, Number, ValueType};
use chelbugan::{Ended, Input, Loader, Refusal, EMPTY_LIBRARY};

const F1: [u8; 17] = [
    0x02, 0x4E, 0x02, 0x4D, 0x01, 0x5F, 0x00, 0x4C, 0x00, 0x5F, 0x00, 0x60, 0x00, 0x01, 0x64, 0x62,
    0x00,
];

/// Of F1's type 2: a descriptor, and an object with it.
const BODY: [u8; 8] = [0x00, 0xFB, 0x00, 0x01, 0xFB, 0x20, 0x00, 0x0B];

#[test]
fn a_run_with_every_part_of_its_state() {
    let section = [0x02, 0x5F, 0x01, 0x7F, 0x00, 0x60, 0x00, 0x00];
    let body = [
        0x01, 0x01, 0x7F, 0x41, 0x7B, 0xFB, 0x00, 0x00, 0x02, 0x40, 0x41, 0x07, 0x1A, 0x0B, 0x1A,
        0x0B,
    ];
    let mut loader = Loader::new();
    let run = loader.try_run(EMPTY_LIBRARY, &section, &body, 1, 4).expect("it is accepted");
    assert_eq!(run.ended, Ended::Spent { steps: 4 });
    assert_eq!(run.state.place(), 12);
    let object = Object { type_number: 0, descriptor: None, fields: vec![Value::I32(-5)] };
    assert_eq!(run.state.objects(), [object]);
    assert_eq!(run.state.locals(), [Some(Value::I32(0))]);
    assert_eq!(run.state.operands(), [Value::Object(0), Value::I32(7)]);
    assert_eq!(run.state.blocks(), [Block { is_loop: false, place: 8, height: 1 }]);
}

/// The second of two objects has its own cells, whatever lies in the first's.
#[test]
fn fields_of_every_kind_stand_with_their_object() {
    // Type 0: an i32; type 1: i64, f32, f64, any, all by default.
    let section =
        [0x03, 0x5F, 0x01, 0x7F, 0x00, 0x5F, 0x04, 0x7E, 0x00, 0x7D, 0x00, 0x7C, 0x00, 0x6E, 0x00];
    let section = [&section[..], &[0x60, 0x00, 0x00]].concat();
    let body = [0x01, 0x01, 0x64, 0x00, 0xFB, 0x01, 0x00, 0x1A, 0xFB, 0x01, 0x01, 0x1A, 0x0B];
    let mut loader = Loader::new();
    let run = loader.try_run(EMPTY_LIBRARY, &section, &body, 2, 100).expect("it is accepted");
    assert_eq!(run.ended, Ended::Done { steps: 5, results: 0 });
    let zero = [Value::I64(0), Value::F32(0), Value::F64(0), Value::Null];
    let fields: Vec<Vec<Value>> =
        run.state.objects().into_iter().map(|object| object.fields).collect();
    assert_eq!(fields, [vec![Value::I32(0)], zero.to_vec()]);
    assert_eq!(run.state.locals(), [None], "it has no default and was not set");
}

/// One loader for all calls, each after the others: what one leaves is nothing to the next.
#[test]
fn a_loader_is_used_again() {
    let mut loader = Loader::new();
    for _ in 0..2 {
        let run = loader.try_run(EMPTY_LIBRARY, &F1, &BODY, 2, 100).expect("it is accepted");
        assert_eq!(run.ended, Ended::Done { steps: 3, results: 1 });
        assert_eq!(run.state.operands(), [Value::Object(1)]);
        let described = run.state.objects().into_iter().map(|object| object.descriptor);
        assert_eq!(described.collect::<Vec<_>>(), [None, Some(0)]);
        assert_eq!(loader.judge_section(EMPTY_LIBRARY, &F1).map(|table| table.count()), Ok(3));
        assert_eq!(loader.judge_body(EMPTY_LIBRARY, &F1, &BODY, 2), Ok(3));
        assert_eq!(loader.type_bytes(EMPTY_LIBRARY, &F1, 0), Ok((&F1[3..7], Input::Addon)));
        let budget = loader.try_run(EMPTY_LIBRARY, &F1, &BODY, 2, 1_000_001).map(|run| run.ended);
        assert_eq!(budget, Err(Refusal { number: 4, place: 0, input: None }));
    }
}

#[test]
fn a_trap_is_told_with_its_place_and_steps() {
    let null = [0x00, 0xD0, 0x62, 0x01, 0xFB, 0x20, 0x00, 0x0B];
    let mut loader = Loader::new();
    let run = loader.try_run(EMPTY_LIBRARY, &F1, &null, 2, 100).expect("it is accepted");
    assert_eq!(run.ended, Ended::Trap { number: 43, place: 4, steps: 2 });
    assert_eq!((run.state.place(), run.state.operands()), (4, vec![Value::Null]));
    assert_eq!(run.state.objects(), []);
}

/// Two types of a library and two after them, as `tests/host/tests/table_words.rs` works out their words.
const LIBRARY: [u8; 13] =
    [0x02, 0x50, 0x00, 0x5F, 0x01, 0x7F, 0x01, 0x60, 0x01, 0x63, 0x00, 0x01, 0x7E];
const AFTER: [u8; 17] = [
    0x02, 0x4F, 0x01, 0x00, 0x5F, 0x02, 0x7F, 0x01, 0x64, 0x62, 0x02, 0x00, 0x60, 0x00, 0x01, 0x63,
    0x03,
];

fn reference(nullable: bool, heap: Heap) -> ValueType {
    ValueType::Reference { nullable, heap }
}

/// Each type's codes are read from its own section's buffer.
#[test]
fn a_table_of_two_sections() {
    let mut loader = Loader::new();
    let table = loader.judge_section(&LIBRARY, &AFTER).expect("they are accepted");
    let rows: Vec<_> = table.rows().collect();
    let inputs: Vec<Input> = rows.iter().map(|row| row.input()).collect();
    assert_eq!(inputs, [Input::Library, Input::Library, Input::Addon, Input::Addon]);
    let bytes: Vec<_> = rows.iter().map(|row| row.bytes()).collect();
    assert_eq!(bytes, [1..7, 7..13, 1..12, 12..17]);
    let counter = Field { mutable: true, value: ValueType::Number(Number::I32) };
    assert_eq!(rows[0].fields(), [counter]);
    assert_eq!((rows[1].form(), rows[1].is_open()), (Form::Function, false));
    assert_eq!(rows[1].parameters(), [reference(true, Heap::Defined(0))]);
    assert_eq!(rows[1].results(), [ValueType::Number(Number::I64)]);
    assert_eq!(rows[2].supertype(), Some(0));
    let itself = Field { mutable: false, value: reference(false, Heap::Exact(2)) };
    assert_eq!(rows[2].fields(), [counter, itself]);
    assert_eq!(rows[3].results(), [reference(true, Heap::Defined(3))]);
}

/// The bytes of a definition are a part of the section that holds it; a body names types of both.
#[test]
fn calls_with_a_library() {
    let mut loader = Loader::new();
    let mut bytes = |number| loader.type_bytes(&LIBRARY, &AFTER, number);
    assert_eq!(bytes(1), Ok((&LIBRARY[7..13], Input::Library)));
    assert_eq!(bytes(3), Ok((&AFTER[12..17], Input::Addon)));
    assert_eq!(bytes(4), Err(Refusal { number: 6, place: 4, input: None }));
    // ref.null 3 for the function of type 3
    let body = [0x00, 0xD0, 0x03, 0x0B];
    assert_eq!(loader.judge_body(&LIBRARY, &AFTER, &body, 3), Ok(2));
    let run = loader.try_run(&LIBRARY, &AFTER, &body, 3, 9).expect("it is accepted");
    assert_eq!(
        (run.ended, run.state.operands()),
        (Ended::Done { steps: 2, results: 1 }, vec![Value::Null])
    );
}

/// A byte of the library, of the section, a type's number, and a byte of the body.
#[test]
fn a_refusal_tells_its_input() {
    let mut loader = Loader::new();
    let mut refused = |library: &[u8], section: &[u8], body: &[u8]| {
        let refusal = loader.judge_body(library, section, body, 3).expect_err("it is refused");
        (refusal.number, refusal.place, refusal.input)
    };
    assert_eq!(refused(&[0x01, 0x7B], &[0x01, 0x7B], &[]), (3, 1, Some(Input::Library)));
    assert_eq!(refused(&LIBRARY, &[0x01, 0x7B], &[]), (3, 1, Some(Input::Addon)));
    assert_eq!(refused(&LIBRARY, &[0x01, 0x4C, 0x00, 0x60, 0x00, 0x00], &[]), (9, 2, None));
    assert_eq!(refused(&LIBRARY, &AFTER, &[0x00, 0x06]), (3, 1, None));
    assert_eq!(refused(&[], &AFTER, &[]), (1, 0, Some(Input::Library)));
}
