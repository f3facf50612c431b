//! States of runs worked out by hand, word by word: docs/LAYOUT.md's own, one for each trap, and the fullest.

use host_tests::compare::{ask_loader, ask_plain, difference, Answer, Left};
use host_tests::memory::{Memory, SIZES};
use host_tests::requests::Request;

/// A function type of nothing to nothing, number 0.
const V: [u8; 4] = [0x01, 0x60, 0x00, 0x00];

/// Document 01's F1.
const F1: [u8; 17] = [
    0x02, 0x4E, 0x02, 0x4D, 0x01, 0x5F, 0x00, 0x4C, 0x00, 0x5F, 0x00, 0x60, 0x00, 0x01, 0x64, 0x62,
    0x00,
];

/// A loop that makes an object of a type by default, drops it and starts again.
fn making(number: u8) -> Vec<u8> {
    vec![0x00, 0x03, 0x40, 0xFB, 0x01, number, 0x1A, 0x0C, 0x00, 0x0B, 0x0B]
}

/// The words of a state by hand: counts, objects, cells, locals, operands, blocks; zero beyond and in the scratch.
#[derive(Default)]
struct Words {
    counts: [u64; 6],
    objects: Vec<u16>,
    cells: Vec<u64>,
    locals: Vec<u64>,
    operands: Vec<u64>,
    blocks: Vec<u16>,
}

impl Words {
    fn memory(self) -> Memory {
        let zero = Memory::filled(SIZES, 0);
        Memory {
            counts: self.counts.to_vec(),
            objects: beyond(self.objects, zero.objects.len()),
            cells: beyond(self.cells, zero.cells.len()),
            locals: beyond(self.locals, zero.locals.len()),
            operands: beyond(self.operands, zero.operands.len()),
            blocks: beyond(self.blocks, zero.blocks.len()),
            ..zero
        }
    }
}

fn beyond<T: Clone + Default>(mut words: Vec<T>, length: usize) -> Vec<T> {
    words.resize(length, T::default());
    words
}

/// The loader and the plain checker leave exactly these words, whatever was there before.
fn held(request: Request, answer: Answer, words: Words) {
    let wanted = Left { answer, memory: words.memory() };
    let plain = ask_plain(&request, SIZES);
    assert_eq!(difference(&plain, &wanted), None, "the plain checker on {request}");
    let mut memory = Memory::filled(SIZES, 0xA5A5_A5A5_A5A5_A5A5);
    let answer = ask_loader(&request, &mut memory.lent());
    let loader = Left { answer, memory };
    assert_eq!(difference(&loader, &wanted), None, "the loader on {request}");
}

/// docs/LAYOUT.md, "Worked: three states".
#[test]
fn the_layouts_worked_states() {
    let body = [0x00, 0xFB, 0x00, 0x01, 0xFB, 0x20, 0x00, 0x0B];
    let words = || Words {
        counts: [8, 2, 0, 0, 1, 0],
        objects: vec![1, 0, 0, 0, 0, 1, 0, 0],
        operands: vec![6, 1],
        ..Words::default()
    };
    held(Request::run(&F1, 2, &body, 3), Answer::Done(3, 1), words());
    // One step fewer: all is there, and the `end` is the next.
    let before = Words { counts: [7, 2, 0, 0, 1, 0], ..words() };
    held(Request::run(&F1, 2, &body, 2), Answer::Spent(2), before);
    let section = [0x02, 0x5F, 0x01, 0x7F, 0x00, 0x60, 0x00, 0x00];
    let body = [
        0x01, 0x01, 0x7F, 0x41, 0x7B, 0xFB, 0x00, 0x00, 0x02, 0x40, 0x41, 0x07, 0x1A, 0x0B, 0x1A,
        0x0B,
    ];
    let every_buffer = Words {
        counts: [12, 1, 1, 1, 2, 1],
        objects: vec![0, 0, 0, 1],
        cells: vec![1, 4_294_967_291],
        locals: vec![1, 0],
        operands: vec![6, 0, 1, 7],
        blocks: vec![1, 8, 1],
    };
    held(Request::run(&section, 1, &body, 4), Answer::Spent(4), every_buffer);
    let body = [
        0x01, 0x01, 0x7E, 0x43, 0x01, 0x00, 0xC0, 0xFF, 0x41, 0x7F, 0x41, 0x00, 0x6D, 0x1A, 0x1A,
        0x0B,
    ];
    let of_three_kinds = Words {
        counts: [12, 0, 0, 1, 3, 0],
        locals: vec![2, 0],
        operands: vec![3, 4_290_772_993, 1, 4_294_967_295, 1, 0],
        ..Words::default()
    };
    held(Request::run(&V, 0, &body, 9), Answer::Trap(46, 12, 4), of_three_kinds);
}

/// Each trap leaves the state as it was before the trapping step.
#[test]
fn traps_change_nothing() {
    let unreachable =
        Words { counts: [3, 0, 0, 0, 1, 0], operands: vec![1, 1], ..Words::default() };
    held(
        Request::run(&V, 0, &[0x00, 0x41, 0x01, 0x00, 0x0B], 9),
        Answer::Trap(41, 3, 2),
        unreachable,
    );
    let null = || Words { counts: [3, 0, 0, 0, 1, 0], operands: vec![5, 0], ..Words::default() };
    let f2 = [&F1[..16], &[0x01]].concat();
    let get_desc = [0x00, 0xD0, 0x71, 0xFB, 0x22, 0x00, 0x0B];
    held(Request::run(&f2, 2, &get_desc, 9), Answer::Trap(42, 3, 2), null());
    let new_desc = [0x00, 0xD0, 0x62, 0x01, 0xFB, 0x20, 0x00, 0x0B];
    let descriptor = Words { counts: [4, 0, 0, 0, 1, 0], ..null() };
    held(Request::run(&F1, 2, &new_desc, 9), Answer::Trap(43, 4, 2), descriptor);
    let cast = [0x00, 0xFB, 0x00, 0x01, 0xFB, 0x16, 0x62, 0x00, 0x0B];
    let made = Words {
        counts: [4, 1, 0, 0, 1, 0],
        objects: vec![1, 0, 0, 0],
        operands: vec![6, 0],
        ..Words::default()
    };
    held(Request::run(&F1, 2, &cast, 9), Answer::Trap(44, 4, 2), made);
}

/// The heap with all its objects and with all its cells: the loop, three steps for each object, and the one that traps.
#[test]
fn the_fullest_heaps() {
    let bare = [0x03, 0x5F, 0x00, 0x5F, 0x00, 0x60, 0x00, 0x00];
    let objects = Words {
        counts: [3, 1_024, 0, 0, 0, 1],
        objects: [1, 0, 0, 0].repeat(1_024),
        blocks: vec![2, 1, 0],
        ..Words::default()
    };
    let trap = Answer::Trap(45, 3, 1 + 3 * 1_024 + 1);
    held(Request::run(&bare, 2, &making(1), 1_000_000), trap, objects);
    let wide = [vec![0x02, 0x5F, 64], [0x7F, 0x01].repeat(64), vec![0x60, 0x00, 0x00]].concat();
    let cells = Words {
        counts: [3, 64, 4_096, 0, 0, 1],
        objects: (0..64).flat_map(|number| [0, 0, 64 * number, 64]).collect(),
        cells: [1, 0].repeat(4_096),
        blocks: vec![2, 1, 0],
        ..Words::default()
    };
    let trap = Answer::Trap(45, 3, 1 + 3 * 64 + 1);
    held(Request::run(&wide, 1, &making(0), 1_000_000), trap, cells);
}

/// 512 operands, 63 open blocks, 256 locals: each buffer to its last word.
#[test]
fn the_fullest_stacks() {
    let constants = [vec![0x00], [0x41, 0x01].repeat(512), vec![0x0F, 0x0B]].concat();
    let operands = Words {
        counts: [1_025, 0, 0, 0, 512, 0],
        operands: [1, 1].repeat(512),
        ..Words::default()
    };
    held(Request::run(&V, 0, &constants, 512), Answer::Spent(512), operands);
    let nested = [vec![0x00], [0x02, 0x40].repeat(63), vec![0x0B; 64]].concat();
    let blocks = Words {
        counts: [127, 0, 0, 0, 0, 63],
        blocks: (0..63).flat_map(|depth| [1, 1 + 2 * depth, 0]).collect(),
        ..Words::default()
    };
    held(Request::run(&V, 0, &nested, 63), Answer::Spent(63), blocks);
    let locals =
        Words { counts: [4, 0, 0, 256, 0, 0], locals: [2, 0].repeat(256), ..Words::default() };
    held(Request::run(&V, 0, &[0x01, 0x80, 0x02, 0x7E, 0x0B], 0), Answer::Spent(0), locals);
}
