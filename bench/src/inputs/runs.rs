//! Runs: loops that go on until the budget is spent, one for each kind of work; and objects until the heap is full.

use super::bodies::{chain_and, function};
use super::sections::CHAIN;
use super::{Input, Size};

pub const KINDS: [&str; 13] = [
    "br",
    "locals",
    "integers",
    "f32",
    "f64",
    "subnormal f64",
    "fields",
    "casts",
    "casts up a chain",
    "descriptors",
    "blocks",
    "br out of 62 blocks",
    "objects",
];

/// The loop's own step, three for each of 1,024 objects, and the one that traps.
const STEPS_TO_A_FULL_HEAP: usize = 1 + 3 * 1_024 + 1;

/// The greatest budget, and budgets in which the call itself shows.
pub fn steps(kind: &str) -> impl Iterator<Item = usize> {
    let steps: &[usize] = match kind {
        "objects" => &[STEPS_TO_A_FULL_HEAP],
        _ => &[1_000, 30_000, 1_000_000],
    };
    steps.iter().copied()
}

pub fn input(kind: &'static str, steps: usize) -> Input {
    let (section, function) = section(kind);
    Input {
        kind,
        size: Size::Steps(steps),
        library: None,
        section,
        body: Some((function, body(kind))),
        budget: Some(budget(kind, steps)),
        answer: Ok(steps),
        numbers: None,
    }
}

/// A run until the heap is full has steps to spare.
fn budget(kind: &str, steps: usize) -> u64 {
    match kind {
        "objects" => 1_000_000,
        _ => steps as u64,
    }
}

/// The section, and the number of the function type.
fn section(kind: &str) -> (Vec<u8>, u32) {
    match kind {
        "br" | "locals" | "blocks" | "br out of 62 blocks" => (vec![0x01, 0x60, 0x00, 0x00], 0),
        "integers" | "f32" | "f64" | "subnormal f64" => (vec![0x01, 0x60, 0x00, 0x00], 0),
        "fields" | "casts" | "objects" => (fields(), 1),
        "descriptors" => (described(), 2),
        _ => chain_and(&[function(&[], &[])]),
    }
}

/// Type 0: a struct of 4 mutable i32; type 1: the function.
fn fields() -> Vec<u8> {
    [&[0x02, 0x5F, 0x04][..], &[0x7F, 0x01].repeat(4), &[0x60, 0x00, 0x00]].concat()
}

/// Type 0 with its descriptor, type 1; type 2: the function.
fn described() -> Vec<u8> {
    vec![0x02, 0x4E, 0x02, 0x4D, 0x01, 0x5F, 0x00, 0x4C, 0x00, 0x5F, 0x00, 0x60, 0x00, 0x00]
}

fn body(kind: &str) -> Vec<u8> {
    match kind {
        "br" => looped(&[0x00], &[], &[]),
        // an i32 and an any
        "locals" => looped(
            &[0x02, 0x02, 0x7F, 0x01, 0x6E],
            &[],
            &[0x20, 0x00, 0x22, 0x01, 0x21, 0x00, 0x20, 0x02, 0x21, 0x02],
        ),
        // an i32 and an i64
        "integers" => looped(&[0x02, 0x01, 0x7F, 0x01, 0x7E], &[], &INTEGERS),
        "f32" => looped(&[0x01, 0x01, 0x7D], &[], &PRODUCT_AND_SUM),
        "f64" => looped(&[0x01, 0x01, 0x7C], &ONE, &ROOT_OF_2),
        "subnormal f64" => looped(&[0x00], &[], &SUBNORMAL),
        "fields" => looped(&local(0), &made(0), &FIELDS),
        "casts" => looped(&local(0), &made(0), &CASTS),
        "casts up a chain" => looped(&local(CHAIN as u8), &made(CHAIN as u8), &CASTS_TO_TYPE_0),
        "descriptors" => looped(&local(0), &DESCRIBED, &BY_DESCRIPTOR),
        "blocks" => looped(&[0x00], &[], &BLOCKS),
        "br out of 62 blocks" => far_out(),
        _ => looped(&[0x00], &[], &[0xFB, 0x01, 0x00, 0x1A]),
    }
}

/// Locals, what is done once, and the loop around what is done again and again.
fn looped(locals: &[u8], once: &[u8], again: &[u8]) -> Vec<u8> {
    [locals, once, &[0x03, 0x40], again, &[0x0C, 0x00, 0x0B, 0x0B]].concat()
}

/// One local, a (ref null x).
fn local(number: u8) -> Vec<u8> {
    vec![0x01, 0x01, 0x63, number]
}

/// An object of a type, into the local.
fn made(number: u8) -> [u8; 5] {
    [0xFB, 0x01, number, 0x21, 0x00]
}

/// A sum of 32 bits, a difference of 64, and an order and a truth of each.
const INTEGERS: [u8; 23] = [
    0x20, 0x00, 0x41, 0x07, 0x6A, 0x22, 0x00, 0x41, 0x05, 0x48, 0x1A, 0x20, 0x01, 0x42, 0x03, 0x7D,
    0x22, 0x01, 0x50, 0x20, 0x00, 0x46, 0x1A,
];

/// The local times 0.75, and 0.5 more; then whether it is less than 2.
const PRODUCT_AND_SUM: [u8; 23] = [
    0x20, 0x00, 0x43, 0x00, 0x00, 0x40, 0x3F, 0x94, 0x43, 0x00, 0x00, 0x00, 0x3F, 0x92, 0x22, 0x00,
    0x43, 0x00, 0x00, 0x00, 0x40, 0x5D, 0x1A,
];

/// 1 into the local.
const ONE: [u8; 11] = [0x44, 0x00, 0x00, 0x00, 0x00, 0x00, 0x00, 0xF0, 0x3F, 0x21, 0x00];

/// Half of the local and of 2 divided by it; then that less 1, turned, and whether it is greater than the local.
const ROOT_OF_2: [u8; 42] = [
    0x20, 0x00, 0x44, 0x00, 0x00, 0x00, 0x00, 0x00, 0x00, 0x00, 0x40, 0x20, 0x00, 0xA3, 0xA0, 0x44,
    0x00, 0x00, 0x00, 0x00, 0x00, 0x00, 0xE0, 0x3F, 0xA2, 0x22, 0x00, 0x44, 0x00, 0x00, 0x00, 0x00,
    0x00, 0x00, 0xF0, 0x3F, 0xA1, 0x9A, 0x20, 0x00, 0x64, 0x1A,
];

/// The greatest subnormal number times 0.75, and less the least: results that many processors take long for.
const SUBNORMAL: [u8; 30] = [
    0x44, 0xFF, 0xFF, 0xFF, 0xFF, 0xFF, 0xFF, 0x0F, 0x00, 0x44, 0x00, 0x00, 0x00, 0x00, 0x00, 0x00,
    0xE8, 0x3F, 0xA2, 0x44, 0x01, 0x00, 0x00, 0x00, 0x00, 0x00, 0x00, 0x00, 0xA1, 0x1A,
];

/// One field read, another written.
const FIELDS: [u8; 15] =
    [0x20, 0x00, 0xFB, 0x02, 0x00, 0x01, 0x1A, 0x20, 0x00, 0x41, 0x07, 0xFB, 0x05, 0x00, 0x02];

/// A test; a cast, and the same as not null.
const CASTS: [u8; 13] =
    [0x20, 0x00, 0xFB, 0x14, 0x00, 0x1A, 0x20, 0x00, 0xFB, 0x16, 0x00, 0xD4, 0x1A];

const CASTS_TO_TYPE_0: [u8; 12] =
    [0x20, 0x00, 0xFB, 0x14, 0x00, 0x1A, 0x20, 0x00, 0xFB, 0x16, 0x00, 0x1A];

/// A descriptor and an object with it, into the local.
const DESCRIBED: [u8; 8] = [0xFB, 0x01, 0x01, 0xFB, 0x20, 0x00, 0x21, 0x00];

/// The object cast by its own descriptor.
const BY_DESCRIPTOR: [u8; 11] = [0x20, 0x00, 0x20, 0x00, 0xFB, 0x22, 0x00, 0xFB, 0x23, 0x00, 0x1A];

/// Left by the `end`, by br, and by br_if out of two at once.
const BLOCKS: [u8; 18] = [
    0x02, 0x40, 0x0B, 0x02, 0x40, 0x0C, 0x00, 0x0B, 0x02, 0x40, 0x02, 0x40, 0x41, 0x01, 0x0D, 0x01,
    0x0B, 0x0B,
];

/// The loop is the 63rd label from within.
fn far_out() -> Vec<u8> {
    let mut body = vec![0x00, 0x03, 0x40];
    body.extend([0x02, 0x40].repeat(62));
    body.extend([0x0C, 62]);
    body.extend([0x0B].repeat(62));
    [body, vec![0x0B, 0x0B]].concat()
}
