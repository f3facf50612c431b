//! The loader against the plain checker on runs: after every single step, and on every cut and flip.

use host_tests::compare::{ask_plain, no, Answer, Comparison};
use host_tests::memory::SIZES;
use host_tests::requests::Request;

const SEED: u64 = 20260103;

/// A function type of nothing to nothing, number 0.
const V: [u8; 4] = [0x01, 0x60, 0x00, 0x00];

fn agree(comparison: &mut Comparison, request: &Request) {
    if let Err(difference) = comparison.ask(request) {
        panic!("{request}\n{difference}");
    }
}

/// The state after every n steps, of a run that does every instruction but unreachable.
#[test]
fn they_agree_after_every_step() {
    let whole = Request::run(&section(), 5, &body(), 1_000_000);
    // Objects; tests and casts; branching casts, of which three skip their `end`; a loop of two turns and what follows it.
    let steps = 17 + 27 + (24 - 3) + (6 + 5 + 1) + 4;
    assert_eq!(ask_plain(&whole, SIZES).answer, Answer::Done(steps, 1));
    let mut comparison = Comparison::new(SEED);
    agree(&mut comparison, &whole);
    for budget in 0..steps {
        let request = Request::run(&section(), 5, &body(), budget);
        assert_eq!(ask_plain(&request, SIZES).answer, Answer::Spent(budget));
        agree(&mut comparison, &request);
    }
}

/// Every cut and every flip of a bit of that body, and of its section, run.
#[test]
fn they_agree_on_every_cut_and_flip() {
    let mut comparison = Comparison::new(SEED);
    for body in cuts_and_flips(&body()) {
        agree(&mut comparison, &Request::run(&section(), 5, &body, 1_000));
    }
    for section in cuts_and_flips(&section()) {
        agree(&mut comparison, &Request::run(&section, 5, &body(), 1_000));
    }
}

/// A budget plus any power of two beyond the size is refused, and so is a type's number with one added.
#[test]
fn numbers_are_taken_whole() {
    let mut comparison = Comparison::new(SEED);
    let body = [0x00, 0x0B];
    for bit in 20..64 {
        let request = Request::run(&V, 0, &body, 1 + (1 << bit));
        assert_eq!(ask_plain(&request, SIZES).answer, no(4, 0));
        agree(&mut comparison, &request);
        let request = Request::run(&V, 1 << bit, &body, 1);
        assert_eq!(ask_plain(&request, SIZES).answer, no(27, 0));
        agree(&mut comparison, &request);
    }
    for (budget, answer) in [
        (0, Answer::Spent(0)),
        (1, Answer::Done(1, 0)),
        (1_000_000, Answer::Done(1, 0)),
        (1_000_001, no(4, 0)),
        (u64::MAX, no(4, 0)),
    ] {
        let request = Request::run(&V, 0, &body, budget);
        assert_eq!(ask_plain(&request, SIZES).answer, answer);
        agree(&mut comparison, &request);
    }
}

/// The greatest budget, all of it.
#[test]
fn they_agree_on_a_million_steps() {
    let mut comparison = Comparison::new(SEED);
    let endless = Request::run(&V, 0, &[0x00, 0x03, 0x40, 0x0C, 0x00, 0x0B, 0x0B], 1_000_000);
    assert_eq!(ask_plain(&endless, SIZES).answer, Answer::Spent(1_000_000));
    agree(&mut comparison, &endless);
}

fn cuts_and_flips(whole: &[u8]) -> Vec<Vec<u8>> {
    let cuts = (0..whole.len()).map(|length| whole[..length].to_vec());
    let flips = (0..8 * whole.len()).map(|bit| {
        let mut bytes = whole.to_vec();
        bytes[bit / 8] ^= 1 << (bit % 8);
        bytes
    });
    cuts.chain(flips).collect()
}

/// The short and the long kind with their descriptors, a struct of the other kinds of value, a function that gives an i32.
fn section() -> Vec<u8> {
    let types: [&[u8]; 7] = [
        &[0x03, 0x4E, 0x04],
        &[0x50, 0x00, 0x4D, 0x01, 0x5F, 0x01, 0x7F, 0x01],
        &[0x50, 0x00, 0x4C, 0x00, 0x5F, 0x00],
        &[0x50, 0x01, 0x00, 0x4D, 0x03, 0x5F, 0x02, 0x7F, 0x01, 0x63, 0x62, 0x02, 0x01],
        &[0x4F, 0x01, 0x01, 0x4C, 0x02, 0x5F, 0x00],
        &[0x5F, 0x05, 0x7E, 0x00, 0x7D, 0x01, 0x7C, 0x00, 0x6E, 0x00, 0x6D, 0x01],
        &[0x60, 0x00, 0x01, 0x7F],
    ];
    types.concat()
}

/// A body of type 5 that comes to its end. Locals: 0 an i32, 1 a (ref null 0), 2 a (ref 1), 3 a (ref null 4).
fn body() -> Vec<u8> {
    let locals: &[u8] = &[0x04, 0x01, 0x7F, 0x01, 0x63, 0x00, 0x01, 0x64, 0x01, 0x01, 0x63, 0x04];
    [locals, &objects(), &tests_and_casts(), &branching_casts(), &blocks()].concat()
}

fn objects() -> Vec<u8> {
    let code: [&[u8]; 17] = [
        // a short route with a descriptor of its own, and another descriptor that is kept
        &[0xFB, 0x00, 0x01],
        &[0x21, 0x02],
        &[0x41, 0x7B],
        &[0x22, 0x00],
        &[0xFB, 0x01, 0x01],
        &[0xFB, 0x20, 0x00],
        &[0x21, 0x01],
        // a long one, kept as a short one; its field set and read
        &[0xFB, 0x00, 0x03],
        &[0xFB, 0x21, 0x02],
        &[0x22, 0x01],
        &[0x20, 0x00],
        &[0xFB, 0x05, 0x00, 0x00],
        &[0x20, 0x01],
        &[0xFB, 0x02, 0x00, 0x00],
        &[0x1A],
        // every other kind of value
        &[0xFB, 0x01, 0x04],
        &[0x21, 0x03],
    ];
    code.concat()
}

/// All of them pass.
fn tests_and_casts() -> Vec<u8> {
    let code: [&[u8]; 27] = [
        &[0x20, 0x01],
        &[0xFB, 0x14, 0x02],
        &[0x1A],
        &[0xD0, 0x6E],
        &[0xFB, 0x15, 0x02],
        &[0x1A],
        &[0x20, 0x01],
        &[0xFB, 0x16, 0x62, 0x02],
        &[0x1A],
        &[0xD0, 0x6E],
        &[0xFB, 0x17, 0x02],
        &[0xD1],
        &[0x1A],
        &[0x20, 0x01],
        &[0x20, 0x01],
        &[0xD3],
        &[0x1A],
        &[0x20, 0x01],
        &[0xD4],
        &[0x20, 0x01],
        &[0xFB, 0x22, 0x00],
        &[0xFB, 0x23, 0x00],
        &[0x1A],
        &[0xD0, 0x6E],
        &[0x20, 0x02],
        &[0xFB, 0x24, 0x00],
        &[0x1A],
    ];
    code.concat()
}

/// Left by the branch, by the `end`, by the branch, by the branch of a cast that fails; all with an operand below, which
/// stays there until the return.
fn branching_casts() -> Vec<u8> {
    let code: [&[u8]; 24] = [
        &[0x41, 0x09],
        &[0x02, 0x63, 0x00],
        &[0x20, 0x01],
        &[0xFB, 0x18, 0x01, 0x00, 0x00, 0x02],
        &[0x0B],
        &[0x1A],
        &[0x02, 0x63, 0x00],
        &[0x20, 0x01],
        &[0xFB, 0x19, 0x01, 0x00, 0x00, 0x02],
        &[0x0B],
        &[0x1A],
        &[0x02, 0x6E],
        &[0x20, 0x01],
        &[0x20, 0x01],
        &[0xFB, 0x22, 0x00],
        &[0xFB, 0x25, 0x01, 0x00, 0x00, 0x00],
        &[0x0B],
        &[0x1A],
        &[0x02, 0x6E],
        &[0x20, 0x01],
        &[0x20, 0x02],
        &[0xFB, 0x26, 0x01, 0x00, 0x00, 0x00],
        &[0x0B],
        &[0x1A],
    ];
    code.concat()
}

/// A loop of two turns, a block left by br, and the function left by return.
fn blocks() -> Vec<u8> {
    let code: [&[u8]; 13] = [
        &[0x03, 0x40],
        &[0x01],
        &[0x20, 0x00],
        &[0x41, 0x00],
        &[0x21, 0x00],
        &[0x0D, 0x00],
        &[0x0B],
        &[0x02, 0x40],
        &[0x0C, 0x00],
        &[0x0B],
        &[0x41, 0x07],
        &[0x0F],
        &[0x0B],
    ];
    code.concat()
}
