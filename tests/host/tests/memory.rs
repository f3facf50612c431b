//! Memory handed in with sections, seen from outside: library, section and all that is lent between guard pages; lent buffers
//! too short, of length 0, longer than asked, full of rubbish.

use chelbugan::calls::RunMemory;
use host_tests::compare::{
    ask_loader, ask_plain, ask_with, difference, lent_to, no, no_addon, no_library, Answer, Left,
};
use host_tests::expected::{CODES, ROWS, SHARED};
use host_tests::guarded::{filled, read_only, Side};
use host_tests::memory::{first, Memory, SIZES};
use host_tests::requests::Request;
use std::os::unix::process::ExitStatusExt;
use std::process::Command;

/// Structs one below the other, up to 128: the first below a type that is there already, or below none.
fn chain(numbers: std::ops::Range<u8>) -> Vec<u8> {
    let mut section = vec![numbers.len() as u8];
    for number in numbers {
        match number.checked_sub(1) {
            None => section.extend([0x50, 0x00, 0x5F, 0x00]),
            Some(supertype) => section.extend([0x50, 0x01, supertype, 0x5F, 0x00]),
        }
    }
    section
}

/// Document 01's example of rule 4: the supertype has a descriptor, the subtype none.
const RULE_4: [u8; 20] = [
    0x02, 0x4E, 0x02, 0x50, 0x00, 0x4D, 0x01, 0x5F, 0x00, 0x50, 0x00, 0x4C, 0x00, 0x5F, 0x00, 0x4F,
    0x01, 0x00, 0x5F, 0x00,
];

/// Rule 5: type 2 describes, its supertype 0 does not.
const RULE_5: [u8; 18] = [
    0x01, 0x4E, 0x03, 0x50, 0x00, 0x5F, 0x00, 0x4D, 0x02, 0x5F, 0x00, 0x4F, 0x01, 0x00, 0x4C, 0x01,
    0x5F, 0x00,
];

/// A library, a section after it, and their answer.
struct Case {
    library: Vec<u8>,
    section: Vec<u8>,
    answer: Answer,
}

impl Case {
    /// Judged; and asked for a type that is there or not.
    fn requests(&self) -> [Request; REQUESTS] {
        let section = &self.section;
        let asked = [0, 1_023, u64::MAX].map(|number| Request::type_of(section, number));
        let [first, last, absent] = asked;
        [Request::section(section), first, last, absent].map(|asked| asked.after(&self.library))
    }
}

const REQUESTS: usize = 4;

fn cases() -> Vec<Case> {
    let alone = sections().into_iter().map(|(section, answer)| (vec![0x00], section, answer));
    let cases = alone.chain(with_libraries());
    cases.map(|(library, section, answer)| Case { library, section, answer }).collect()
}

/// 16,383 empty groups: a count of two bytes, as it needs them.
fn longest() -> Vec<u8> {
    let longest = [vec![0xFF, 0x7F], [0x4E, 0x00].repeat(16_383)].concat();
    assert_eq!(longest.len(), 32_768);
    longest
}

fn fields(count: usize) -> Vec<u8> {
    [vec![0x01, 0x5F, count as u8], [0x7F, 0x01].repeat(count)].concat()
}

/// Structs without fields, as many as the low seven bits and the high ones say.
fn structs(low: u8, high: u8) -> Vec<u8> {
    let count = usize::from(low) + 128 * usize::from(high);
    [vec![low | 0x80, high], [0x5F, 0x00].repeat(count)].concat()
}

/// A section for each refusal that a section can have, and accepted ones from the shortest to the longest.
fn sections() -> Vec<(Vec<u8>, Answer)> {
    vec![
        (vec![0x00], Answer::Count(0)),
        (vec![0x01, 0x5F, 0x00], Answer::Count(1)),
        (fields(64), Answer::Count(1)),
        (structs(0, 8), Answer::Count(1_024)),
        (structs(1, 8), no_addon(4, 2 + 2 * 1_024)),
        (longest(), Answer::Count(0)),
        (vec![], no_addon(1, 0)),
        (vec![0x80, 0x80, 0x80, 0x80, 0x80], no_addon(2, 0)),
        (vec![0x80, 0x00], no_addon(32, 0)),
        (vec![0x01, 0x65], no_addon(3, 1)),
        (fields(65), no_addon(4, 131)),
        ([longest(), vec![0x00]].concat(), no_addon(4, 0)),
        (vec![0x00, 0x00], no_addon(5, 1)),
        (vec![0x01, 0x5F, 0x01, 0x63, 0x09, 0x00], no(6, 0)),
        (vec![0x02, 0x5F, 0x00, 0x4F, 0x01, 0x00, 0x5F, 0x00], no(7, 1)),
        (vec![0x02, 0x50, 0x00, 0x5F, 0x01, 0x7F, 0x00, 0x4F, 0x01, 0x00, 0x5F, 0x00], no(8, 1)),
        (vec![0x01, 0x4C, 0x00, 0x60, 0x00, 0x00], no(9, 0)),
        (vec![0x01, 0x4E, 0x02, 0x4C, 0x01, 0x5F, 0x00, 0x4D, 0x00, 0x5F, 0x00], no(10, 0)),
        (vec![0x01, 0x4E, 0x02, 0x5F, 0x00, 0x4D, 0x00, 0x5F, 0x00], no(11, 1)),
        (chain(0..64), Answer::Count(64)),
        (chain(0..65), no(4, 64)),
        (RULE_4.to_vec(), no(12, 2)),
        (RULE_5.to_vec(), no(13, 2)),
    ]
}

/// Both sections with types, each at its sizes and both at theirs, and refusals of either.
fn with_libraries() -> Vec<(Vec<u8>, Vec<u8>, Answer)> {
    let open = vec![0x01, 0x50, 0x00, 0x5F, 0x00];
    let below = vec![0x01, 0x4F, 0x01, 0x00, 0x5F, 0x00];
    let bad = vec![0x01, 0x7B];
    vec![
        (open.clone(), below.clone(), Answer::Count(2)),
        (open.clone(), vec![0x00], Answer::Count(1)),
        (fields(64), fields(64), Answer::Count(2)),
        (longest(), longest(), Answer::Count(0)),
        // 1,000 and 24 types, and one more
        (structs(104, 7), [vec![24], [0x5F, 0x00].repeat(24)].concat(), Answer::Count(1_024)),
        (structs(104, 7), [vec![25], [0x5F, 0x00].repeat(25)].concat(), no_addon(4, 49)),
        // after 1,024 types: no byte, a byte that is no empty group's, an empty group, one that is not empty
        (structs(0, 8), vec![0x01], no_addon(1, 1)),
        (structs(0, 8), vec![0x01, 0x00], no_addon(4, 1)),
        (structs(0, 8), vec![0x01, 0x4E, 0x00], Answer::Count(1_024)),
        (structs(0, 8), vec![0x01, 0x4E, 0x01], no_addon(4, 3)),
        // a chain of supertypes through both
        (chain(0..32), chain(32..64), Answer::Count(64)),
        (chain(0..32), chain(32..65), no(4, 64)),
        // the library first, all of it
        (vec![], bad.clone(), no_library(1, 0)),
        ([longest(), vec![0x00]].concat(), bad.clone(), no_library(4, 0)),
        (bad.clone(), [longest(), vec![0x00]].concat(), no_library(3, 1)),
        (vec![0x01, 0x4C, 0x00, 0x60, 0x00, 0x00], bad.clone(), no(9, 0)),
        (chain(0..65), bad.clone(), no(4, 64)),
        // it cannot name a type of the add-on, as a field or as a supertype
        (vec![0x01, 0x5F, 0x01, 0x63, 0x01, 0x00], open.clone(), no(6, 0)),
        (vec![0x01, 0x4F, 0x01, 0x01, 0x5F, 0x00], open.clone(), no(6, 0)),
        // then the add-on
        (open.clone(), bad, no_addon(3, 1)),
        (open.clone(), [longest(), vec![0x00]].concat(), no_addon(4, 0)),
        (open.clone(), vec![0x01, 0x4C, 0x00, 0x60, 0x00, 0x00], no(9, 1)),
        (vec![0x01, 0x5F, 0x00], below, no(7, 1)),
        (open, vec![0x01, 0x5F, 0x01, 0x63, 0x02, 0x00], no(6, 1)),
    ]
}

#[test]
fn the_sections_of_these_tests_are_answered_as_worked_out_by_hand() {
    for case in cases() {
        let request = Request::section(&case.section).after(&case.library);
        let plain = ask_plain(&request, SIZES);
        assert_eq!(plain.answer, case.answer, "the plain checker on {request}");
        let mut memory = Memory::filled(lent_to(&request, SIZES), 1);
        let loader = ask_loader(&request, &mut memory.lent());
        assert_eq!(loader, case.answer, "the loader on {request}");
    }
}

/// Elements of `rows`, `shared` and `codes`.
type Lengths = [usize; 3];

const OWN: Lengths = [ROWS, SHARED, CODES];

/// Library and section cannot be written, and all that is lent holds rubbish.
fn ask_guarded(request: &Request, side: Side, lengths: Lengths, rubbish: u16) -> Left {
    let library = read_only(side, request.library());
    let section = read_only(side, &request.section);
    let [mut rows, mut shared, mut codes] = lengths.map(|length| filled(side, length, rubbish));
    let mut none = Memory::filled(first(&[]), 0);
    let mut lent = RunMemory {
        rows: rows.as_mut_slice(),
        shared: shared.as_mut_slice(),
        codes: codes.as_mut_slice(),
        ..none.lent()
    };
    let answer = ask_with(library.as_slice(), section.as_slice(), &request.asked, &mut lent);
    assert_eq!(library.as_slice(), request.library());
    assert_eq!(section.as_slice(), request.section);
    let [rows, shared, codes] = [rows, shared, codes].map(|buffer| buffer.as_slice().to_vec());
    Left { answer, memory: Memory { rows, shared, codes, ..none } }
}

/// The very sizes; longer, all and each; too short by one and of length 0, each; of length 0 and 1, all; and the rows' size
/// taken for the codes'.
fn every_length() -> Vec<Lengths> {
    let each = |change: fn(usize) -> usize| {
        (0..OWN.len()).map(move |buffer| {
            let mut lengths = OWN;
            lengths[buffer] = change(lengths[buffer]);
            lengths
        })
    };
    let all = [OWN, OWN.map(|size| size + 1), [0; 3], [1; 3], [CODES, SHARED, ROWS]];
    let shorter = each(|size| size - 1).chain(each(|_| 0));
    all.into_iter().chain(each(|size| size + 4_000)).chain(shorter).collect()
}

/// Of the lengths above.
const SHORT: usize = 3 + 2 * 3;

/// Every word as wanted, 14 where a buffer is short, and zero after every refusal.
#[test]
fn buffers_of_every_length_between_guard_pages() {
    let (mut short, mut sides) = (0, 0);
    for case in cases() {
        for request in case.requests() {
            for lengths in every_length() {
                let plain = ask_plain(&request, first(&lengths));
                for (side, rubbish) in [(Side::Before, 0xA5A5), (Side::Behind, 0xFFFF)] {
                    let left = ask_guarded(&request, side, lengths, rubbish);
                    let asked = format!("{request}\n{lengths:?}, {side:?}");
                    assert_eq!(difference(&left, &plain), None, "{asked}");
                    let refused = matches!(left.answer, Answer::No(..));
                    assert!(!refused || left.memory.is_zero(), "{asked}");
                    short += (left.answer == no(14, 0)) as usize;
                    sides += 1;
                }
            }
        }
    }
    assert_eq!(sides, cases().len() * REQUESTS * every_length().len() * 2);
    assert_eq!(short, cases().len() * REQUESTS * SHORT * 2);
}

#[test]
fn what_memory_held_before_changes_nothing() {
    for request in cases().iter().flat_map(Case::requests) {
        let clean = ask_guarded(&request, Side::Behind, OWN, 0);
        for rubbish in [1, 0x7FFF, 0x8000, 0xFFFF] {
            let left = ask_guarded(&request, Side::Behind, OWN, rubbish);
            assert_eq!(difference(&left, &clean), None, "{request}");
        }
    }
}

/// The guard pages of these tests do stop a read.
#[test]
fn a_touched_guard_page_ends_the_program() {
    for side in ["before", "behind"] {
        let mut program = Command::new(env!("CARGO_BIN_EXE_host_tests"));
        let ended = program.args(["touch", side]).output().expect("the program starts");
        let signal = ended.status.signal();
        assert!(matches!(signal, Some(7 | 11)), "{side}: {:?}", ended.status);
    }
}
