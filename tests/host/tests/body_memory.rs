//! Memory handed in with a body, seen from outside: every piece between guard pages; lent buffers too short, of length 0,
//! longer than asked, full of rubbish.

use host_tests::compare::{ask_plain, difference, no, no_addon, no_library, Answer, Left};
use host_tests::expected::{CODES, ROWS, SHARED, WORK};
use host_tests::guarded::{filled, read_only, Side};
use host_tests::memory::{first, Memory, SIZES};
use host_tests::raw::{judge_body, Handed, WORDS};
use host_tests::requests::Request;

/// A function type of nothing to nothing, number 0.
const V: [u8; 4] = [0x01, 0x60, 0x00, 0x00];

/// Document 01's F1; its function is type 2 and gives (ref (exact 0)).
const F1: [u8; 17] = [
    0x02, 0x4E, 0x02, 0x4D, 0x01, 0x5F, 0x00, 0x4C, 0x00, 0x5F, 0x00, 0x60, 0x00, 0x01, 0x64, 0x62,
    0x00,
];

struct Case {
    library: Vec<u8>,
    section: Vec<u8>,
    number: u64,
    body: Vec<u8>,
    answer: Answer,
}

/// With the library of no types.
fn case(section: &[u8], number: u64, body: &[u8], answer: Answer) -> Case {
    let (library, section, body) = (vec![0x00], section.to_vec(), body.to_vec());
    Case { library, section, number, body, answer }
}

impl Case {
    fn after(self, library: &[u8]) -> Case {
        Case { library: library.to_vec(), ..self }
    }

    fn request(&self) -> Request {
        Request::body(&self.section, self.number, &self.body).after(&self.library)
    }
}

/// Accepted bodies up to each size, and a body for each refusal; most are document 01's own or the readings' of it.
fn cases() -> Vec<Case> {
    [accepted(), with_libraries(), refused_by_bytes(), refused_by_sizes(), refused_by_rules()]
        .into_iter()
        .flatten()
        .collect()
}

/// The function in the library, in the section after it, or in neither; and refusals of each of the three inputs.
fn with_libraries() -> Vec<Case> {
    let end = [0x00, 0x0B];
    let made = [0x00, 0xFB, 0x01, 0x02, 0x1A, 0x0B];
    let gives = [0x01, 0x60, 0x00, 0x01, 0x64, 0x62, 0x00];
    let without_function = [0x01, 0x4E, 0x02, 0x4D, 0x01, 0x5F, 0x00, 0x4C, 0x00, 0x5F, 0x00];
    let described = [0x00, 0xFB, 0x00, 0x01, 0xFB, 0x20, 0x00, 0x0B];
    vec![
        case(&[0x00], 0, &end, Answer::Count(1)).after(&V),
        case(&gives, 2, &described, Answer::Count(3)).after(&without_function),
        case(&[0x01, 0x5F, 0x00], 0, &made, no(6, 1)).after(&V),
        case(&[0x01, 0x5F, 0x00], 1, &end, no(27, 0)).after(&V),
        case(&V, 0, &end, no(27, 0)).after(&[0x01, 0x5F, 0x00]),
        case(&[0x01, 0x7B], 9, &[], no_library(3, 1)).after(&[0x01, 0x7B]),
        case(&[0x01, 0x7B], 9, &[], no(9, 0)).after(&[0x01, 0x4C, 0x00, 0x60, 0x00, 0x00]),
        case(&[0x01, 0x7B], 9, &[], no_addon(3, 1)).after(&V),
        case(&[0x01, 0x4C, 0x00, 0x60, 0x00, 0x00], 9, &[], no(9, 1)).after(&V),
    ]
}

fn accepted() -> Vec<Case> {
    let longest = [vec![0x00], vec![0x01; 32_766], vec![0x0B]].concat();
    let frames = [vec![0x00], [0x02, 0x40].repeat(63), vec![0x0B; 64]].concat();
    let operands = [vec![0x00], [0x41, 0x00].repeat(512), vec![0x0F, 0x0B]].concat();
    vec![
        case(&V, 0, &[0x00, 0x0B], Answer::Count(1)),
        case(&F1, 2, &[0x00, 0xFB, 0x00, 0x01, 0xFB, 0x20, 0x00, 0x0B], Answer::Count(3)),
        case(&V, 0, &longest, Answer::Count(32_767)),
        case(&V, 0, &frames, Answer::Count(63 + 64)),
        case(&V, 0, &operands, Answer::Count(514)),
        case(&V, 0, &[0x01, 0x80, 0x02, 0x7F, 0x0B], Answer::Count(1)),
    ]
}

fn refused_by_bytes() -> Vec<Case> {
    vec![
        case(&V, 0, &[], no(1, 0)),
        case(&V, 0, &[0x00, 0xD0, 0x62], no(1, 3)),
        case(&V, 0, &[0x00, 0xFB, 0x80, 0x80, 0x80, 0x80, 0x80], no(2, 2)),
        case(&V, 0, &[0x00, 0xFB, 0x06, 0x0B], no(3, 2)),
        case(&V, 0, &[0x00, 0x0B, 0x00], no(5, 2)),
    ]
}

fn refused_by_sizes() -> Vec<Case> {
    let too_long = [vec![0x00], vec![0x01; 32_767], vec![0x0B]].concat();
    let frames = [vec![0x00], [0x02, 0x40].repeat(64), vec![0x0B; 65]].concat();
    let operands = [vec![0x00], [0x41, 0x00].repeat(512), vec![0x02, 0x7F, 0x00, 0x0B, 0x0F, 0x0B]];
    vec![
        case(&V, 0, &too_long, no(4, 0)),
        case(&[0x00; 32_769], 0, &[0x00, 0x0B], no_addon(4, 0)),
        case(&V, 0, &[0x00, 0x0B], no_library(4, 0)).after(&[0x00; 32_769]),
        case(&V, 0, &frames, no(4, 127)),
        case(&V, 0, &operands.concat(), no(4, 1028)),
        case(&V, 0, &[0x01, 0x81, 0x02, 0x7F, 0x0B], no(4, 1)),
    ]
}

fn refused_by_rules() -> Vec<Case> {
    let disagree = [0x01, 0x4E, 0x03, 0x5F, 0x00, 0x4D, 0x02, 0x5F, 0x00, 0x4C, 0x00, 0x5F, 0x00];
    let loose =
        [0x01, 0x01, 0x64, 0x01, 0xFB, 0x00, 0x01, 0x21, 0x00, 0x20, 0x00, 0xFB, 0x20, 0x00, 0x0B];
    let unset = [0x01, 0x01, 0x64, 0x62, 0x00, 0x00, 0x20, 0x00, 0x0B];
    let fixed = [0x02, 0x5F, 0x01, 0x7F, 0x00, 0x60, 0x00, 0x00];
    let written = [0x00, 0xD0, 0x00, 0x41, 0x00, 0xFB, 0x05, 0x00, 0x00, 0x0B];
    let upwards = [0x00, 0xD0, 0x71, 0xFB, 0x18, 0x03, 0x00, 0x6E, 0x6D, 0x0B];
    let without_default = [0x02, 0x5F, 0x01, 0x64, 0x00, 0x00, 0x60, 0x00, 0x00];
    vec![
        case(&disagree, 0, &[0x00, 0x0B], no(11, 1)),
        case(&V, 0, &[0x01, 0x00, 0x63, 0x09, 0x0B], no(6, 1)),
        case(&F1, 2, &loose, no(20, 11)),
        case(&V, 0, &[0x00, 0x20, 0x00, 0x04], no(21, 1)),
        case(&F1, 2, &unset, no(22, 6)),
        case(&F1, 2, &[0x00, 0xFB, 0x00, 0x00, 0x0B], no(23, 1)),
        case(&fixed, 1, &written, no(24, 5)),
        case(&[0x01, 0x60, 0x00, 0x01, 0x6B], 0, &upwards, no(25, 3)),
        case(&[0x02, 0x5F, 0x00, 0x60, 0x00, 0x00], 0, &[0xFF], no(27, 0)),
        case(&V, u64::MAX, &[0x00, 0x0B], no(27, 0)),
        case(&V, 0, &[0x00, 0x00, 0x41, 0x00, 0x0B], no(28, 4)),
        case(&without_default, 1, &[0x00, 0xFB, 0x01, 0x00, 0x1A, 0x0B], no(29, 1)),
    ]
}

#[test]
fn the_cases_are_answered_as_worked_out_by_hand() {
    for case in cases() {
        let request = case.request();
        assert_eq!(
            ask_plain(&request, SIZES).answer,
            case.answer,
            "the plain checker on {request}"
        );
        let left = ask_guarded(&case, Side::Behind, OWN, 0);
        assert_eq!(left.answer, case.answer, "the loader on {request}");
    }
}

/// Elements of `rows`, `shared`, `codes` and `work`.
type Lengths = [usize; 4];

const OWN: Lengths = [ROWS, SHARED, CODES, WORK];

/// Library, section and body cannot be written, and all that is lent holds rubbish.
fn ask_guarded(case: &Case, side: Side, lengths: Lengths, rubbish: u64) -> Left {
    let library = read_only(side, &case.library);
    let section = read_only(side, &case.section);
    let body = read_only(side, &case.body);
    let [rows, shared, codes, work] = lengths;
    let mut rows = filled(side, rows, rubbish as u16);
    let mut shared = filled(side, shared, rubbish as u16);
    let mut codes = filled(side, codes, rubbish as u16);
    let mut work = filled(side, work, rubbish as u32);
    let mut words = filled(side, WORDS, rubbish);
    let (kind, answer) = judge_body(&mut Handed {
        library: library.as_slice(),
        section: section.as_slice(),
        body: body.as_slice(),
        number: case.number,
        rows: rows.as_mut_slice(),
        shared: shared.as_mut_slice(),
        codes: codes.as_mut_slice(),
        work: work.as_mut_slice(),
        answer: words.as_mut_slice(),
    });
    assert!(kind <= 1, "{kind} is neither yes nor no");
    // A word of the answer that has no value is 0.
    assert_eq!(words.as_slice()[3], 0);
    assert!(kind == 0 || words.as_slice()[1..3] == [0, 0], "a count has one value");
    let read = [&library, &section, &body].map(|input| input.as_slice());
    assert_eq!(read, [&case.library, &case.section, &case.body].map(|input| &input[..]));
    let memory = Memory {
        rows: rows.as_slice().to_vec(),
        shared: shared.as_slice().to_vec(),
        codes: codes.as_slice().to_vec(),
        work: work.as_slice().to_vec(),
        ..Memory::filled(first(&[]), 0)
    };
    Left { answer, memory }
}

/// The very sizes; longer, each and all; too short by one, each; of length 0, each and all; and two sizes mistaken for one
/// another.
fn every_length() -> Vec<Lengths> {
    let [rows, shared, codes, work] = OWN;
    let each = |change: fn(usize) -> usize| {
        (0..OWN.len()).map(move |buffer| {
            let mut lengths = OWN;
            lengths[buffer] = change(lengths[buffer]);
            lengths
        })
    };
    let all = [OWN, OWN.map(|size| size + 1), [0; 4], [1; 4]];
    let mistaken = [[codes, shared, rows, work], [work, shared, codes, rows]];
    let shorter = each(|size| size - 1).chain(each(|_| 0));
    all.into_iter().chain(mistaken).chain(each(|size| size + 4_000)).chain(shorter).collect()
}

/// Of the lengths above.
const SHORT: usize = 2 + 2 + 2 * 4;

fn is_short(lengths: Lengths) -> bool {
    lengths.iter().zip(OWN).any(|(&length, size)| length < size)
}

/// Whatever the lengths and whatever memory held: the plain checker's answer, 14 where a buffer is short, and zero in every
/// lent word.
#[test]
fn buffers_of_every_length_between_guard_pages() {
    let mut short = 0;
    for case in cases() {
        for lengths in every_length() {
            let wanted = if is_short(lengths) { no(14, 0) } else { case.answer.clone() };
            for (side, rubbish) in [(Side::Before, 0xA5A5_A5A5_A5A5_A5A5), (Side::Behind, u64::MAX)]
            {
                let left = ask_guarded(&case, side, lengths, rubbish);
                let where_ = format!("{}\n{lengths:?}, {side:?}", case.request());
                assert_eq!(left.answer, wanted, "{where_}");
                let plain = ask_plain(&case.request(), first(&lengths));
                assert_eq!(difference(&left, &plain), None, "{where_}");
                assert!(left.memory.is_zero(), "{where_}");
                short += is_short(lengths) as usize;
            }
        }
    }
    assert_eq!(short, cases().len() * 2 * SHORT);
}

#[test]
fn what_memory_held_before_changes_nothing() {
    for case in cases() {
        let clean = ask_guarded(&case, Side::Behind, OWN, 0);
        for rubbish in [1, 0x7FFF, 0x8000_8000, 0x0001_0001_0001_0001, u64::MAX] {
            let left = ask_guarded(&case, Side::Behind, OWN, rubbish);
            assert_eq!(difference(&left, &clean), None, "{}", case.request());
        }
    }
}

/// Memory that a call left is lent to the next as it is: whatever was judged before, the same answer.
#[test]
fn memory_may_be_lent_again() {
    let (mut rows, mut shared, mut codes) = (vec![9; ROWS], vec![9; SHARED], vec![9; CODES]);
    let (mut work, mut answer) = (vec![9; WORK], [9; WORDS]);
    for first in cases() {
        for case in [&first, &cases()[1]] {
            let judged = judge_body(&mut Handed {
                library: &case.library,
                section: &case.section,
                body: &case.body,
                number: case.number,
                rows: &mut rows,
                shared: &mut shared,
                codes: &mut codes,
                work: &mut work,
                answer: &mut answer,
            });
            assert_eq!(judged.1, case.answer, "{} after {}", case.request(), first.request());
        }
    }
}
