//! Memory handed in with a run, seen from outside: library, section, body, the answer and every buffer between guard
//! pages; lent buffers too short, of length 0, longer than asked, full of rubbish.

use chelbugan::calls::RunMemory;
use host_tests::compare::{
    ask_plain, difference, is_short, no, no_addon, no_library, Answer, Left,
};
use host_tests::guarded::{filled, read_only, Guarded, Side};
use host_tests::memory::{Lengths, Memory, BUFFERS, SIZES};
use host_tests::raw::{try_run, HandedRun, WORDS};
use host_tests::requests::Request;

/// A function type of nothing to nothing, number 0.
const V: [u8; 4] = [0x01, 0x60, 0x00, 0x00];

/// Document 01's F1; its function is type 2 and gives (ref (exact 0)).
const F1: [u8; 17] = [
    0x02, 0x4E, 0x02, 0x4D, 0x01, 0x5F, 0x00, 0x4C, 0x00, 0x5F, 0x00, 0x60, 0x00, 0x01, 0x64, 0x62,
    0x00,
];

struct Case {
    library: Vec<u8>,
    section: Vec<u8>,
    number: u64,
    body: Vec<u8>,
    budget: u64,
    answer: Answer,
}

impl Case {
    /// With the library of no types.
    fn new(section: &[u8], number: u64, body: &[u8], budget: u64, answer: Answer) -> Case {
        let (library, section, body) = (vec![0x00], section.to_vec(), body.to_vec());
        Case { library, section, number, body, budget, answer }
    }

    fn after(self, library: &[u8]) -> Case {
        Case { library: library.to_vec(), ..self }
    }

    fn request(&self) -> Request {
        Request::run(&self.section, self.number, &self.body, self.budget).after(&self.library)
    }
}

fn cases() -> Vec<Case> {
    [ended(), trapped(), at_sizes(), refused(), with_libraries()].into_iter().flatten().collect()
}

/// A struct of the library and a function of the section after it, and the other way round; refusals of each input.
fn with_libraries() -> Vec<Case> {
    let field = [0x01, 0x5F, 0x01, 0x7F, 0x00];
    let made = |number| [0x00, 0xFB, 0x01, number, 0x1A, 0x0B];
    let needs = [0x01, 0x60, 0x01, 0x64, 0x00, 0x00];
    let end = [0x00, 0x0B];
    vec![
        Case::new(&V, 1, &made(0), 2, Answer::Spent(2)).after(&field),
        Case::new(&field, 0, &made(1), 9, Answer::Done(3, 0)).after(&V),
        Case::new(&field, 0, &[0x00, 0x00, 0x0B], 9, Answer::Trap(41, 1, 1)).after(&V),
        Case::new(&V, 1, &end, 1, no_library(5, 1)).after(&[0x00, 0x00]),
        Case::new(&[0x00, 0x00], 0, &end, 1, no_addon(5, 1)).after(&V),
        Case::new(&V, 0, &end, 1, no(27, 0)).after(&field),
        Case::new(&needs, 1, &end, 1, no(29, 0)).after(&field),
        Case::new(&V, 1, &end, 1_000_001, no(4, 0)).after(&field),
    ]
}

/// Done and spent; the third is docs/LAYOUT.md's state with every buffer in use.
fn ended() -> Vec<Case> {
    let made = [0x00, 0xFB, 0x00, 0x01, 0xFB, 0x20, 0x00, 0x0B];
    let field = [0x02, 0x5F, 0x01, 0x7F, 0x00, 0x60, 0x00, 0x00];
    let used = [0x01, 0x01, 0x7F, 0x41, 0x7B, 0xFB, 0x00, 0x00, 0x02, 0x40, 0x41, 0x07, 0x1A, 0x0B];
    let used = [&used[..], &[0x1A, 0x0B]].concat();
    let looping = [0x00, 0x03, 0x40, 0x0C, 0x00, 0x0B, 0x00, 0x0B];
    vec![
        Case::new(&V, 0, &[0x00, 0x0B], 1, Answer::Done(1, 0)),
        Case::new(&F1, 2, &made, 3, Answer::Done(3, 1)),
        Case::new(&field, 1, &used, 4, Answer::Spent(4)),
        Case::new(&F1, 2, &looping, 10, Answer::Spent(10)),
        Case::new(&V, 0, &[0x00, 0x0B], 0, Answer::Spent(0)),
    ]
}

fn trapped() -> Vec<Case> {
    let f2 = [&F1[..16], &[0x01]].concat();
    let null = [0x00, 0xD0, 0x71, 0xFB, 0x22, 0x00, 0x0B];
    let descriptor = [0x00, 0xD0, 0x62, 0x01, 0xFB, 0x20, 0x00, 0x0B];
    let cast = [0x00, 0xFB, 0x00, 0x01, 0xFB, 0x16, 0x62, 0x00, 0x0B];
    vec![
        Case::new(&V, 0, &[0x00, 0x00, 0x0B], 9, Answer::Trap(41, 1, 1)),
        Case::new(&f2, 2, &null, 9, Answer::Trap(42, 3, 2)),
        Case::new(&F1, 2, &descriptor, 9, Answer::Trap(43, 4, 2)),
        Case::new(&F1, 2, &cast, 9, Answer::Trap(44, 4, 2)),
    ]
}

/// Each state buffer and the body to their last words: 1,024 objects; 4,096 cells; 512 operands; 63 blocks; 256 locals.
fn at_sizes() -> Vec<Case> {
    let making = [0x00, 0x03, 0x40, 0xFB, 0x01, 0x00, 0x1A, 0x0C, 0x00, 0x0B, 0x0B];
    let bare = [0x02, 0x5F, 0x00, 0x60, 0x00, 0x00];
    let wide = [vec![0x02, 0x5F, 64], [0x7E, 0x01].repeat(64), vec![0x60, 0x00, 0x00]].concat();
    let operands = [vec![0x00], [0x41, 0x01].repeat(512), vec![0x0F, 0x0B]].concat();
    let frames = [vec![0x00], [0x02, 0x40].repeat(63), vec![0x0B; 64]].concat();
    let locals = [0x01, 0x80, 0x02, 0x7F, 0x0B];
    let longest = [vec![0x00], vec![0x01; 32_766], vec![0x0B]].concat();
    vec![
        Case::new(&bare, 1, &making, 1_000_000, Answer::Trap(45, 3, 3_074)),
        Case::new(&wide, 1, &making, 1_000_000, Answer::Trap(45, 3, 194)),
        Case::new(&V, 0, &operands, 512, Answer::Spent(512)),
        Case::new(&V, 0, &frames, 63, Answer::Spent(63)),
        Case::new(&V, 0, &locals, 0, Answer::Spent(0)),
        Case::new(&V, 0, &longest, 1_000_000, Answer::Done(32_767, 0)),
    ]
}

/// Of the section, of the body, and the run's own two.
fn refused() -> Vec<Case> {
    let needs = [0x02, 0x5F, 0x00, 0x60, 0x01, 0x64, 0x00, 0x00];
    let too_long = [vec![0x00], vec![0x01; 32_767], vec![0x0B]].concat();
    let end = [0x00, 0x0B];
    vec![
        Case::new(&[], 0, &end, 1, no_addon(1, 0)),
        Case::new(&[0x01, 0x4C, 0x00, 0x60, 0x00, 0x00], 0, &end, 1, no(9, 0)),
        Case::new(&V, 0, &[], 1, no(1, 0)),
        Case::new(&V, 0, &too_long, 1, no(4, 0)),
        Case::new(&V, 1, &end, 1, no(27, 0)),
        Case::new(&F1, 2, &[0x00, 0xFB, 0x00, 0x00, 0x0B], 1, no(23, 1)),
        Case::new(&V, 0, &[0x00, 0x0B, 0x00], 1, no(5, 2)),
        Case::new(&V, 0, &end, 1_000_001, no(4, 0)),
        Case::new(&V, 0, &end, u64::MAX, no(4, 0)),
        Case::new(&needs, 1, &end, 1, no(29, 0)),
        Case::new(&needs, 1, &end, 1_000_001, no(4, 0)),
        Case::new(&needs, 1, &[0x00, 0x1A, 0x0B], 1_000_001, no(20, 1)),
    ]
}

/// All buffers between guard pages.
struct Lent {
    rows: Guarded<u16>,
    shared: Guarded<u16>,
    codes: Guarded<u16>,
    work: Guarded<u32>,
    ends: Guarded<u16>,
    counts: Guarded<u64>,
    objects: Guarded<u16>,
    cells: Guarded<u64>,
    locals: Guarded<u64>,
    operands: Guarded<u64>,
    blocks: Guarded<u16>,
}

impl Lent {
    fn new(side: Side, lengths: Lengths, rubbish: u64) -> Lent {
        let [rows, shared, codes, work, ends, counts, objects, cells, locals, operands, blocks] =
            lengths;
        Lent {
            rows: filled(side, rows, rubbish as u16),
            shared: filled(side, shared, rubbish as u16),
            codes: filled(side, codes, rubbish as u16),
            work: filled(side, work, rubbish as u32),
            ends: filled(side, ends, rubbish as u16),
            counts: filled(side, counts, rubbish),
            objects: filled(side, objects, rubbish as u16),
            cells: filled(side, cells, rubbish),
            locals: filled(side, locals, rubbish),
            operands: filled(side, operands, rubbish),
            blocks: filled(side, blocks, rubbish as u16),
        }
    }

    fn lent(&mut self) -> RunMemory<'_> {
        RunMemory {
            rows: self.rows.as_mut_slice(),
            shared: self.shared.as_mut_slice(),
            codes: self.codes.as_mut_slice(),
            work: self.work.as_mut_slice(),
            ends: self.ends.as_mut_slice(),
            counts: self.counts.as_mut_slice(),
            objects: self.objects.as_mut_slice(),
            cells: self.cells.as_mut_slice(),
            locals: self.locals.as_mut_slice(),
            operands: self.operands.as_mut_slice(),
            blocks: self.blocks.as_mut_slice(),
        }
    }

    fn memory(&self) -> Memory {
        Memory {
            rows: self.rows.as_slice().to_vec(),
            shared: self.shared.as_slice().to_vec(),
            codes: self.codes.as_slice().to_vec(),
            work: self.work.as_slice().to_vec(),
            ends: self.ends.as_slice().to_vec(),
            counts: self.counts.as_slice().to_vec(),
            objects: self.objects.as_slice().to_vec(),
            cells: self.cells.as_slice().to_vec(),
            locals: self.locals.as_slice().to_vec(),
            operands: self.operands.as_slice().to_vec(),
            blocks: self.blocks.as_slice().to_vec(),
        }
    }
}

/// Library, section and body cannot be written, and all that is lent holds rubbish.
fn ask_guarded(case: &Case, side: Side, lengths: Lengths, rubbish: u64) -> Left {
    let library = read_only(side, &case.library);
    let section = read_only(side, &case.section);
    let body = read_only(side, &case.body);
    let mut lent = Lent::new(side, lengths, rubbish);
    let mut words = filled(side, WORDS, rubbish);
    let (kind, answer) = try_run(&mut HandedRun {
        library: library.as_slice(),
        section: section.as_slice(),
        body: body.as_slice(),
        number: case.number,
        budget: case.budget,
        memory: lent.lent(),
        answer: words.as_mut_slice(),
    });
    let without_value = match kind {
        1 => &words.as_slice()[2..],
        0 | 2 => &words.as_slice()[3..],
        3 => &words.as_slice()[1..],
        _ => panic!("{kind} is no answer of a run"),
    };
    assert!(without_value.iter().all(|&word| word == 0), "a word without a value is 0");
    let read = [&library, &section, &body].map(|input| input.as_slice());
    assert_eq!(read, [&case.library, &case.section, &case.body].map(|input| &input[..]));
    Left { answer, memory: lent.memory() }
}

#[test]
fn the_cases_are_answered_as_worked_out_by_hand() {
    for case in cases() {
        let request = case.request();
        let plain = ask_plain(&request, SIZES).answer;
        assert_eq!(plain, case.answer, "the plain checker on {request}");
        let left = ask_guarded(&case, Side::Behind, SIZES, 0);
        assert_eq!(left.answer, case.answer, "the loader on {request}");
    }
}

/// The very sizes; longer, all and each; too short by one and of length 0, each; of length 0 and 1, all.
fn every_length() -> Vec<Lengths> {
    let all = [SIZES, SIZES.map(|size| size + 1), [0; BUFFERS], [1; BUFFERS]];
    let each = |change: fn(usize) -> usize| {
        (0..SIZES.len()).map(move |buffer| {
            let mut lengths = SIZES;
            lengths[buffer] = change(lengths[buffer]);
            lengths
        })
    };
    let longer = each(|size| size + 4_000);
    let shorter = each(|size| size - 1).chain(each(|_| 0));
    all.into_iter().chain(longer).chain(shorter).collect()
}

/// Whatever the lengths and whatever memory held: the state or zero in every word, and 14 where any buffer is short.
#[test]
fn buffers_of_every_length_between_guard_pages() {
    let mut short = 0;
    for case in cases() {
        let request = case.request();
        for lengths in every_length() {
            let is_short = is_short(&request, lengths);
            let wanted = if is_short { no(14, 0) } else { case.answer.clone() };
            let plain = ask_plain(&request, lengths);
            for (side, rubbish) in [(Side::Before, 0xA5A5_A5A5_A5A5_A5A5), (Side::Behind, u64::MAX)]
            {
                let left = ask_guarded(&case, side, lengths, rubbish);
                let asked = format!("{request}\n{lengths:?}, {side:?}");
                assert_eq!(left.answer, wanted, "{asked}");
                assert_eq!(difference(&left, &plain), None, "{asked}");
                let refused = matches!(left.answer, Answer::No(..));
                assert!(!refused || left.memory.is_zero(), "{asked}");
                short += is_short as usize;
            }
        }
    }
    // Each buffer short by one and of length 0, and all of length 0 and 1.
    assert_eq!(short, cases().len() * 2 * (2 * BUFFERS + 2));
}

#[test]
fn what_memory_held_before_changes_nothing() {
    for case in cases() {
        let clean = ask_guarded(&case, Side::Behind, SIZES, 0);
        for rubbish in [1, 0x7FFF, 0x8000_8000, 0x0001_0001_0001_0001, u64::MAX] {
            let left = ask_guarded(&case, Side::Behind, SIZES, rubbish);
            assert_eq!(difference(&left, &clean), None, "{}", case.request());
        }
    }
}

/// The state that a run left is lent to the next as it is: whatever was run before, the same answer and the same state.
#[test]
fn memory_may_be_lent_again() {
    let mut memory = Memory::filled(SIZES, 9);
    let used = &cases()[2];
    let wanted = ask_plain(&used.request(), SIZES);
    for first in cases() {
        for case in [&first, used] {
            let (_, answer) = try_run(&mut HandedRun {
                library: &case.library,
                section: &case.section,
                body: &case.body,
                number: case.number,
                budget: case.budget,
                memory: memory.lent(),
                answer: &mut [9; WORDS],
            });
            assert_eq!(answer, case.answer, "{} after {}", case.request(), first.request());
        }
        assert_eq!(memory.difference(&wanted.memory), None, "after {}", first.request());
    }
}
