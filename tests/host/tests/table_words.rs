//! Tables of a library and a section after it, worked out by hand word by word; and every lent word after each other call
//! that is handed the two.

use chelbugan::Input;
use host_tests::compare::{ask_loader, ask_plain, difference, lent_to, no, Answer, Left};
use host_tests::memory::{Memory, SIZES};
use host_tests::requests::Request;

/// Type 0, open, 1..7: a struct with a mutable i32. Type 1, 7..13: a function of a (ref null 0) that gives an i64.
const LIBRARY: [u8; 13] =
    [0x02, 0x50, 0x00, 0x5F, 0x01, 0x7F, 0x01, 0x60, 0x01, 0x63, 0x00, 0x01, 0x7E];

/// Type 2, below 0, 1..12: with a fixed (ref (exact 2)) more. Type 3, 12..17: a function that gives a (ref null 3).
const SECTION: [u8; 17] = [
    0x02, 0x4F, 0x01, 0x00, 0x5F, 0x02, 0x7F, 0x01, 0x64, 0x62, 0x02, 0x00, 0x60, 0x00, 0x01, 0x63,
    0x03,
];

/// form, fields, results, open; supertype, describes, descriptor; from, to, reach; first code; 0; start and end of the range; two words that are 0
type Row = [u16; 16];

/// The words of a table by hand, zero beyond.
struct Words {
    rows: Vec<Row>,
    shared: Vec<u16>,
    codes: Vec<u16>,
}

impl Words {
    fn memory(&self, mut memory: Memory) -> Memory {
        let rows = self.rows.concat();
        memory.rows[..rows.len()].copy_from_slice(&rows);
        memory.shared[..self.shared.len()].copy_from_slice(&self.shared);
        memory.codes[..self.codes.len()].copy_from_slice(&self.codes);
        memory
    }
}

fn of_the_pair() -> Words {
    Words {
        rows: vec![
            [1, 1, 0, 1, 0, 0, 0, 1, 7, 1, 32_768, 0, 1, 3, 0, 0],
            [2, 1, 1, 0, 0, 0, 0, 7, 13, 2, 32_769, 0, 3, 4, 0, 0],
            [1, 2, 0, 0, 1, 0, 0, 1, 12, 3, 0, 0, 2, 3, 0, 0],
            [2, 0, 1, 0, 0, 0, 0, 12, 17, 4, 2, 0, 4, 5, 0, 0],
        ],
        // mutable i32: 2 * 0 + 1; (ref null 0): 5 + 2 * 10; i64: 1
        shared: vec![1, 25, 1],
        // mutable i32; fixed (ref (exact 2)): 2 * (4 + 2 * 15); (ref null 3): 5 + 2 * 16
        codes: vec![1, 68, 37],
    }
}

/// The loader and the plain checker leave exactly this table or, with none, zero: at the very sizes and at longer ones,
/// whatever was there before.
fn held(request: &Request, answer: &Answer, words: Option<&Words>) {
    for more in [0, 1, 4_000] {
        let lengths = lent_to(request, SIZES.map(|size| size + more));
        let zero = Memory::filled(lengths, 0);
        let memory = words.map_or(zero.clone(), |words| words.memory(zero));
        let wanted = Left { answer: answer.clone(), memory };
        let plain = ask_plain(request, lengths);
        assert_eq!(difference(&plain, &wanted), None, "the plain checker on {request}");
        let mut memory = Memory::filled(lengths, 0xA5A5_A5A5_A5A5_A5A5);
        let answer = ask_loader(request, &mut memory.lent());
        assert_eq!(difference(&Left { answer, memory }, &wanted), None, "the loader on {request}");
    }
}

#[test]
fn a_pair_with_codes_in_both() {
    let request = Request::section(&SECTION).after(&LIBRARY);
    held(&request, &Answer::Count(4), Some(&of_the_pair()));
}

/// Without codes too the first code says which section holds a type; and a subtype's numbers are those of the joined list.
#[test]
fn pairs_without_codes() {
    let bare = Words {
        rows: vec![
            [1, 0, 0, 0, 0, 0, 0, 1, 3, 1, 32_768, 0, 1, 2, 0, 0],
            [1, 0, 0, 0, 0, 0, 0, 1, 3, 2, 0, 0, 2, 3, 0, 0],
        ],
        shared: vec![],
        codes: vec![],
    };
    let alone = [0x01, 0x5F, 0x00];
    held(&Request::section(&alone).after(&alone), &Answer::Count(2), Some(&bare));
    let library =
        [0x01, 0x4E, 0x02, 0x50, 0x00, 0x4D, 0x01, 0x5F, 0x00, 0x50, 0x00, 0x4C, 0x00, 0x5F, 0x00];
    let section = [
        0x01, 0x4E, 0x02, 0x4F, 0x01, 0x00, 0x4D, 0x03, 0x5F, 0x00, 0x4F, 0x01, 0x01, 0x4C, 0x02,
        0x5F, 0x00,
    ];
    let described = Words {
        rows: vec![
            [1, 0, 0, 1, 0, 0, 2, 3, 9, 2, 32_768, 0, 1, 3, 0, 0],
            [1, 0, 0, 1, 0, 1, 0, 9, 15, 2, 32_768, 0, 3, 5, 0, 0],
            [1, 0, 0, 0, 1, 0, 4, 3, 10, 4, 0, 0, 2, 3, 0, 0],
            [1, 0, 0, 0, 2, 3, 0, 10, 17, 4, 0, 0, 4, 5, 0, 0],
        ],
        shared: vec![],
        codes: vec![],
    };
    held(&Request::section(&section).after(&library), &Answer::Count(4), Some(&described));
}

/// The same section as a library and with the library of no types: only the first codes and where the codes lie differ.
#[test]
fn a_section_that_becomes_the_library() {
    let mut alone = of_the_pair();
    alone.rows.truncate(2);
    // nothing is below type 0 now
    alone.rows[0][12..14].copy_from_slice(&[1, 2]);
    alone.rows[1][12..14].copy_from_slice(&[2, 3]);
    let as_library = Words { codes: vec![], ..alone };
    held(&Request::section(&[0x00]).after(&LIBRARY), &Answer::Count(2), Some(&as_library));
    let mut rows = as_library.rows;
    rows.iter_mut().for_each(|row| row[10] -= 32_768);
    let as_section = Words { rows, shared: vec![], codes: as_library.shared };
    for request in [Request::section(&LIBRARY), Request::section(&LIBRARY).after(&[0x00])] {
        held(&request, &Answer::Count(2), Some(&as_section));
    }
}

/// A type that is handed back leaves the table; one that is absent leaves zero.
#[test]
fn types_of_the_pair() {
    let asked = |number| Request::type_of(&SECTION, number).after(&LIBRARY);
    let lie = [
        (1, 7, Input::Library),
        (7, 13, Input::Library),
        (1, 12, Input::Addon),
        (12, 17, Input::Addon),
    ];
    for (number, (from, to, input)) in (0..).zip(lie) {
        held(&asked(number), &Answer::Bytes(from, to, input), Some(&of_the_pair()));
    }
    for absent in [4, 1_024, 1 << 32, u64::MAX] {
        held(&asked(absent), &no(6, absent), None);
    }
}

/// A body of the library's function makes an object of the library's struct: the tables are scratch.
#[test]
fn bodies_of_the_pair() {
    // struct.new_default 0; drop; i64.const 5; end
    let body = [0x00, 0xFB, 0x01, 0x00, 0x1A, 0x42, 0x05, 0x0B];
    let judged = |number| Request::body(&SECTION, number, &body).after(&LIBRARY);
    held(&judged(1), &Answer::Count(4), None);
    held(&judged(2), &no(27, 0), None);
    // type 3 gives a (ref null 3), and an i64 is there
    held(&judged(3), &no(20, 7), None);
}

/// The state after two of its four steps, word by word, and zero in all scratch.
#[test]
fn a_run_of_the_pair() {
    let body = [0x00, 0xFB, 0x01, 0x00, 0x1A, 0x42, 0x05, 0x0B];
    let request = Request::run(&SECTION, 1, &body, 2).after(&LIBRARY);
    let mut wanted = Memory::filled(SIZES, 0);
    // at the i64.const: one object of type 0 with one cell, an i32 0; one local, null
    wanted.counts.copy_from_slice(&[5, 1, 1, 1, 0, 0]);
    wanted.objects[..4].copy_from_slice(&[0, 0, 0, 1]);
    wanted.cells[..2].copy_from_slice(&[1, 0]);
    wanted.locals[..2].copy_from_slice(&[5, 0]);
    let wanted = Left { answer: Answer::Spent(2), memory: wanted };
    assert_eq!(difference(&ask_plain(&request, SIZES), &wanted), None, "the plain checker");
    let mut memory = Memory::filled(SIZES, u64::MAX);
    let answer = ask_loader(&request, &mut memory.lent());
    assert_eq!(difference(&Left { answer, memory }, &wanted), None, "the loader");
}
