//! Some thousands of comparisons; `host_tests compare SEED COUNT` makes as many as asked for.

use host_tests::compare::{ask_plain, difference, no, Answer, Comparison, Left};
use host_tests::expected;
use host_tests::memory::SIZES;
use host_tests::requests::{self, Request};
use host_tests::tally::Kind;

const SEED: u64 = 20260101;
const COUNT: usize = 40_000;

/// What a section is refused by, at a byte too, and what a body is refused by besides; 14 is for tests/memory.rs.
const OF_SECTIONS: [u64; 14] = [1, 2, 3, 4, 5, 6, 7, 8, 9, 10, 11, 12, 13, 32];
const OF_BYTES: [u64; 6] = [1, 2, 3, 4, 5, 32];
const OF_BODIES: [u64; 10] = [20, 21, 22, 23, 24, 25, 27, 28, 29, 31];
const TRAPS: [u64; 6] = [41, 42, 43, 44, 45, 46];

#[test]
fn the_loader_and_the_plain_checker_agree() {
    let mut comparison = Comparison::new(SEED);
    for request in requests::generated(SEED).take(COUNT) {
        agree(&mut comparison, &request);
    }
    let tally = comparison.tally();
    for asked in ["sections", "types", "bodies"] {
        assert!(tally.of(asked, Kind::Yes) > 0, "no request about {asked} was accepted:\n{tally}");
    }
    for number in OF_SECTIONS {
        let refused = tally.of("sections", Kind::No(number));
        assert!(refused > 0, "no section is refused by {number}:\n{tally}");
    }
    for number in OF_SECTIONS.into_iter().chain(OF_BODIES) {
        let refused = |asked| tally.of(asked, Kind::No(number)) > 0;
        assert!(refused("bodies"), "no body is refused by {number}:\n{tally}");
        assert!(refused("runs"), "no run is refused by {number}:\n{tally}");
    }
    for ending in [Kind::Done, Kind::Spent].into_iter().chain(TRAPS.map(Kind::Trap)) {
        assert!(tally.of("runs", ending) > 20, "few runs end with {ending}:\n{tally}");
    }
}

/// The same of requests that have a library; and of its bytes, all that a section's bytes can be refused by.
#[test]
fn they_agree_with_libraries() {
    let mut comparison = Comparison::new(SEED);
    let with_library = |request: &Request| request.library.is_some();
    for request in requests::generated(SEED + 2).filter(with_library).take(COUNT / 4) {
        agree(&mut comparison, &request);
    }
    let tally = comparison.tally();
    for asked in ["sections", "types", "bodies"] {
        assert!(tally.with_library(asked, Kind::Yes) > 20, "few {asked} are accepted:\n{tally}");
    }
    assert!(tally.with_library("runs", Kind::Done) > 20, "few runs are done:\n{tally}");
    for number in OF_SECTIONS {
        let refused = tally.with_library("sections", Kind::No(number));
        assert!(refused > 0, "no section with a library is refused by {number}:\n{tally}");
    }
    for number in OF_BYTES {
        assert!(tally.in_library(number) > 0, "no library is refused by {number}:\n{tally}");
    }
}

/// The library of no types changes nothing: requests of a time without libraries, answered with it.
#[test]
fn they_agree_without_libraries() {
    let mut comparison = Comparison::new(SEED);
    for request in requests::without_libraries(SEED + 1).take(COUNT / 4) {
        assert_eq!(request.library(), [0x00]);
        agree(&mut comparison, &request);
    }
    let tally = comparison.tally();
    for asked in ["sections", "types", "bodies"] {
        assert!(tally.of(asked, Kind::Yes) > 100, "few of {asked} are accepted:\n{tally}");
    }
    assert!(tally.of("runs", Kind::Done) > 100, "few runs are done:\n{tally}");
}

fn agree(comparison: &mut Comparison, request: &Request) {
    if let Err(difference) = comparison.ask(request) {
        panic!("{request}\n{difference}");
    }
}

/// Every cut and every flip of a bit of a section with all that a section can say.
#[test]
fn they_agree_on_every_cut_and_flip_of_a_section() {
    let whole = section();
    let answer = ask_plain(&Request::section(&whole), SIZES).answer;
    assert_eq!(answer, Answer::Count(6), "the section to spoil is itself accepted");
    let mut comparison = Comparison::new(SEED);
    for section in cuts_and_flips(&whole) {
        agree(&mut comparison, &Request::section(&section));
    }
}

/// The same of a library, before a section that names its types; and of that section.
#[test]
fn they_agree_on_every_cut_and_flip_of_a_library() {
    let (library, add_on) = (section(), after_section());
    let whole = Request::section(&add_on).after(&library);
    let answer = ask_plain(&whole, SIZES).answer;
    assert_eq!(answer, Answer::Count(6 + 4), "the sections to spoil are themselves accepted");
    let mut comparison = Comparison::new(SEED);
    for library in cuts_and_flips(&library) {
        agree(&mut comparison, &Request::section(&add_on).after(&library));
    }
    for add_on in cuts_and_flips(&add_on) {
        agree(&mut comparison, &Request::section(&add_on).after(&library));
    }
}

/// The same of a body in which every instruction stands.
#[test]
fn they_agree_on_every_cut_and_flip_of_a_body() {
    let (whole, instructions) = body();
    let answer = ask_plain(&Request::body(&section(), 5, &whole), SIZES).answer;
    assert_eq!(answer, Answer::Count(instructions), "the body to spoil is itself accepted");
    let mut comparison = Comparison::new(SEED);
    for body in cuts_and_flips(&whole) {
        agree(&mut comparison, &Request::body(&section(), 5, &body));
    }
    for section in cuts_and_flips(&section()) {
        agree(&mut comparison, &Request::body(&section, 5, &whole));
    }
}

/// A function type's number plus any power of two is another number.
#[test]
fn a_type_number_is_taken_whole() {
    let (body, instructions) = body();
    let mut comparison = Comparison::new(SEED);
    for number in (3..64).map(|bit| 5 + (1 << bit)).chain([0, 4, 6, 1_023, 1_024, u64::MAX]) {
        let request = Request::body(&section(), number, &body);
        assert_eq!(ask_plain(&request, SIZES).answer, no(27, 0), "{request}");
        agree(&mut comparison, &request);
    }
    let request = Request::body(&section(), 5, &body);
    assert_eq!(ask_plain(&request, SIZES).answer, Answer::Count(instructions));
    agree(&mut comparison, &request);
}

/// The comparison itself: one word or one place that is off is a difference.
#[test]
fn a_word_that_is_off_is_found() {
    let sections = Request::section(&after_section()).after(&section());
    let requests = [sections, Request::body(&section(), 5, &body().0)];
    let spoilt: [fn(&mut Left); 6] = [
        |left| left.memory.shared[0] ^= 1,
        |left| left.memory.rows[expected::ROWS - 1] = 1,
        |left| left.memory.rows[9] += 1,
        |left| left.memory.codes[0] ^= 1,
        |left| left.memory.work.push(0),
        |left| left.answer = Answer::Count(5),
    ];
    for request in requests {
        found(&request, &spoilt);
    }
    found(
        &Request::body(&section(), 5, &body().0),
        &[|left| left.memory.work[expected::WORK - 1] = 1],
    );
    let run: [fn(&mut Left); 9] = [
        |left| left.memory.ends[expected::ENDS - 1] = 1,
        |left| left.memory.counts[0] += 1,
        |left| left.memory.objects[expected::OBJECTS - 1] = 1,
        |left| left.memory.cells[1] ^= 1,
        |left| left.memory.locals[0] = 0,
        |left| left.memory.operands[3] += 1,
        |left| left.memory.blocks[expected::BLOCKS - 1] = 1,
        |left| left.memory.blocks.push(0),
        |left| left.answer = Answer::Spent(5),
    ];
    // docs/LAYOUT.md's state with every buffer in use.
    let section = vec![0x02, 0x5F, 0x01, 0x7F, 0x00, 0x60, 0x00, 0x00];
    let body = [0x01, 0x01, 0x7F, 0x41, 0x7B, 0xFB, 0x00, 0x00, 0x02, 0x40, 0x41, 0x07, 0x1A];
    let body = [&body[..], &[0x0B, 0x1A, 0x0B]].concat();
    found(&Request::run(&section, 1, &body, 4), &run);
}

/// Each way to spoil what the plain checker says is a difference.
fn found(request: &Request, spoilt: &[fn(&mut Left)]) {
    let plain = || ask_plain(request, SIZES);
    assert_eq!(difference(&plain(), &plain()), None);
    for spoil in spoilt {
        let mut left = plain();
        spoil(&mut left);
        assert!(difference(&left, &plain()).is_some(), "{request}");
    }
}

fn cuts_and_flips(whole: &[u8]) -> Vec<Vec<u8>> {
    let cuts = (0..whole.len()).map(|length| whole[..length].to_vec());
    let flips = (0..8 * whole.len()).map(|bit| flipped(whole, bit));
    cuts.chain(flips).collect()
}

fn flipped(bytes: &[u8], bit: usize) -> Vec<u8> {
    let mut bytes = bytes.to_vec();
    bytes[bit / 8] ^= 1 << (bit % 8);
    bytes
}

/// An open struct with its descriptor, a subtype of each, a struct of every kind of field, a function.
fn section() -> Vec<u8> {
    let mut section = vec![0x03, 0x4E, 0x04];
    section.extend([0x50, 0x00, 0x4D, 0x01, 0x5F, 0x01, 0x7F, 0x01]);
    section.extend([0x50, 0x00, 0x4C, 0x00, 0x5F, 0x00]);
    section.extend([0x50, 0x01, 0x00, 0x4D, 0x03, 0x5F, 0x02, 0x7F, 0x01, 0x64, 0x62, 0x02, 0x00]);
    section.extend([0x4F, 0x01, 0x01, 0x4C, 0x02, 0x5F, 0x00]);
    section.extend([0x5F, 0x05, 0x7E, 0x00, 0x7D, 0x01, 0x7C, 0x00, 0x63, 0x02, 0x00, 0x6D, 0x01]);
    section.extend([0x60, 0x02, 0x70, 0x64, 0x00, 0x01, 0x63, 0x62, 0x01]);
    section
}

/// After the section above as a library: a pair below types 0 and 1 of it, a function over both sections' types, a struct.
fn after_section() -> Vec<u8> {
    let mut section = vec![0x03, 0x4E, 0x02];
    section.extend([0x50, 0x01, 0x00, 0x4D, 0x07, 0x5F, 0x02, 0x7F, 0x01, 0x64, 0x62, 0x02, 0x00]);
    section.extend([0x50, 0x01, 0x01, 0x4C, 0x06, 0x5F, 0x00]);
    section.extend([0x60, 0x02, 0x63, 0x00, 0x64, 0x06, 0x01, 0x63, 0x62, 0x05]);
    section.extend([0x5F, 0x01, 0x63, 0x08, 0x01]);
    section
}

/// A body of type 5 with every instruction, of the numeric codes some, and how many it has.
fn body() -> (Vec<u8>, u64) {
    // Locals: 0 (ref null func) and 1 (ref 0) are parameters, 2 an i32, 3 a (ref 1) that has no default.
    let locals: &[u8] = &[0x02, 0x01, 0x7F, 0x01, 0x64, 0x01];
    let instructions: [&[u8]; 79] = [
        // a descriptor, and an object with it
        &[0xFB, 0x00, 0x01],
        &[0x21, 0x03],
        &[0x41, 0x7B],
        &[0x22, 0x02],
        &[0xFB, 0x01, 0x01],
        &[0xFB, 0x20, 0x00],
        &[0xFB, 0x02, 0x00, 0x00],
        &[0x1A],
        &[0xD0, 0x62, 0x01],
        &[0xFB, 0x21, 0x00],
        &[0x20, 0x02],
        &[0xFB, 0x05, 0x00, 0x00],
        // tests and casts
        &[0x20, 0x01],
        &[0xFB, 0x14, 0x02],
        &[0x1A],
        &[0x20, 0x00],
        &[0xFB, 0x15, 0x70],
        &[0x1A],
        &[0x20, 0x01],
        &[0xFB, 0x16, 0x62, 0x02],
        &[0x1A],
        &[0xD0, 0x6E],
        &[0xFB, 0x17, 0x02],
        &[0xD1],
        &[0x1A],
        &[0xD0, 0x6D],
        &[0xD0, 0x71],
        &[0xD3],
        &[0x1A],
        // descriptors: taken from an object, and cast by
        &[0x20, 0x01],
        &[0x20, 0x01],
        &[0xFB, 0x22, 0x00],
        &[0xFB, 0x23, 0x00],
        &[0x1A],
        &[0xD0, 0x6E],
        &[0x20, 0x03],
        &[0xFB, 0x24, 0x00],
        &[0xD4],
        &[0x1A],
        // branching casts
        &[0x02, 0x64, 0x02],
        &[0x20, 0x01],
        &[0xFB, 0x18, 0x00, 0x00, 0x00, 0x02],
        &[0x1A],
        &[0x00],
        &[0x0B],
        &[0x1A],
        &[0x02, 0x6B],
        &[0xD0, 0x6B],
        &[0xFB, 0x19, 0x01, 0x00, 0x6B, 0x02],
        &[0x1A],
        &[0xD0, 0x6B],
        &[0x20, 0x03],
        &[0xFB, 0x25, 0x03, 0x00, 0x6B, 0x00],
        &[0x20, 0x03],
        &[0xFB, 0x26, 0x00, 0x00, 0x6B, 0x00],
        &[0x0B],
        &[0x1A],
        // numbers: constants of every kind, done and not done
        &[0x42, 0x80, 0x80, 0x80, 0x80, 0x80, 0x80, 0x80, 0x80, 0x80, 0x7F],
        &[0x42, 0x7F],
        &[0x7C],
        &[0x50],
        &[0x1A],
        &[0x43, 0x01, 0x00, 0xC0, 0xFF],
        &[0x43, 0x00, 0x00, 0x80, 0x3F],
        &[0x95],
        &[0xBB],
        &[0x44, 0x00, 0x00, 0x00, 0x00, 0x00, 0x00, 0xF0, 0x3F],
        &[0x66],
        &[0x1A],
        // a loop that is left, and the function's end
        &[0x03, 0x40],
        &[0x01],
        &[0x20, 0x02],
        &[0x0D, 0x00],
        &[0x0B],
        &[0x02, 0x40],
        &[0x0C, 0x00],
        &[0x0B],
        &[0xD0, 0x62, 0x01],
        &[0x0F],
    ];
    let end: &[u8] = &[0x0B];
    let bytes = [locals, &instructions.concat(), end].concat();
    (bytes, instructions.len() as u64 + 1)
}
