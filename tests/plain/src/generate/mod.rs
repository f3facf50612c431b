//! Requests for comparing two loaders: valid ones by construction, near misses of
//! them, sizes on both sides, shapes that chance hardly makes, and plain noise; with a
//! library and without. The same seed gives the same lines.

pub mod at_size;
pub mod dead_code;
pub mod encode;
pub mod float_pairs;
pub mod library;
pub mod library_at_size;
pub mod make_body;
pub mod make_section;
pub mod numbers;
pub mod produce;
pub mod produce_by_descriptor;
pub mod produce_reference;
pub mod random;
pub mod spoil_body;
pub mod spoil_bytes;
pub mod spoil_section;
pub mod thin;
pub mod thin_casts;
pub mod thin_high;
pub mod thin_library;
pub mod thin_library_bodies;
pub mod thin_lists;
pub mod thin_nulls;
pub mod thin_numbers;
pub mod thin_padded;
pub mod thin_rules;
pub mod value_types;
pub mod written;

use crate::lines::{hex, read_request, Request};
use crate::sizes;
use crate::syntax::Instruction;
use encode::{Group, Writer};
use make_body::{make_body, DraftBody};
use make_section::{make_section, Draft};
use random::Random;

/// How long a section or body of a small request is, where it is made.
const SMALL_SECTION: usize = 80;
const SMALL_BODY: usize = 60;

/// A section and a body for its function type.
struct Made {
    section: Vec<u8>,
    function: u32,
    body: Vec<u8>,
}

/// About half of them with a library.
pub fn requests(seed: u64, count: usize, small: bool) -> impl Iterator<Item = String> {
    let mut random = Random::new(seed);
    (0..count).map(move |_| request(&mut random, small))
}

/// Of the same kinds, but none with a library.
pub fn requests_without_library(
    seed: u64,
    count: usize,
    small: bool,
) -> impl Iterator<Item = String> {
    let mut random = Random::new(seed);
    (0..count).map(move |_| about_one_section(&mut random, small))
}

fn request(random: &mut Random, small: bool) -> String {
    match random.below(1000) {
        0..=19 => thin_library::across(random).to_string(),
        20..=29 => thin_library_bodies::body_of_library(random).to_string(),
        30..=44 if !small => library_at_size::size_request(random).to_string(),
        30..=499 => about_two_sections(random, small).to_string(),
        _ => about_one_section(random, small),
    }
}

fn about_two_sections(random: &mut Random, small: bool) -> Request {
    let line = about_one_section(random, small);
    let request = read_request(&line).expect("the generator writes requests");
    library::with_library(random, request, small)
}

fn about_one_section(random: &mut Random, small: bool) -> String {
    match random.below(1000) {
        0..=169 => section_request(random, small),
        170..=199 => thin_padded::padded(random, small),
        200..=259 => type_request(random, small),
        260..=479 => body_request(random, small),
        480..=489 => at_size::room_request(random, small),
        490..=499 => at_size::small_size_request(random),
        500..=539 if !small => at_size::size_request(random),
        540..=589 => thin::thin_request(random, small),
        590..=669 => thin_casts::branching_casts(random),
        670..=759 => thin_numbers::numbers(random),
        760..=789 => thin_nulls::nulls(random),
        _ => run_request(random, small),
    }
}

fn write_section(random: &mut Random, groups: &[Group]) -> Vec<u8> {
    let mut writer = Writer::new(random);
    writer.section(groups);
    writer.bytes
}

fn write_body(random: &mut Random, body: &DraftBody) -> Vec<u8> {
    let mut writer = Writer::new(random);
    writer.locals(&body.locals[body.parameters..]);
    body.code.iter().for_each(|instruction| writer.instruction(instruction));
    writer.bytes
}

/// Tries again until it is short enough for the kind of request.
fn sized<T>(random: &mut Random, make: impl Fn(&mut Random) -> T, fits: impl Fn(&T) -> bool) -> T {
    let mut made = make(random);
    for _ in 0..8 {
        if fits(&made) {
            break;
        }
        made = make(random);
    }
    made
}

fn draft_section(random: &mut Random, small: bool) -> Draft {
    let room = if small { SMALL_SECTION } else { usize::MAX };
    sized(
        random,
        |random| make_section(random, small),
        |draft| {
            draft.function > 0 && write_section(&mut Random::new(0), &draft.groups).len() < room
        },
    )
}

fn section_bytes(random: &mut Random, small: bool) -> Vec<u8> {
    let mut draft = draft_section(random, small);
    let way = random.below(100);
    if way < 6 {
        return spoil_bytes::random_bytes(random, 24);
    }
    if (35..80).contains(&way) {
        spoil_section::spoil_section(random, &mut draft.groups);
    }
    let mut bytes = write_section(random, &draft.groups);
    if way >= 80 {
        spoil_bytes::spoil_bytes(random, &mut bytes);
    }
    bytes
}

fn section_request(random: &mut Random, small: bool) -> String {
    format!("S {}", hex(&section_bytes(random, small)))
}

/// Mostly of a valid section, with a number in range or just beyond.
fn type_request(random: &mut Random, small: bool) -> String {
    if random.one_in(5) {
        let section = section_bytes(random, small);
        return format!("T {} {}", hex(&section), random.below(4));
    }
    let draft = draft_section(random, small);
    let count = draft.types().len();
    let number = match random.below(8) {
        0 => count as u32,
        1 => random.pick(&[255, 256, 1_023, 1_024, u32::MAX, count as u32 + 1]),
        _ => random.below(count) as u32,
    };
    format!("T {} {number}", hex(&write_section(random, &draft.groups)))
}

fn made(random: &mut Random, small: bool) -> Made {
    let mut draft = draft_section(random, small);
    let room = if small { SMALL_BODY } else { usize::MAX };
    let mut body = sized(
        random,
        |random| make_body(random, &draft, small),
        |body| allocates(body) && write_body(&mut Random::new(0), body).len() < room,
    );
    let way = random.below(100);
    if (76..90).contains(&way) {
        let types = draft.types().len();
        spoil_body::spoil_body(random, &mut body, types);
    }
    if (70..76).contains(&way) {
        spoil_section::spoil_section(random, &mut draft.groups);
    }
    let section = write_section(random, &draft.groups);
    let function = function_number(random, draft.function);
    let mut body = write_body(random, &body);
    if (90..97).contains(&way) {
        spoil_bytes::spoil_bytes(random, &mut body);
    }
    if way >= 97 {
        body = spoil_bytes::random_bytes(random, 16);
    }
    Made { section, function, body }
}

fn allocates(body: &DraftBody) -> bool {
    body.code.iter().any(|instruction| {
        matches!(
            instruction,
            Instruction::StructNew(_)
                | Instruction::StructNewDefault(_)
                | Instruction::StructNewDesc(_)
                | Instruction::StructNewDefaultDesc(_)
        )
    })
}

/// Now and then another type's number, or none's.
fn function_number(random: &mut Random, function: u32) -> u32 {
    if random.one_in(40) {
        return random.below(function as usize + 3) as u32;
    }
    function
}

fn body_request(random: &mut Random, small: bool) -> String {
    let made = made(random, small);
    format!("B {} {} {}", hex(&made.section), made.function, hex(&made.body))
}

fn run_request(random: &mut Random, small: bool) -> String {
    let made = made(random, small);
    let budget = match random.below(50) {
        0 => sizes::BUDGET,
        1 => sizes::BUDGET + 1,
        2..=34 => 1000,
        _ => random.below(24) as u64,
    };
    format!("R {} {} {} {budget}", hex(&made.section), made.function, hex(&made.body))
}
