//! Sections and bodies of one shape whose LEB numbers are of three lengths: one byte, two, and in bodies five where a limit
//! allows it, which is of constants alone. No number is padded. All are accepted.

use super::{assert_filled, heap, leb, Input, Numbers, Size, MOST_BYTES};

const OF_SECTIONS: [(&str, Way); 2] =
    [("one-byte numbers", Way::OneByte), ("two-byte numbers", Way::TwoBytes)];
const OF_BODIES: [(&str, Way); 3] = [
    ("one-byte numbers", Way::OneByte),
    ("two-byte numbers", Way::TwoBytes),
    ("five-byte constants", Way::FiveByteConstants),
];

#[derive(Clone, Copy)]
enum Way {
    OneByte,
    TwoBytes,
    FiveByteConstants,
}

/// The lowest number that needs two bytes whether it has a sign or not.
const TWO_BYTES: usize = 0x80;
/// The lowest number that needs five with a sign.
const FIVE_BYTES: usize = 1 << 27;
/// Types and locals that are named, from a way's lowest on.
const NAMED: usize = 16;
/// The greatest length of a number.
const LONGEST: usize = 5;
/// The most entries of a list.
const ENTRIES: usize = 64;

const SIZE: Size = Size::Kilobytes(32);

pub fn inputs() -> Vec<Input> {
    let sections = OF_SECTIONS.map(|(kind, way)| of_section(kind, way));
    let bodies = OF_BODIES.map(|(kind, way)| of_body(kind, way));
    sections.into_iter().chain(bodies).collect()
}

fn of_section(kind: &'static str, way: Way) -> Input {
    let (Part { bytes: section, numbers }, types) = section(way, MOST_BYTES);
    assert_filled(kind, section.len(), MOST_BYTES);
    let (answer, numbers) = (Ok(types), Some(numbers));
    Input { kind, size: SIZE, library: None, section, body: None, budget: None, answer, numbers }
}

/// The section's own numbers are not counted.
fn of_body(kind: &'static str, way: Way) -> Input {
    let (Part { bytes: body, numbers }, instructions) = body(way, MOST_BYTES);
    assert_filled(kind, body.len(), MOST_BYTES);
    let (section, function) = structs_and_function();
    let (answer, numbers) = (Ok(instructions), Some(numbers));
    let body = Some((function, body));
    Input { kind, size: SIZE, library: None, section, body, budget: None, answer, numbers }
}

impl Way {
    /// The lowest type and local that is named.
    fn lowest(self) -> usize {
        match self {
            Way::TwoBytes => TWO_BYTES,
            Way::OneByte | Way::FiveByteConstants => 0,
        }
    }

    fn lowest_constant(self) -> usize {
        match self {
            Way::FiveByteConstants => FIVE_BYTES,
            Way::OneByte | Way::TwoBytes => self.lowest(),
        }
    }

    /// What numbers may follow.
    fn codes(self, codes: &[u8]) -> Part {
        Part { bytes: codes.to_vec(), numbers: Numbers::default() }
    }
}

/// A part of an input, and the numbers in it.
#[derive(Clone)]
struct Part {
    bytes: Vec<u8>,
    numbers: Numbers,
}

impl Part {
    fn codes(mut self, codes: &[u8]) -> Part {
        self.bytes.extend(codes);
        self
    }

    fn number(self, number: usize) -> Part {
        self.push(leb(number))
    }

    /// Where a number has a sign.
    fn signed(self, number: usize) -> Part {
        self.push(heap(number))
    }

    fn push(mut self, number: Vec<u8>) -> Part {
        self.numbers.all += 1;
        self.numbers.of_one_byte += usize::from(number.len() == 1);
        self.bytes.extend(number);
        self
    }

    fn then(mut self, parts: impl IntoIterator<Item = Part>) -> Part {
        for part in parts {
            self.bytes.extend(part.bytes);
            self.numbers.all += part.numbers.all;
            self.numbers.of_one_byte += part.numbers.of_one_byte;
        }
        self
    }
}

/// The types that are named, with as many before them as they need; then structs and functions in turn. And their count.
fn section(way: Way, room: usize) -> (Part, usize) {
    let named = way.lowest() + NAMED;
    let first = vec![way.codes(&[0x50]).number(0).codes(&[0x5F]).number(0); named];
    let first = way.codes(&[]).then(first);
    let both = way.codes(&[]).then([below_a_named(way), function(way)]);
    let times = (room - LONGEST - first.bytes.len()) / both.bytes.len();
    let types = named + 2 * times;
    let section = way.codes(&[]).number(types).then([first]).then(vec![both; times]);
    (section, types)
}

/// A struct with a supertype, and references in its fields.
fn below_a_named(way: Way) -> Part {
    let field = |number| way.codes(&[0x63]).signed(number).codes(&[0x01]);
    let supertypes = way.codes(&[0x50]).number(1).number(way.lowest());
    supertypes.codes(&[0x5F]).then([entries(way, field)])
}

/// Exact references to references.
fn function(way: Way) -> Part {
    let exact = |number| way.codes(&[0x64, 0x62]).number(number);
    let reference = |number| way.codes(&[0x63]).signed(number);
    way.codes(&[0x60]).then([entries(way, exact), entries(way, reference)])
}

/// As many as there may be, over the named types in turn.
fn entries(way: Way, entry: impl Fn(usize) -> Part) -> Part {
    let list = (0..ENTRIES).map(|index| entry(way.lowest() + index % NAMED));
    way.codes(&[]).number(ENTRIES).then(list)
}

/// Structs of one i32 that may be written, so many that each way finds those that it names; then a function, and its number.
fn structs_and_function() -> (Vec<u8>, u32) {
    let structs = TWO_BYTES + NAMED;
    let section = [leb(structs + 1), [0x5F, 0x01, 0x7F, 0x01].repeat(structs)].concat();
    ([section, vec![0x60, 0x00, 0x00]].concat(), structs as u32)
}

/// And the count of its instructions.
fn body(way: Way, room: usize) -> (Part, usize) {
    let (locals, end) = (locals(way), way.codes(&[0x0B]));
    let (code, instructions) = code(way);
    let times = (room - locals.bytes.len() - end.bytes.len()) / code.bytes.len();
    (locals.then(vec![code; times]).then([end]), times * instructions + 1)
}

/// From 0 on and from the lowest of two bytes on: half of the named ones i32, the others references.
fn locals(way: Way) -> Part {
    let half = NAMED / 2;
    let numbers = |count| way.codes(&[]).number(count).codes(&[0x7F]);
    let objects = |count| way.codes(&[]).number(count).codes(&[0x63]).signed(way.lowest());
    let low = [numbers(half), objects(TWO_BYTES - half)];
    way.codes(&[]).number(4).then(low).then([numbers(half), objects(half)])
}

/// Every kind of number that an instruction has, but for those of branching casts. And the count of instructions.
fn code(way: Way) -> (Part, usize) {
    let lowest = way.lowest();
    let (object, other) = (lowest + NAMED / 2, lowest + NAMED - 1);
    let constant = || way.codes(&[0x41]).signed(way.lowest_constant() + 7);
    let get = |local| way.codes(&[0x20]).number(local);
    let set = |local| way.codes(&[0x21]).number(local);
    let prefixed = |number| way.codes(&[0xFB]).number(number);
    let code = [
        constant(),
        set(lowest),
        get(lowest),
        way.codes(&[0x0D]).number(0),
        // a null, and a field of what the local holds
        way.codes(&[0xD0]).signed(lowest),
        set(object),
        get(object),
        prefixed(0x02).number(lowest).number(0),
        set(lowest + 1),
        get(other),
        constant(),
        prefixed(0x05).number(lowest).number(0),
        // a cast, and an object
        get(object),
        prefixed(0x17).signed(lowest),
        set(other),
        prefixed(0x01).number(lowest),
        set(object),
    ];
    let instructions = code.len();
    (way.codes(&[]).then(code), instructions)
}
