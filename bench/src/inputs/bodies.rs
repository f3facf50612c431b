//! Bodies: ordinary code, and code that makes each instruction look at as much as it can. All are accepted, so that every
//! byte is looked at.

use super::sections::CHAIN;
use super::{heap, leb, of_size, Input, Judged, Size};

pub const KINDS: [&str; 8] = [
    "ordinary",
    "arithmetic",
    "casts up a chain",
    "blocks, 256 locals",
    "64 fields given",
    "64 fields by default",
    "br_if with 64 values",
    "br_if out of 63 blocks",
];

pub fn input(kind: &'static str, kilobytes: usize) -> Input {
    let (section, function) = section(kind);
    let (body, answer) = of_size(kind, kilobytes, |room| body(kind, room));
    let size = Size::Kilobytes(kilobytes);
    let body = Some((function, body));
    Input { kind, size, library: None, section, body, budget: None, answer, numbers: None }
}

/// The section, and the number of the function type.
fn section(kind: &str) -> (Vec<u8>, u32) {
    match kind {
        "ordinary" => (routes(), 5),
        // a parameter of each number kind
        "arithmetic" => (vec![0x01, 0x60, 0x04, 0x7F, 0x7E, 0x7D, 0x7C, 0x00], 0),
        "casts up a chain" => chain_and(&[function(&[], &[])]),
        "blocks, 256 locals" => (vec![0x02, 0x5F, 0x00, 0x60, 0x00, 0x00], 1),
        "br_if with 64 values" => chain_and(&[function(&[], &reference(0).repeat(64))]),
        "br_if out of 63 blocks" => (vec![0x01, 0x60, 0x00, 0x00], 0),
        _ => chain_and(&[wide(), function(&[], &[])]),
    }
}

fn body(kind: &str, room: usize) -> Judged {
    match kind {
        "ordinary" => {
            Body::new(&ordinary_locals()).filled(&ordinary_code(), &[&[0x41, 0x00]], room)
        }
        "arithmetic" => Body::new(&[0x00]).filled(&arithmetic_code(), &[], room),
        "casts up a chain" => casts(room),
        "blocks, 256 locals" => blocks(room),
        "64 fields given" => fields_given(room),
        "64 fields by default" => {
            Body::new(&[0x00]).filled(&[&[0xFB, 0x01, 64], &[0x1A]], &[], room)
        }
        "br_if with 64 values" => values_kept(room),
        _ => far_out(room),
    }
}

/// Locals and code, instruction by instruction.
struct Body {
    bytes: Vec<u8>,
    instructions: usize,
}

impl Body {
    fn new(locals: &[u8]) -> Body {
        Body { bytes: locals.to_vec(), instructions: 0 }
    }

    fn push(&mut self, code: &[&[u8]]) {
        self.bytes.extend(code.concat());
        self.instructions += code.len();
    }

    /// A piece of code as often as it fits, the last of the code, and the `end`.
    fn filled(mut self, piece: &[&[u8]], last: &[&[u8]], room: usize) -> Judged {
        let length: usize = piece.iter().chain(last).map(|code| code.len()).sum();
        while self.bytes.len() + length < room {
            self.push(piece);
        }
        self.push(last);
        self.push(&[&[0x0B]]);
        (self.bytes, Ok(self.instructions))
    }
}

/// The short and the long kind of route with their descriptors, a plain struct, and a function over them.
fn routes() -> Vec<u8> {
    let short: &[u8] = &[0x7F, 0x01, 0x63, 0x00, 0x01, 0x7F, 0x00];
    [
        &[0x03, 0x4E, 0x04, 0x50, 0x00, 0x4D, 0x01, 0x5F, 0x03],
        short,
        &[0x50, 0x00, 0x4C, 0x00, 0x5F, 0x00, 0x50, 0x01, 0x00, 0x4D, 0x03, 0x5F, 0x04],
        short,
        &[0x7F, 0x01, 0x50, 0x01, 0x01, 0x4C, 0x02, 0x5F, 0x00],
        &[0x5F, 0x04, 0x7F, 0x01, 0x7F, 0x01, 0x63, 0x00, 0x01, 0x7C, 0x00],
        &[0x60, 0x02, 0x63, 0x00, 0x7F, 0x01, 0x7F],
    ]
    .concat()
}

/// Parameters 0 (ref null 0) and 1 i32; 2 to 5 i32, 6 and 7 (ref null 2), 8 (ref null 4), 9 a (ref 3) that has no default.
fn ordinary_locals() -> Vec<u8> {
    vec![0x04, 0x04, 0x7F, 0x02, 0x63, 0x02, 0x01, 0x63, 0x04, 0x01, 0x64, 0x03]
}

/// Every kind of instruction that ordinary code has.
fn ordinary_code() -> Vec<&'static [u8]> {
    let code: [&[&[u8]]; 9] = [
        // a short route
        &[
            &[0x20, 0x01],
            &[0x20, 0x00],
            &[0x41, 0x07],
            &[0xFB, 0x00, 0x01],
            &[0xFB, 0x20, 0x00],
            &[0x1A],
        ],
        // a long one, whose descriptor is kept
        &[&[0x20, 0x01], &[0x20, 0x00], &[0x41, 0x07], &[0x41, 0x80, 0x01], &[0xFB, 0x00, 0x03]],
        &[&[0xFB, 0x20, 0x02], &[0x22, 0x06], &[0xFB, 0x22, 0x02], &[0x21, 0x09]],
        // fields
        &[
            &[0x20, 0x06],
            &[0x20, 0x02],
            &[0xFB, 0x05, 0x02, 0x00],
            &[0x20, 0x06],
            &[0xFB, 0x02, 0x02, 0x03],
            &[0x22, 0x03],
            &[0x1A],
        ],
        // a test, and a cast behind it
        &[
            &[0x02, 0x40],
            &[0x20, 0x00],
            &[0xFB, 0x14, 0x02],
            &[0x0D, 0x00],
            &[0x20, 0x00],
            &[0xFB, 0x17, 0x02],
            &[0x21, 0x07],
            &[0x0B],
        ],
        // a branching cast
        &[
            &[0x02, 0x64, 0x02],
            &[0x20, 0x00],
            &[0xFB, 0x18, 0x01, 0x00, 0x00, 0x02],
            &[0x1A],
            &[0x20, 0x06],
            &[0xD4],
            &[0x0B],
            &[0x21, 0x07],
        ],
        // a cast by the descriptor
        &[&[0x20, 0x00], &[0x20, 0x09], &[0xFB, 0x23, 0x02], &[0x21, 0x06]],
        // a loop, and a block with a result
        &[
            &[0x03, 0x40],
            &[0x20, 0x02],
            &[0x0D, 0x00],
            &[0x0B],
            &[0x02, 0x7F],
            &[0x41, 0x00],
            &[0x20, 0x02],
            &[0x0D, 0x00],
            &[0x1A],
            &[0x41, 0x05],
            &[0x0B],
            &[0x21, 0x04],
        ],
        // the plain struct
        &[
            &[0xFB, 0x01, 0x04],
            &[0x22, 0x08],
            &[0x20, 0x03],
            &[0xFB, 0x05, 0x04, 0x01],
            &[0x20, 0x08],
            &[0xFB, 0x02, 0x04, 0x02],
            &[0xD1],
            &[0x1A],
        ],
    ];
    code.concat()
}

/// Constants and codes of every kind, over the four parameters.
fn arithmetic_code() -> Vec<&'static [u8]> {
    let code: [&[&[u8]]; 6] = [
        // i32: sums, a difference and an order
        &[&[0x20, 0x00], &[0x41, 0x07], &[0x6A], &[0x22, 0x00], &[0x20, 0x00], &[0x6B]],
        &[&[0x41, 0xAC, 0x02], &[0x48], &[0x45], &[0x1A]],
        // i64: a sum, a product, a shift, and whether it is 0
        &[
            &[0x20, 0x01],
            &[0x42, 0x80, 0x80, 0x80, 0x80, 0x80, 0x20],
            &[0x7C],
            &[0x42, 0x03],
            &[0x7E],
            &[0x20, 0x01],
            &[0x87],
            &[0x22, 0x01],
            &[0x50],
            &[0x1A],
        ],
        // f32: a product and a sum, and its negative
        &[
            &[0x20, 0x02],
            &[0x43, 0x00, 0x00, 0xC0, 0x3F],
            &[0x94],
            &[0x43, 0xCD, 0xCC, 0xCC, 0x3D],
            &[0x92],
            &[0x22, 0x02],
            &[0x8C],
            &[0x1A],
        ],
        // f64: a quotient, its root, and an order
        &[
            &[0x20, 0x03],
            &[0x44, 0x9A, 0x99, 0x99, 0x99, 0x99, 0x99, 0xB9, 0x3F],
            &[0xA3],
            &[0x9F],
            &[0x22, 0x03],
            &[0x20, 0x03],
            &[0xA1],
            &[0x1A],
        ],
        // conversions
        &[
            &[0x20, 0x00],
            &[0xB7],
            &[0x20, 0x03],
            &[0x63],
            &[0x1A],
            &[0x20, 0x01],
            &[0xA7],
            &[0x21, 0x00],
            &[0x20, 0x02],
            &[0xBB],
            &[0x21, 0x03],
        ],
    ];
    code.concat()
}

/// A chain of 63 steps, type 0 at its top; then these types, the last of them the function.
pub fn chain_and(types: &[Vec<u8>]) -> (Vec<u8>, u32) {
    let mut section = leb(1 + CHAIN + types.len());
    section.extend([0x50, 0x00, 0x5F, 0x00]);
    for supertype in 0..CHAIN {
        section.extend([vec![0x50, 0x01], leb(supertype), vec![0x5F, 0x00]].concat());
    }
    section.extend(types.concat());
    (section, (CHAIN + types.len()) as u32)
}

/// (ref null x).
fn reference(number: usize) -> Vec<u8> {
    [vec![0x63], heap(number)].concat()
}

/// A struct of 64 fields (ref null 0): type 64.
fn wide() -> Vec<u8> {
    [vec![0x5F, 64], [reference(0), vec![0x01]].concat().repeat(64)].concat()
}

/// So many entries of (ref null 0) each, two bytes an entry.
pub fn function(parameters: &[u8], results: &[u8]) -> Vec<u8> {
    let list = |values: &[u8]| [leb(values.len() / 2), values.to_vec()].concat();
    [vec![0x60], list(parameters), list(results)].concat()
}

/// One local of the chain's lowest type.
fn lowest_local() -> Vec<u8> {
    [vec![0x01, 0x01], reference(CHAIN)].concat()
}

/// What is carried against the label's type, the operand against the source: twice 63 steps.
fn casts(room: usize) -> Judged {
    let mut body = Body::new(&lowest_local());
    body.push(&[&[0x02, 0x63, 0x00]]);
    let lowest = CHAIN as u8;
    let piece: [&[u8]; 3] = [&[0x20, 0x00], &[0xFB, 0x18, 0x03, 0x00, 0x00, lowest], &[0x1A]];
    body.filled(&piece, &[&[0x20, 0x00], &[0x0B], &[0x1A]], room)
}

/// Blocks one in the other as deep as may be, each with all locals to remember; the locals have no default.
fn blocks(room: usize) -> Judged {
    let open: &[u8] = &[0x02, 0x40];
    let piece = [vec![open; 63], vec![&[0x0B]; 63]].concat();
    let mut body = Body::new(&[0x01, 0x80, 0x02, 0x64, 0x00]);
    body.push(&[&[0xFB, 0x00, 0x00], &[0x21, 0x00]]);
    let one: [&[u8]; 2] = [open, &[0x0B]];
    while body.bytes.len() + 3 * 63 + 1 < room {
        body.push(&piece);
    }
    body.filled(&one, &[], room)
}

/// Each of 64 operands is compared with its field, 63 steps up.
fn fields_given(room: usize) -> Judged {
    let mut piece: Vec<&[u8]> = vec![&[0x20, 0x00]; 64];
    piece.extend::<[&[u8]; 2]>([&[0xFB, 0x00, 64], &[0x1A]]);
    Body::new(&lowest_local()).filled(&piece, &[], room)
}

/// Each br_if takes 64 values and gives them back.
fn values_kept(room: usize) -> Judged {
    let mut body = Body::new(&lowest_local());
    for _ in 0..64 {
        body.push(&[&[0x20, 0x00]]);
    }
    body.filled(&[&[0x41, 0x00], &[0x0D, 0x00]], &[], room)
}

/// Each br_if looks for the label furthest out.
fn far_out(room: usize) -> Judged {
    let mut body = Body::new(&[0x00]);
    let (opens, ends): ([&[u8]; 63], [&[u8]; 63]) = ([&[0x02, 0x40]; 63], [&[0x0B]; 63]);
    body.push(&opens);
    body.filled(&[&[0x41, 0x00], &[0x0D, 63]], &ends, room)
}
