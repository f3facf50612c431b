//! The words of an answer as an answer line. The layout of the words is docs/LAYOUT.md's.

use crate::request::{Asked, Request};

pub fn line(request: &Request, words: &[u64]) -> String {
    if words.first() == Some(&0) {
        return format!("no {} {}{}", words[1], words[2], input(request, words[3]));
    }
    let answer = &words[1..];
    match request.asked {
        Asked::Section => section(request, answer),
        Asked::Type { .. } => format!("yes {}{}", hex(&answer[1..]), input(request, answer[0])),
        Asked::Body { .. } => format!("yes {}", answer[0]),
        Asked::Run { .. } => run(answer),
    }
}

const LIBRARY: u64 = 1;
const ADDON: u64 = 2;

/// The word for the input that something lies in. It is said only where the request has a library, and of no input there is
/// none to say.
fn input(request: &Request, input: u64) -> &'static str {
    match (&request.library, input) {
        (None, 0..=ADDON) | (Some(_), 0) => "",
        (Some(_), LIBRARY) => " library",
        (Some(_), ADDON) => " addon",
        _ => " of no such input",
    }
}

fn hex(bytes: &[u64]) -> String {
    bytes.iter().map(|b| format!("{b:02x}")).collect()
}

/// Words of a row; which one says where its codes begin; and from where on they are the library's.
const ROW: usize = 16;
const FIRST_CODE: usize = 10;
const SHARED: u64 = 32_768;

fn section(request: &Request, words: &[u64]) -> String {
    let count = words[0] as usize;
    let holder = |row: &[u64]| if row[FIRST_CODE] < SHARED { ADDON } else { LIBRARY };
    let row = |words: &[u64]| row(words) + input(request, holder(words));
    let rows: Vec<String> = words[1..].chunks(ROW).take(count).map(row).collect();
    match count {
        0 => "yes 0".to_string(),
        _ => format!("yes {count} {}", rows.join(";")),
    }
}

fn row(words: &[u64]) -> String {
    format!(
        "{} {} super={} describes={} descriptor={} {}..{}",
        if words[0] == 1 { "struct" } else { "func" },
        if words[3] == 1 { "open" } else { "final" },
        less_one(words[4]),
        less_one(words[5]),
        less_one(words[6]),
        words[7],
        words[8]
    )
}

/// 0 is none; else one more than the number.
fn less_one(word: u64) -> String {
    if word == 0 {
        "-".to_string()
    } else {
        (word - 1).to_string()
    }
}

fn run(words: &[u64]) -> String {
    let (how, trap, steps) = (words[0], words[1], words[2]);
    let counts: Vec<usize> = words[3..9].iter().map(|&n| n as usize).collect();
    let (place, objects, cells, locals, operands, blocks) = (counts[0], counts[1], counts[2], counts[3], counts[4], counts[5]);
    let mut rest = &words[9..];
    let mut part = |n: usize| {
        let (now, later) = rest.split_at(n);
        rest = later;
        now.to_vec()
    };
    let objects = part(4 * objects);
    let cells = values(&part(2 * cells));
    let locals = values(&part(2 * locals));
    let operands = values(&part(2 * operands));
    let blocks = part(3 * blocks);
    let state = format!(
        "place={place} heap=[{}] locals=[{}] operands=[{}] blocks=[{}]",
        heap(&objects, &cells),
        locals.join(","),
        operands.join(","),
        open(&blocks)
    );
    match how {
        1 => format!("done {steps} [{}] | {state}", operands.join(",")),
        2 => format!("trap {trap} {place} {steps} | {state}"),
        3 => format!("spent {steps} | {state}"),
        _ => format!("wrong {steps} | {state}"),
    }
}

fn values(words: &[u64]) -> Vec<String> {
    words.chunks(2).map(|pair| value(pair[0], pair[1])).collect()
}

fn value(kind: u64, bits: u64) -> String {
    match kind {
        0 => "unset".to_string(),
        1 => format!("i32:{}", bits as u32 as i32),
        2 => format!("i64:{}", bits as i64),
        3 => format!("f32:{bits:08x}"),
        4 => format!("f64:{bits:016x}"),
        5 => "null".to_string(),
        _ => format!("obj:{bits}"),
    }
}

fn heap(rows: &[u64], cells: &[String]) -> String {
    let objects = rows.chunks(4).enumerate().map(|(i, row)| {
        let first = row[2] as usize;
        let fields = &cells[first..first + row[3] as usize];
        format!("{i}:type={},desc={},fields=({})", row[0], less_one(row[1]), fields.join(","))
    });
    objects.collect::<Vec<_>>().join(";")
}

fn open(rows: &[u64]) -> String {
    let blocks = rows.chunks(3).map(|row| format!("{}@{}:height={}", if row[0] == 1 { "block" } else { "loop" }, row[1], row[2]));
    blocks.collect::<Vec<_>>().join(";")
}
