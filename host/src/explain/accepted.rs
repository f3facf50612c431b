//! docs/ACCEPTED.md and `chelbugan explain accepted`: every byte that the loader reads, and what it does not accept. The reader
//! and the refusals name things by the same lists.

use crate::hex;
use crate::syntax::listed::{self, Listed};
use crate::syntax::others;
use crate::syntax::{ABSTRACT, NUMBERS};

/// Something that WebAssembly has, by its bytes.
pub struct Row {
    pub kind: &'static str,
    /// As they stand in the input, in hex; of a section its number.
    pub bytes: String,
    pub name: &'static str,
    /// What follows the bytes; of what is not accepted, nothing is said.
    pub follows: String,
}

const SECTION: &str = "section";
const FORM: &str = "definition";
const VALUE: &str = "value type";
const HEAP: &str = "heap type";
const INSTRUCTION: &str = "instruction";
const NUMERIC: &str = "numeric";

fn row(kind: &'static str, bytes: &[u8], name: &'static str, follows: impl Into<String>) -> Row {
    Row { kind, bytes: hex::spaced(bytes), name, follows: follows.into() }
}

/// What begins a group or a definition, in the order in which it stands there.
const DEFINITIONS: [(u8, &str, &str); 7] = [
    (0x4E, "group", "count of definitions, definitions"),
    (0x50, "open", "count of supertypes (0 or 1), type numbers"),
    (0x4F, "final", "count of supertypes (0 or 1), type numbers"),
    (0x4C, "describes", "type number"),
    (0x4D, "descriptor", "type number"),
    (0x5F, "struct", "count of fields, fields: each a value type, then 00 fixed or 01 mutable"),
    (0x60, "func", "count of parameters, value types, count of results, value types"),
];

pub fn accepted() -> Vec<Row> {
    let mut all = vec![row(SECTION, &[1], "type", "the content alone: a count of groups, groups")];
    all.extend(DEFINITIONS.map(|(code, name, follows)| row(FORM, &[code], name, follows)));
    all.extend(NUMBERS.map(|(_, code, name)| row(VALUE, &[code], name, "")));
    all.push(row(VALUE, &[0x63], "(ref null ..)", "heap type"));
    all.push(row(VALUE, &[0x64], "(ref ..)", "heap type"));
    all.extend(ABSTRACT.map(|(_, code, _, short)| row(VALUE, &[code], short, "")));
    all.push(row(HEAP, &[0x62], "(exact ..)", "type number"));
    all.extend(ABSTRACT.map(|(_, code, name, _)| row(HEAP, &[code], name, "")));
    all.extend(listed::instructions().into_iter().map(instruction));
    all.extend(listed::numeric().map(|it| row(NUMERIC, &[it.code()], it.name(), "")));
    all
}

fn instruction(listed: Listed) -> Row {
    let Listed { code, name, immediates } = listed;
    let follows: Vec<&str> = immediates.iter().map(|it| it.words()).collect();
    row(INSTRUCTION, &code.bytes(), name, follows.join(", "))
}

pub fn not_accepted() -> Vec<Row> {
    let of = |kind, rows: &[(u8, &'static str)]| -> Vec<Row> {
        rows.iter().map(|&(code, name)| row(kind, &[code], name, "")).collect()
    };
    let after = |first: u8, rows: &[(u8, &'static str)]| -> Vec<Row> {
        rows.iter().map(|&(number, name)| row(INSTRUCTION, &[first, number], name, "")).collect()
    };
    let after_fb = others::AFTER_FB.map(|(number, name)| (number as u8, name));
    let [.., fc, vector, atomic] = &others::INSTRUCTIONS;
    let one = &others::INSTRUCTIONS[..others::INSTRUCTIONS.len() - 3];
    [
        of(SECTION, &others::SECTIONS),
        of(FORM, &others::FORMS),
        of(VALUE, &others::VALUES),
        of(HEAP, &others::HEAPS),
        of(INSTRUCTION, one),
        after(0xFB, &after_fb),
        after(fc.0, &others::AFTER_FC),
        of(INSTRUCTION, &[*vector, *atomic]),
    ]
    .into_iter()
    .flatten()
    .collect()
}

/// docs/ACCEPTED.md.
pub fn page() -> String {
    let (rows, others) = (accepted(), not_accepted());
    let table = |kind| table(&rows, kind);
    format!(
        "\
# What is accepted

For whoever makes an add-on and wants to know which bytes the loader reads. This page is made by `chelbugan explain accepted`; a \
test holds its list of instructions to the program's reader, and its last column to the loader's trial run. Any other byte is \
[refusal 3](REFUSALS.md#refusal-3), and its explanation names what was met.

All numbers are LEB128 in as few bytes as they need ([refusal 32](REFUSALS.md#refusal-32)). Bytes are in hex.

## Sections of a module

The loader reads no whole module. It is handed the content of a type section, without the section's number and size; and a body, \
without its size: a count of entries of locals, each a count and a value type, then instructions up to the last `end`. A library \
is the content of a type section too.

{}
## Groups and definitions

A group is `4e` and definitions, or one definition alone. A definition is `50` or `4f` or neither (final, no supertype), then \
`4c` or not, then `4d` or not, then `5f` or `60`.

{}
## Value types

{}
## Heap types

A heap type is one of these, or a type number: signed LEB128, not negative. A block type is `40`, or one value type.

{}
## Instructions

Flags are 00 to 03: bit 0 says that the source may be null, bit 1 that the target may. The two heap types of a branching cast \
are source and target.

{}
## Numeric instructions

None has anything after it. A body with any of them is accepted; a trial run that reaches one that it does not do stops there \
with [trap 46](REFUSALS.md#trap-46).

{}
## What is not accepted

{}",
        table(SECTION),
        table(FORM),
        table(VALUE),
        table(HEAP),
        table(INSTRUCTION),
        numeric_table(),
        others_table(&others)
    )
}

fn table(rows: &[Row], kind: &str) -> String {
    let mut text = "| Bytes | Name | What follows |\n|---|---|---|\n".to_string();
    for row in rows.iter().filter(|row| row.kind == kind) {
        text += &format!("| `{}` | {} | {} |\n", row.bytes, row.name, row.follows);
    }
    text
}

fn numeric_table() -> String {
    let mut text = "| Bytes | Name | Trial run |\n|---|---|---|\n".to_string();
    for numeric in listed::numeric() {
        let run = if numeric.is_run() { "does it" } else { "trap 46" };
        text += &format!("| `{:02x}` | {} | {run} |\n", numeric.code(), numeric.name());
    }
    text
}

/// Many on a line: nobody writes them. Instructions by their first byte, where they have two.
fn others_table(rows: &[Row]) -> String {
    let mut text = "| What | Bytes and name |\n|---|---|\n".to_string();
    for rows in rows.chunk_by(|one, next| family(one) == family(next)) {
        let all: Vec<String> =
            rows.iter().map(|row| format!("`{}` {}", row.bytes, row.name)).collect();
        text += &format!("| {} | {} |\n", rows[0].kind, all.join(", "));
    }
    text
}

fn family(row: &Row) -> (&str, Option<&str>) {
    (row.kind, row.bytes.split_once(' ').map(|(first, _)| first))
}

#[cfg(test)]
mod tests {
    use super::*;
    use crate::hex::read_text;
    use chelbugan::{Ended, Loader, EMPTY_LIBRARY};

    #[test]
    fn the_page_is_made_from_these_lists() {
        let file = concat!(env!("CARGO_MANIFEST_DIR"), "/../docs/ACCEPTED.md");
        let there = std::fs::read_to_string(file).expect("docs/ACCEPTED.md");
        assert!(there == page(), "write it again: chelbugan explain accepted > docs/ACCEPTED.md");
    }

    /// Nothing is listed twice, and nothing accepted is among what is not.
    #[test]
    fn each_is_listed_once() {
        let all = accepted().into_iter().chain(not_accepted());
        let mut keys: Vec<(&str, String)> = all
            .map(|row| {
                let kind = if row.kind == NUMERIC { INSTRUCTION } else { row.kind };
                (kind, row.bytes)
            })
            .collect();
        let count = keys.len();
        keys.sort();
        keys.dedup();
        assert_eq!(keys.len(), count);
        // The standard's value types and sections, counted there: 4 numbers, v128, 2 packed, 12 references and their two forms.
        let of = |kind| keys.iter().filter(|key| key.0 == kind).count();
        assert_eq!((of(VALUE), of(SECTION)), (21, 14));
    }

    /// A run of two zeros of each kind and the code comes to 46 where the page says so, and nowhere else.
    #[test]
    fn the_run_does_what_the_page_says() {
        let mut loader = Loader::new();
        let section = read_text("01 60 00 00").expect("hex");
        for numeric in listed::numeric() {
            let mut body = vec![0x00];
            for operand in numeric.operands() {
                let of_kind = NUMBERS.iter().find(|row| row.0 == operand).expect("a number");
                body.extend(match of_kind.2 {
                    "i32" => vec![0x41, 0],
                    "i64" => vec![0x42, 0],
                    "f32" => vec![0x43, 0, 0, 0, 0],
                    _ => vec![0x44, 0, 0, 0, 0, 0, 0, 0, 0],
                });
            }
            body.extend([numeric.code(), 0x1A, 0x0B]);
            let run = loader.try_run(EMPTY_LIBRARY, &section, &body, 0, 10).expect("accepted");
            let trap = matches!(run.ended, Ended::Trap { number: 46, .. });
            assert_eq!(trap, !numeric.is_run(), "{}", numeric.name());
        }
    }

    #[test]
    fn a_form_or_clause_is_where_the_reader_wants_it() {
        let examples = [
            (0x4E, "01 4E 01 5F 00"),
            (0x50, "01 50 00 5F 00"),
            (0x4F, "01 4F 00 5F 00"),
            (0x4C, "01 4C 00 5F 00"),
            (0x4D, "01 4D 00 5F 00"),
            (0x5F, "01 5F 01 7F 01"),
            (0x60, "01 60 01 7F 01 7E"),
        ];
        assert_eq!(examples.map(|(code, _)| code), DEFINITIONS.map(|row| row.0));
        for (code, section) in examples {
            let bytes = read_text(section).expect("hex");
            assert_eq!(bytes[1], code);
            let read = crate::read::section::read_addon(&bytes, 0, crate::read::Padding::Refused);
            assert!(read.fault.is_none(), "{section}");
        }
    }
}
