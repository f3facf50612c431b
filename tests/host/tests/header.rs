//! The header's numbers are those of docs/LAYOUT.md, the header is C by itself, and its examples print what they say.

use chelbugan::{calls, Input, Refusal, EMPTY_LIBRARY};
use std::path::{Path, PathBuf};
use std::process::Command;

fn root() -> PathBuf {
    Path::new(env!("CARGO_MANIFEST_DIR")).join("../..").canonicalize().expect("the repository")
}

fn header() -> String {
    std::fs::read_to_string(root().join("include/chelbugan.h")).expect("the header")
}

fn constant(name: &str) -> usize {
    let line = format!("#define {name} ");
    let header = header();
    let value = header.lines().find_map(|other| other.strip_prefix(&line)).expect("the constant");
    value.split_whitespace().next().and_then(|value| value.parse().ok()).expect("a number")
}

/// The elements of a buffer, as the page's table of lent buffers has them.
fn elements_of(buffer: &str) -> usize {
    let page = std::fs::read_to_string(root().join("docs/LAYOUT.md")).expect("the page");
    let start = format!("| `{buffer}` |");
    let row = page.lines().find(|line| line.starts_with(&start)).expect("the buffer's row");
    row.split('|').nth(3).expect("its elements").trim().replace(',', "").parse().expect("a number")
}

#[test]
fn sizes_are_the_layouts() {
    let sizes = [
        ("rows", "ROWS", calls::ROWS),
        ("shared", "SHARED", calls::SHARED),
        ("codes", "CODES", calls::CODES),
        ("work", "WORK", calls::WORK),
        ("ends", "ENDS", calls::ENDS),
        ("counts", "COUNTS", calls::COUNTS),
        ("objects", "OBJECTS", calls::OBJECTS),
        ("cells", "CELLS", calls::CELLS),
        ("locals", "LOCALS", calls::LOCALS),
        ("operands", "OPERANDS", calls::OPERANDS),
        ("blocks", "BLOCKS", calls::BLOCKS),
    ];
    for (buffer, name, of_the_wrapper) in sizes {
        assert_eq!(constant(&format!("CHELBUGAN_{name}")), elements_of(buffer), "{buffer}");
        assert_eq!(of_the_wrapper, elements_of(buffer), "{buffer}");
    }
}

fn definitions(file: &str) -> String {
    std::fs::read_to_string(root().join("crates").join(file)).expect("the definitions")
}

/// The numbers of a file of definitions, `name = 32_768`, with the names as C writes them: `BYTES_END`.
fn numbers_of(file: &str) -> Vec<(String, u64)> {
    let text = definitions(file);
    let lines = text.lines().filter_map(|line| line.split_once(" = "));
    lines
        .filter_map(|(name, value)| Some((in_capitals(name), value.replace('_', "").parse().ok()?)))
        .collect()
}

fn in_capitals(name: &str) -> String {
    let mut capitals = String::new();
    for letter in name.chars() {
        if letter.is_uppercase() {
            capitals.push('_');
        }
        capitals.push(letter.to_ascii_uppercase());
    }
    capitals
}

/// Every constant of the header whose name begins so, with its number.
fn constants(prefix: &str) -> Vec<(String, u64)> {
    let header = header();
    let named = header.lines().filter_map(|line| line.strip_prefix("#define "));
    let own = named.filter_map(|line| line.strip_prefix(prefix));
    let split = own.map(|line| line.split_whitespace().collect::<Vec<_>>());
    split.map(|words| (words[0].to_string(), words[1].parse().expect("a number"))).collect()
}

/// Every refusal and every trap of the definitions has its name in the header and in the wrapper, and there is no other.
#[test]
fn refusals_and_traps_are_the_definitions() {
    let all = numbers_of("scope/specs/Refusals.antt");
    let (traps, refusals): (Vec<_>, Vec<_>) =
        all.into_iter().partition(|(name, _)| name.starts_with("TRAP_"));
    assert_eq!((refusals.len(), traps.len()), (25, 6));
    assert_eq!(constants("CHELBUGAN_REFUSAL_"), refusals);
    let traps: Vec<(String, u64)> =
        traps.into_iter().map(|(name, number)| (name.replacen("TRAP_", "", 1), number)).collect();
    assert_eq!(constants("CHELBUGAN_TRAP_"), traps);
    let named = |name: String| in_capitals(&name)[1..].to_string();
    let reasons = chelbugan::Reason::ALL.map(|it| (named(format!("{it:?}")), it.number()));
    assert_eq!(reasons.to_vec(), refusals);
    let of_wrapper = chelbugan::Trap::ALL.map(|it| (named(format!("{it:?}")), it.number()));
    assert_eq!(of_wrapper.to_vec(), traps);
}

#[test]
fn limits_are_the_definitions() {
    use chelbugan::limits;
    let sizes = numbers_of("scope/specs/Sizes.antt");
    for (name, constant_name, of_the_wrapper) in [
        ("MOST_BYTES", "SECTION_BYTES", limits::SECTION_BYTES),
        ("MOST_BYTES", "BODY_BYTES", limits::BODY_BYTES),
        ("MOST_TYPES", "TYPES", limits::TYPES),
        ("MOST_EACH", "FIELDS", limits::FIELDS),
        ("MOST_STEPS", "CHAIN", limits::CHAIN),
        ("MOST_LOCALS", "BODY_LOCALS", limits::LOCALS),
        ("MOST_OPERANDS", "BODY_OPERANDS", limits::OPERANDS),
        ("MOST_FRAMES", "FRAMES", limits::FRAMES),
        ("MOST_BUDGET", "BUDGET", limits::BUDGET as usize),
        ("MOST_OBJECTS", "HEAP_OBJECTS", limits::OBJECTS),
        ("MOST_CELLS", "HEAP_CELLS", limits::CELLS),
    ] {
        let (_, size) = sizes.iter().find(|(other, _)| other == name).expect("the size");
        assert_eq!(constant(&format!("CHELBUGAN_{constant_name}")) as u64, *size, "{name}");
        assert_eq!(of_the_wrapper as u64, *size, "{name}");
    }
}

/// Of the crate, the header, its text, the wrapper and its package.
#[test]
fn there_is_one_version() {
    let parts = numbers_of("chelbugan/specs/Version.antt");
    let [major, minor, patch] = ["MAJOR", "MINOR", "PATCH"]
        .map(|part| parts.iter().find(|(name, _)| name == part).expect("a part of it").1);
    let version = 10_000 * major + 100 * minor + patch;
    assert_eq!(constant("CHELBUGAN_VERSION") as u64, version);
    assert_eq!((chelbugan::calls::VERSION, chelbugan::calls::version()), (version, version));
    let text = format!("{major}.{minor}.{patch}");
    assert!(header().contains(&format!("#define CHELBUGAN_VERSION_TEXT \"{text}\"\n")));
    let package = std::fs::read_to_string(root().join("host/Cargo.toml")).expect("the package");
    assert!(package.contains(&format!("\nversion = \"{text}\"\n")), "host/Cargo.toml");
}

#[test]
fn codes_are_the_layouts() {
    let heaps = constants("CHELBUGAN_HEAP_");
    let names = named_heaps();
    for (code, name) in names.iter().enumerate() {
        assert!(heaps.contains(&(name.to_uppercase(), code as u64)), "{name}");
    }
    let page = std::fs::read_to_string(root().join("docs/LAYOUT.md")).expect("the page");
    for (what, name) in [("Heap type: x", "HEAP_DEFINED"), ("Heap type: exact x", "HEAP_EXACT")] {
        let row = format!("| {what} | {} + 2 x |", constant(&format!("CHELBUGAN_{name}")));
        assert!(page.contains(&row), "docs/LAYOUT.md has no row {row}");
    }
    let numbers = ["I32", "I64", "F32", "F64"].map(|n| constant(&format!("CHELBUGAN_TYPE_{n}")));
    assert_eq!(numbers, [0, 1, 2, 3]);
    assert!(page.contains("| Value type: i32, i64, f32, f64 | 0, 1, 2, 3 |"));
    for (what, name) in [("(ref h)", "REF"), ("(ref null h)", "REF_NULL")] {
        let row =
            format!("| Value type: {what} | {} + 2 h", constant(&format!("CHELBUGAN_TYPE_{name}")));
        assert!(page.contains(&row), "docs/LAYOUT.md has no row {row}");
    }
}

/// The abstract heap types, by their codes, as the page's heading has them.
fn named_heaps() -> Vec<String> {
    let page = std::fs::read_to_string(root().join("docs/LAYOUT.md")).expect("the page");
    let row =
        page.lines().find(|line| line.starts_with("| Abstract heap type |")).expect("the row");
    let cells = row.split('|').skip(2).map(|cell| cell.trim().to_string());
    let names: Vec<String> = cells.filter(|name| !name.is_empty()).collect();
    assert_eq!(names.len(), 10);
    names
}

/// Where 4 is at 67 for either, the input tells a byte from a type.
#[test]
fn a_byte_and_a_type_are_told_apart() {
    // A function of 65 parameters: 01 60 41 and 64 of them; the 65th is byte 67.
    let of_a_byte = [vec![0x01, 0x60, 0x41], vec![0x7F; 65], vec![0x00]].concat();
    // Structs 0 to 2 alone, then 3 open, and each of the 64 after it below the one before: type 67 is 64 steps up.
    let mut of_a_type = vec![68];
    for number in 0u8..68 {
        match number {
            0..=3 => of_a_type.extend([0x50, 0x00]),
            _ => of_a_type.extend([0x50, 0x01, number - 1]),
        }
        of_a_type.extend([0x5F, 0x00]);
    }
    let (library, none) = (Some(Input::Library), EMPTY_LIBRARY);
    let mut loader = chelbugan::Loader::new();
    let mut refused = |library: &[u8], section: &[u8]| {
        loader.judge_section(library, section).map(|table| table.count()).expect_err("a refusal")
    };
    let at_67 = |input| Refusal { number: 4, place: 67, input };
    assert_eq!(refused(none, &of_a_byte), at_67(Some(Input::Addon)));
    assert_eq!(refused(&of_a_byte, none), at_67(library));
    assert_eq!(refused(none, &of_a_type), at_67(None));
    assert_eq!(refused(&of_a_type, none), at_67(None));
}

/// The numbers of the inputs, where a row's codes lie, and the library of no types: the header and the wrapper agree.
#[test]
fn what_a_library_adds_is_the_wrappers() {
    let inputs = ["NONE", "LIBRARY", "ADDON"].map(|it| constant(&format!("CHELBUGAN_INPUT_{it}")));
    assert_eq!(inputs, [0, 1, 2]);
    assert_eq!(constant("CHELBUGAN_ROW_WORDS") * constant("CHELBUGAN_TYPES"), calls::ROWS);
    // A first code is a place in codes or, from there on, one in shared; both fit in a word.
    assert_eq!(constant("CHELBUGAN_ROW_SHARED"), calls::CODES);
    assert_eq!(calls::CODES + calls::SHARED, 1 << 16);
    assert_eq!((EMPTY_LIBRARY, constant("CHELBUGAN_EMPTY_LIBRARY_LEN")), (&[0x00][..], 1));
    let text = header();
    assert!(text.contains("#define CHELBUGAN_EMPTY_LIBRARY ((const uint8_t *)\"\")\n"));
}

/// The cells of the row below the heading that begins so; a line of dashes is between.
fn named_columns(start: &str) -> Vec<String> {
    let page = std::fs::read_to_string(root().join("docs/LAYOUT.md")).expect("the page");
    let mut rows = page.lines().skip_while(|line| !line.starts_with(start)).skip(2);
    let row = rows.next().expect("the row below it");
    row.split('|').skip(2).map(|cell| cell.trim().to_string()).collect()
}

/// The words of an entry of a buffer, in the page's order.
fn entry_words(buffer: &str) -> Vec<String> {
    let page = std::fs::read_to_string(root().join("docs/LAYOUT.md")).expect("the page");
    let start = format!("| `{buffer}` |");
    let row = page.lines().filter(|line| line.starts_with(&start)).nth(1).expect("its row");
    let words = row.split('|').nth(3).expect("the words of an entry");
    words.split(';').map(|word| word.trim().to_string()).collect()
}

/// Each constant is the index of what the page says there.
fn held(prefix: &str, page: &[String], words: &[(&str, &str)]) {
    for (name, what) in words {
        let index = constant(&format!("CHELBUGAN_{prefix}_{name}"));
        assert!(page[index].starts_with(what), "{prefix}_{name}: {page:?}");
    }
}

#[test]
fn words_of_a_state_are_the_layouts() {
    let counts = [
        ("PLACE", "place"),
        ("OBJECTS", "objects"),
        ("CELLS", "cells"),
        ("LOCALS", "locals"),
        ("OPERANDS", "operands"),
        ("BLOCKS", "open blocks"),
    ];
    held("COUNT", &named_columns("| `counts` | 0 |"), &counts);
    let kinds = [
        ("UNSET", "no value"),
        ("I32", "i32"),
        ("I64", "i64"),
        ("F32", "f32"),
        ("F64", "f64"),
        ("NULL", "null"),
        ("OBJECT", "object"),
    ];
    held("KIND", &named_columns("| Kind | 0 |"), &kinds);
    let object = [
        ("TYPE", "type"),
        ("DESCRIPTOR", "descriptor object"),
        ("CELL", "first cell"),
        ("FIELDS", "how many cells"),
    ];
    held("OBJECT", &entry_words("objects"), &object);
    assert_eq!(constant("CHELBUGAN_OBJECT_WORDS"), entry_words("objects").len());
    let block = [("KIND", "1 block or 2 loop"), ("PLACE", "place"), ("BELOW", "how many operands")];
    held("BLOCK", &entry_words("blocks"), &block);
    assert_eq!(constant("CHELBUGAN_BLOCK_WORDS"), entry_words("blocks").len());
    let cells = entry_words("cells").concat();
    assert_eq!(cells, "kind, bits");
    assert_eq!((constant("CHELBUGAN_VALUE_KIND"), constant("CHELBUGAN_VALUE_BITS")), (0, 1));
    assert_eq!(constant("CHELBUGAN_VALUE_WORDS"), 2);
}

/// What is returned, as the page's table of answers has it.
#[test]
fn kinds_of_answer_are_the_layouts() {
    let page = std::fs::read_to_string(root().join("docs/LAYOUT.md")).expect("the page");
    for (name, call) in [
        ("YES", "Judge a section"),
        ("YES", "Judge a body"),
        ("DONE", "Trial run, done"),
        ("TRAP", "Trial run, trapped"),
        ("SPENT", "Trial run, spent"),
        ("NO", "Each, refused"),
    ] {
        let row = format!("| {call} | {} |", constant(&format!("CHELBUGAN_{name}")));
        assert!(page.contains(&row), "docs/LAYOUT.md has no row {row}");
    }
}

/// The words of a row, by the numbers in docs/LAYOUT.md's table of a row.
#[test]
fn words_of_a_row_are_the_layouts() {
    let page = std::fs::read_to_string(root().join("docs/LAYOUT.md")).expect("the page");
    let words = [
        ("form", "FORM"),
        ("fields, or parameters", "FIELDS"),
        ("results", "RESULTS"),
        ("open", "OPEN"),
        ("supertype", "SUPERTYPE"),
        ("describes", "DESCRIBES"),
        ("descriptor", "DESCRIPTOR"),
        ("from", "FROM"),
        ("to", "TO"),
        ("reach", "REACH"),
        ("first code", "CODE"),
    ];
    for (what, name) in words {
        let word = constant(&format!("CHELBUGAN_ROW_{name}"));
        let row = format!("| {word} | {} | {what} |", 2 * word);
        assert!(page.contains(&row), "docs/LAYOUT.md has no row {row}");
    }
}

/// Every function that the archive offers is in the header, and the other way round.
#[test]
fn calls_are_the_exported_ones() {
    let source =
        std::fs::read_to_string(root().join("crates/chelbugan_c/src/lib.rt")).expect("the crate");
    let exported: Vec<&str> = called(&source, "pub extern \"C\" fn ");
    let header = header();
    let declared: Vec<&str> = called(&header, "\nuint64_t ");
    assert!(!exported.is_empty());
    assert_eq!(exported, declared);
}

fn called<'a>(text: &'a str, before: &str) -> Vec<&'a str> {
    text.split(before).skip(1).filter_map(|rest| rest.split('(').next()).collect()
}

#[test]
fn each_header_is_c_by_itself() {
    let files = ["include/chelbugan.h", "include/chelbugan_host.h"].map(|file| root().join(file));
    for (language, file) in
        ["c", "c++"].iter().flat_map(|it| files.iter().map(move |file| (*it, file)))
    {
        let ended = Command::new("cc")
            .args(["-Wall", "-Wextra", "-Werror", "-pedantic", "-fsyntax-only", "-x", language])
            .arg(file)
            .output()
            .expect("a C compiler");
        let said = String::from_utf8_lossy(&ended.stderr).to_string();
        // Not every C compiler has C++ beside it.
        let cannot = language == "c++" && said.contains("cc1plus");
        assert!(ended.status.success() || cannot, "{language}: {said}");
    }
}

/// The example of each call: what stands after the last empty line of its comment.
fn examples() -> Vec<String> {
    let header = header();
    let comments =
        header.split("\n/* ").skip(1).filter_map(|rest| rest.split_once("\n */\nuint64_t "));
    let examples = comments.filter_map(|(comment, _)| comment.rsplit_once("\n *\n"));
    examples.map(|(_, example)| example.replace("\n *", "\n").replacen(" *", "", 1)).collect()
}

#[test]
fn examples_print_what_they_say() {
    let examples = examples();
    assert_eq!(examples.len(), called(&header(), "\nuint64_t ").len(), "an example for each call");
    let program = format!(
        "#include <stdio.h>\n#include \"chelbugan.h\"\nint main(void) {{\nFILE *out = stdout;\n{}\nreturn 0;\n}}\n",
        examples.join("\n")
    );
    let folder = Path::new(env!("CARGO_TARGET_TMPDIR"));
    let (source, built) = (folder.join("examples.c"), folder.join("examples"));
    std::fs::write(&source, program).expect("the examples' file");
    let compiled = Command::new("cc")
        .args(["-std=c99", "-Wall", "-Wextra", "-Werror", "-I"])
        .arg(root().join("include"))
        .arg(&source)
        .arg(env!("CHELBUGAN_ARCHIVE"))
        .arg("-o")
        .arg(&built)
        .status();
    assert!(compiled.expect("a C compiler").success());
    let said = Command::new(&built).output().expect("the examples run");
    let wanted =
        b"version 20001\n2 types\n\x4F\x01\x00\x5F\x01\x7F\x002 instructions\n2 steps, i32 7\n";
    assert_eq!(said.stdout, wanted, "{}", String::from_utf8_lossy(&said.stdout));
}
