//! The program's commands as a person meets them: words, exit status, files and hex.

mod common;

use common::{assert_marked, chelbugan, line_and_marks, no, yes, OwnFile};

const F1: &str = "02 4E 02 4D 01 5F 00 4C 00 5F 00 60 00 01 64 62 00";

#[test]
fn an_accepted_section_is_described() {
    let said = yes(&["check", F1]);
    for words in [
        "yes: 3 types",
        "type 0: struct (), final, descriptor 1, bytes 3 to 6",
        "type 1: struct (), final, describes 0, bytes 7 to 10",
        "type 2: function () -> ((ref (exact 0))), final, bytes 11 to 16",
    ] {
        assert!(said.contains(words), "{words:?} is not in\n{said}");
    }
}

#[test]
fn fields_are_named_by_their_types() {
    let said = yes(&["check", "02 50 00 5F 03 7F 00 6D 01 64 00 00 60 02 7C 63 62 00 01 7E"]);
    assert!(said.contains("type 0: struct (i32, (mut (ref null eq)), (ref 0)), open"), "{said}");
    assert!(
        said.contains("type 1: function (f64, (ref null (exact 0))) -> (i64), final"),
        "{said}"
    );
}

/// Number, place, document 01's words, and the mark under the byte.
#[test]
fn a_byte_fault_is_marked() {
    let said = no(&["check", "01 5F 01 63 BF 7F 00"]);
    assert!(said.starts_with("no: refusal 3 at byte 4\n"), "{said}");
    assert!(said.contains("-65 is a negative number as a type's number"), "{said}");
    assert_marked(&said, "01 5f 01 63 bf 7f 00", "bf");
}

#[test]
fn a_missing_byte_is_marked_behind_the_last() {
    let said = no(&["check", "01 5F 01 63"]);
    assert!(said.starts_with("no: refusal 1 at byte 4\n"), "{said}");
    assert!(said.contains("the bytes end where a heap type has to begin"), "{said}");
    assert!(said.contains("the input ends after 4 bytes; byte 4 is missing"), "{said}");
    let (bytes, marks) = line_and_marks(&said, "01 5f 01 63");
    assert_eq!(marks.find('^'), Some(bytes.len() + 1), "{said}");
}

#[test]
fn a_rule_marks_the_whole_type() {
    let said = no(&["check", "01 4E 03 5F 00 4D 02 5F 00 4C 00 5F 00"]);
    assert!(said.starts_with("no: refusal 11 at type 1\n"), "{said}");
    assert!(said.contains("  type 1 has descriptor 2, but type 2 describes 0\n"), "{said}");
    assert_marked(&said, "01 4e 03 5f 00 4d 02 5f 00 4c 00 5f 00", "4d 02 5f 00");
    assert!(said.contains("     5  4d 02                   type 1: descriptor 2\n"), "{said}");
    assert!(said.contains("     9  4c 00                   type 2: describes 0\n"), "{said}");
}

#[test]
fn the_mark_of_a_later_line() {
    // 33 fields stand before the byte that is none: 3 + 66 is byte 69, the sixth of its line.
    let said = no(&["check", &format!("01 5F 22 {}7B 00", "7F 00 ".repeat(33))]);
    assert!(said.starts_with("no: refusal 3 at byte 69\n"), "{said}");
    let line = said
        .lines()
        .find(|line| line.trim_start().starts_with("64 "))
        .expect("the line from 64 on");
    let marks = said.lines().skip_while(|other| *other != line).nth(1).expect("marks below it");
    assert_eq!(line.find("7b"), marks.find("^^"), "{said}");
}

#[test]
fn sizes_are_told_apart() {
    let fields = no(&["check", &format!("01 5F 41 {}", "7F 00 ".repeat(65))]);
    assert!(fields.starts_with("no: refusal 4 at byte 131\n"), "{fields}");
    let mut chain = "41 50 00 5F 00".to_string();
    for supertype in 0..64 {
        chain += &format!(" 50 01 {supertype:02X} 5F 00");
    }
    let chain = no(&["check", &chain]);
    assert!(chain.starts_with("no: refusal 4 at type 64\n"), "{chain}");
    assert!(
        chain.contains("64 steps up the supertype chain of type 64; 63 are the most"),
        "{chain}"
    );
    let whole = OwnFile::new("long", &[0; 40_000]);
    let whole = no(&["check", whole.name()]);
    assert!(whole.starts_with("no: refusal 4 at byte 0, for the whole input\n"), "{whole}");
    assert!(whole.contains("a section has at most 32768 bytes"), "{whole}");
}

#[test]
fn a_types_bytes() {
    assert_eq!(yes(&["type", F1, "0"]), "4d 01 5f 00\n");
    assert_eq!(yes(&["type", F1, "2"]), "60 00 01 64 62 00\n");
    let absent = no(&["type", F1, "3"]);
    assert!(absent.starts_with("no: refusal 6 at type 3\n"), "{absent}");
    assert!(absent.contains("the section has 3 types; there is no type 3"), "{absent}");
    assert!(no(&["type", "0000", "0"]).starts_with("no: refusal 5 at byte 1\n"));
}

#[test]
fn files_and_hex_say_the_same() {
    let bytes: Vec<u8> = F1.split(' ').map(|byte| u8::from_str_radix(byte, 16).unwrap()).collect();
    let raw = OwnFile::new("f1", &bytes);
    let text =
        OwnFile::new("f1.hex", format!("# F1\n{} # and on\n{}\n", &F1[..26], &F1[26..]).as_bytes());
    let by_hex = yes(&["check", F1]);
    assert_eq!(yes(&["check", raw.name()]), by_hex);
    assert_eq!(yes(&["check", text.name()]), by_hex);
    assert_eq!(yes(&["check", &F1.replace(' ', "").to_lowercase()]), by_hex);
}

#[test]
fn a_whole_module_is_recognised() {
    let module = OwnFile::new("module.wasm", b"\0asm\x01\0\0\0");
    assert!(no(&["check", module.name()]).contains("this is a whole module"));
}

#[test]
fn a_section_is_listed_with_offsets() {
    let said = yes(&["dump", "section", "01 4E 01 50 01 00 4D 07 5F 02 7F 01 63 62 05 00"]);
    for words in [
        "     0  01                      1 group\n",
        "     1  4e 01                   a group of 1 definition\n",
        "     3  50 01 00                  type 0: open, supertype 0\n",
        "     6  4d 07                     descriptor 7\n",
        "     8  5f 02                     struct of 2 fields\n",
        "    10  7f 01                       field 0: (mut i32)\n",
        "    12  63 62 05 00                 field 1: (ref null (exact 5))\n",
    ] {
        assert!(said.contains(words), "{words:?} is not in\n{said}");
    }
    let broken = no(&["dump", "section", "01 5F 01 7B 00"]);
    assert!(
        broken.ends_with(
            "     3  the listing breaks off here: 7b is v128, which is not accepted yet\n     3  7b 00\n"
        ),
        "{broken}"
    );
    let cut = no(&["dump", "body", "00 01 FB 18 01 00 6E"]);
    assert!(
        cut.ends_with(
            "     2  fb 18 01 00 6e          not whole\n     \
             7  the listing breaks off here: the bytes end where a heap type has to begin\n"
        ),
        "{cut}"
    );
}

/// Every instruction of document 01, once, in the order of its codes.
#[test]
fn a_body_is_listed_with_offsets() {
    let instructions = [
        ("00", "unreachable"),
        ("01", "nop"),
        ("02 40", "block"),
        ("03 7f", "loop (result i32)"),
        ("0b", "end"),
        ("0b", "end"),
        ("0c 05", "br 5"),
        ("0d 80 01", "br_if 128"),
        ("0f", "return"),
        ("1a", "drop"),
        ("20 00", "local.get 0"),
        ("21 01", "local.set 1"),
        ("22 02", "local.tee 2"),
        ("41 7b", "i32.const -5"),
        ("d0 62 03", "ref.null (exact 3)"),
        ("d1", "ref.is_null"),
        ("d3", "ref.eq"),
        ("d4", "ref.as_non_null"),
        ("fb 00 01", "struct.new 1"),
        ("fb 01 01", "struct.new_default 1"),
        ("fb 02 01 03", "struct.get 1 3"),
        ("fb 05 01 03", "struct.set 1 3"),
        ("fb 14 6e", "ref.test (ref any)"),
        ("fb 15 6d", "ref.test (ref null eq)"),
        ("fb 16 02", "ref.cast (ref 2)"),
        ("fb 17 62 02", "ref.cast (ref null (exact 2))"),
        ("fb 18 01 00 6e 02", "br_on_cast 0 (ref null any) (ref 2)"),
        ("fb 19 02 00 6e 02", "br_on_cast_fail 0 (ref any) (ref null 2)"),
        ("fb 20 04", "struct.new_desc 4"),
        ("fb 21 04", "struct.new_default_desc 4"),
        ("fb 22 04", "ref.get_desc 4"),
        ("fb 23 04", "ref.cast_desc_eq (ref 4)"),
        ("fb 24 62 04", "ref.cast_desc_eq (ref null (exact 4))"),
        ("fb 25 03 01 6e 04", "br_on_cast_desc_eq 1 (ref null any) (ref null 4)"),
        ("fb 26 00 01 6e 04", "br_on_cast_desc_eq_fail 1 (ref any) (ref 4)"),
        ("0b", "end"),
    ];
    let codes: Vec<&str> = instructions.iter().map(|(code, _)| *code).collect();
    let said = yes(&["dump", "body", &format!("01 02 7E {}", codes.join(" "))]);
    let mut place = 3;
    let listed: Vec<&str> = said.lines().skip(2).collect();
    assert_eq!(listed.len(), instructions.len(), "{said}");
    for (line, (code, name)) in listed.iter().zip(instructions) {
        let parts: Vec<&str> = line.splitn(2, code).collect();
        assert_eq!(parts.len(), 2, "{code} is not in {line}");
        assert_eq!(
            (parts[0].trim(), parts[1].trim()),
            (place.to_string().as_str(), name),
            "{said}"
        );
        place += code.split(' ').count();
    }
}

#[test]
fn the_pages_show_what_is_printed() {
    for page in ["README.md", "docs/INCIDENT.md"] {
        let commands = commands_shown(page);
        for command in ["check", "run"] {
            assert!(commands.iter().any(|shown| shown == command), "{page}: {command} is not shown");
        }
    }
}

/// Each command of a page, after its prompt, and what stands below it up to the next command or line that is not indented: the
/// commands, once all of them printed what the page says.
fn commands_shown(page: &str) -> Vec<String> {
    let root = std::path::Path::new(env!("CARGO_MANIFEST_DIR")).join("..");
    let text = std::fs::read_to_string(root.join(page)).expect("the page");
    let mut commands = Vec::new();
    for shown in text.split("    $ build/chelbugan ").skip(1) {
        let (command, below) = shown.split_once('\n').expect("what is printed");
        let printed = below.lines().take_while(|line| line.is_empty() || line.starts_with("    "));
        let printed: Vec<&str> = printed.map(|line| line.get(4..).unwrap_or("")).collect();
        let arguments = arguments(command, &root);
        let arguments: Vec<&str> = arguments.iter().map(String::as_str).collect();
        assert_eq!(chelbugan(&arguments).out.trim_end(), printed.join("\n").trim_end());
        commands.push(arguments[0].to_string());
    }
    commands
}

/// A command's words; a part between quotes is one, and the repository's files are named as from here.
fn arguments(command: &str, root: &std::path::Path) -> Vec<String> {
    let parts = command.split('\'').enumerate();
    let words = parts.flat_map(|(index, part)| match index % 2 {
        1 => vec![part],
        _ => part.split_whitespace().collect(),
    });
    let from_here = |word: &str| match word.starts_with("examples/") {
        true => root.join(word).to_str().expect("a name").to_string(),
        false => word.to_string(),
    };
    words.map(from_here).collect()
}
