//! The law of `print` and `assemble`, and the text's forms.

use super::print_body;
use crate::hex::read_text;
use crate::read::section::{read_addon, read_library};
use crate::read::{self, Padding};
use crate::{dump, text};
use plain::generate;
use plain::lines::{read_request, Request};

fn requests(seed: u64, count: usize, small: bool) -> impl Iterator<Item = Request> {
    generate::requests(seed, count, small).map(|line| read_request(&line).expect("a request"))
}

/// How many types of the library can be read.
fn types_before(request: &Request) -> usize {
    read_library(request.library(), Padding::Noted).types.len()
}

/// Without a library.
fn print_section(bytes: &[u8]) -> Result<String, read::Fault> {
    text::print_section(bytes, 0)
}

fn assemble_section(text: &str) -> Result<Vec<u8>, text::tokens::Fault> {
    text::assemble_section(text, 0)
}

fn assemble_body(text: &str) -> Result<Vec<u8>, text::tokens::Fault> {
    text::assemble_body(text, 0)
}

/// A section after so many types of a library, or a body.
#[derive(Clone, Copy)]
enum Kind {
    Section(usize),
    Body,
}

impl Kind {
    fn print(self, bytes: &[u8]) -> Result<String, read::Fault> {
        match self {
            Kind::Section(before) => text::print_section(bytes, before),
            Kind::Body => print_body(bytes),
        }
    }

    fn assemble(self, text: &str) -> Result<Vec<u8>, text::tokens::Fault> {
        match self {
            Kind::Section(before) => text::assemble_section(text, before),
            Kind::Body => assemble_body(text),
        }
    }

    /// Whether the bytes can be read, and then whether the loader would say 32 of them, were it all that is wrong.
    fn padded(self, bytes: &[u8]) -> Option<bool> {
        let (fault, padded) = match self {
            Kind::Section(before) => {
                let read = read_addon(bytes, before, Padding::Noted);
                (read.fault, read.padded)
            }
            Kind::Body => {
                let read = read::body::read_with(bytes, Padding::Noted);
                (read.fault, read.padded)
            }
        };
        fault.is_none().then_some(!padded.is_empty())
    }
}

/// Printed and assembled: the same bytes where no number is padded, bytes without padding where one is, and always the same
/// text.
fn held(kind: Kind, bytes: &[u8], padded: bool) {
    let text = kind.print(bytes).expect("it can be read");
    let back = match kind.assemble(&text) {
        Ok(back) => back,
        Err(fault) => panic!("{fault}\n{text}"),
    };
    if padded {
        assert!(back.len() < bytes.len());
        assert_eq!(kind.padded(&back), Some(false));
        let again = kind.print(&back).expect("it can be read");
        assert_eq!(text.split_once('\n').map(|(_, rest)| rest), Some(again.as_str()));
    } else {
        assert_eq!(back, bytes, "{text}");
    }
}

#[test]
fn printed_and_assembled_bytes_are_the_same() {
    let mut counts = [0; 6];
    for request in requests(20_260_808, 6_000, false) {
        let before = types_before(&request);
        let section = Kind::Section(before);
        if let Some(padded) = section.padded(&request.section) {
            held(section, &request.section, padded);
            counts[2 * (before > 0) as usize + padded as usize] += 1;
        }
        let Some((_, body)) = request.body() else { continue };
        if let Some(padded) = Kind::Body.padded(body) {
            held(Kind::Body, body, padded);
            counts[4 + padded as usize] += 1;
        }
    }
    assert!(counts.iter().all(|&count| count > 2), "{counts:?}");
}

/// Numbers run on after the library's; its own types are named by number.
#[test]
fn a_section_after_a_library() {
    let section = "02 4E 02 4F 01 00 4D 04 5F 01 63 02 00 4F 01 01 4C 03 5F 00 60 01 64 62 04 00";
    let printed = "\
;; types 0 to 2 are the library's
(rec
  (type $3 (sub final 0 (descriptor $4) (struct (field (ref null 2)))))
  (type $4 (sub final 1 (describes $3) (struct)))
)
(type $5 (func (param (ref (exact $4)))))
";
    assert_eq!(text::print_section(&digits(section), 3).expect("it can be read"), printed);
    let by_hand = "
        (rec (type $ferry (sub final 0 (descriptor $kind) (struct (field $leg (ref null 2)))))
             (type $kind (sub final 1 (describes $ferry) (struct))))
        (type (func (param (ref (exact 4)))))";
    for text in [printed, by_hand] {
        assert_eq!(text::assemble_section(text, 3).expect("it can be read"), digits(section));
    }
    assert!(text::assemble_section("(type (sub $2 (struct)))", 3).is_err(), "it has no name");
    let one = text::print_section(&digits("01 5F 00"), 1).expect("it can be read");
    assert_eq!(one, ";; type 0 is the library's\n(type $1 (struct))\n");
}

fn section_of(text: &str) -> Vec<u8> {
    assemble_section(text).unwrap_or_else(|fault| panic!("{fault}"))
}

fn body_of(text: &str) -> Vec<u8> {
    assemble_body(text).unwrap_or_else(|fault| panic!("{fault}"))
}

fn digits(text: &str) -> Vec<u8> {
    read_text(text).expect("hex")
}

/// Every form of a definition has a text of its own.
#[test]
fn forms_of_sections() {
    let cases = [
        ("00", ""),
        ("01 4E 00", "(rec)\n"),
        ("01 5F 00", "(type $0 (struct))\n"),
        ("01 4E 01 5F 00", "(rec\n  (type $0 (struct))\n)\n"),
        ("01 50 00 5F 00", "(type $0 (sub (struct)))\n"),
        ("01 4F 00 5F 00", "(type $0 (sub final (struct)))\n"),
        ("01 50 02 00 07 5F 00", "(type $0 (sub $0 7 (struct)))\n"),
        (
            "01 4E 02 4D 01 5F 01 6E 01 4C 00 5F 01 63 6E 00",
            "(rec\n  (type $0 (descriptor $1) (struct (field (mut anyref))))\n  \
             (type $1 (describes $0) (struct (field (ref null any))))\n)\n",
        ),
        (
            "01 60 02 7F 64 62 00 01 7C",
            "(type $0 (func (param i32 (ref (exact $0))) (result f64)))\n",
        ),
    ];
    for (hex, text) in cases {
        assert_eq!(print_section(&digits(hex)).expect("it can be read"), text);
        assert_eq!(section_of(text), digits(hex), "{text}");
    }
}

#[test]
fn forms_of_bodies() {
    let body = "04 01 7F 02 6E 00 7E AC 02 63 6D 02 63 6E 41 7B 0D 00 0B 1A 0B";
    let text = "\
(func
  (local i32)
  (local anyref anyref)
  (local times=0 i64)
  (local times=300 (ref null eq))
  block (result (ref null any))
    i32.const -5
    br_if 0
  end
  drop
)
";
    assert_eq!(print_body(&digits(body)).expect("it can be read"), text);
    assert_eq!(body_of(text), digits(body));
}

#[test]
fn constants_have_their_text() {
    let cases = [
        ("42 80 80 80 80 80 80 80 80 80 7F", "i64.const -9223372036854775808"),
        ("42 FF FF FF FF FF FF FF FF FF 00", "i64.const 9223372036854775807"),
        ("43 01 00 C0 FF", "f32.const -nan:0x400001"),
        ("43 01 00 80 7F", "f32.const nan:0x1"),
        ("43 00 00 00 80", "f32.const -0.0"),
        ("43 FF FF 7F 7F", "f32.const 3.4028235e38"),
        ("44 00 00 00 00 00 00 F8 7F", "f64.const nan"),
        ("44 00 00 00 00 00 00 F0 FF", "f64.const -inf"),
        ("44 9A 99 99 99 99 99 B9 3F", "f64.const 0.1"),
    ];
    for (hex, text) in cases {
        let body = digits(&format!("00 {hex} 1A 0B"));
        let printed = format!("(func\n  {text}\n  drop\n)\n");
        assert_eq!(print_body(&body).expect("it can be read"), printed);
        assert_eq!(body_of(&printed), body, "{text}");
    }
    assert_eq!(body_of("i64.const 0xFFFF_FFFF_FFFF_FFFF"), digits("00 42 7F 0B"));
    assert_eq!(body_of("f32.const 0x1.8p+1 (;=3;)"), digits("00 43 00 00 40 40 0B"));
    assert_eq!(body_of("f64.const 1"), digits("00 44 00 00 00 00 00 00 F0 3F 0B"));
    assert!(assemble_body("f32.const 1e39").is_err());
    assert!(assemble_body("i64.const 18446744073709551616").is_err());
    assert!(assemble_body("i64.const -9223372036854775809").is_err());
    assert!(assemble_body("i32.const -2147483649").is_err());
}

/// Each by the name that the plain checker's table has for it.
#[test]
fn numeric_codes_have_their_names() {
    for code in 0x45..=0xC4 {
        let name = plain::numeric::row_of_code(code).expect("a numeric code").name;
        let body = [0x00, code, 0x0B];
        assert_eq!(print_body(&body).expect("it can be read"), format!("(func\n  {name}\n)\n"));
        assert_eq!(body_of(name), body, "{name}");
    }
    for code in [0x40, 0xC5, 0xFC] {
        assert!(print_body(&[0x00, code, 0x0B]).is_err());
    }
}

/// What a person writes: names, comments, folded instructions, shorthands.
#[test]
fn text_by_hand() {
    let section = "
        ;; a route (; and ;) its descriptor
        (rec (type $route (sub (descriptor $kind) (struct (field $length i32) (field i64 (mut f32)))))
             (type $kind (sub (describes $route) (struct))))
        (; (; one in another ;) ;)
        (type (func (param i32) (param i64) (result (ref $route))))";
    let wanted =
        "02 4E 02 50 00 4D 01 5F 03 7F 00 7E 00 7D 01 50 00 4C 00 5F 00 60 02 7F 7E 01 64 00";
    assert_eq!(section_of(section), digits(wanted));
    let folded = "(func $f (type 2) (param $a i32) (result i32) (local $b i32) (local i64)
        (block $out (result i32)
          (br_if $out (local.get $a) (i32.const 0x10)))
        (local.set $b) (drop (ref.test anyref (ref.null any))) local.get $b)";
    let flat = "02 01 7F 01 7E 02 7F 20 00 41 10 0D 00 0B 21 01 D0 6E FB 15 6E 1A 20 01 0B";
    assert_eq!(body_of(folded), digits(flat));
    // Without a (func ..) around it; the last `end` may stand there or not.
    assert_eq!(body_of(";; nothing\nnop end"), digits("00 01 0B"));
    assert_eq!(body_of("nop"), digits("00 01 0B"));
    assert_eq!(body_of("i32.const 4294967295 drop"), digits("00 41 7F 1A 0B"));
}

#[test]
fn text_that_goes_wrong_is_told_by_line_and_column() {
    let of_section = |text: &str| assemble_section(text).expect_err(text).to_string();
    let of_body = |text: &str| assemble_body(text).expect_err(text).to_string();
    assert_eq!(
        of_section("(type $a (struct))\n(type $b (sub $c (struct)))"),
        "line 2, column 15: no type is named $c"
    );
    assert!(of_section("(type $a (struct)) (type $a (struct))").contains("line 1, column 26"));
    assert!(of_section("(type (structt))").starts_with("line 1, column 7: "));
    assert!(of_section("(type (struct (field i33)))").contains("a value type is wanted here"));
    assert!(of_section("(type (struct)").contains("and the text ends"));
    assert!(of_section("(; open").contains("line 1, column 1: this comment is not closed"));
    assert!(of_body("(func nopp)").starts_with("line 1, column 7: an instruction is wanted here"));
    assert!(of_body("(func block)").contains("`end` of a block"));
    assert!(of_body("nop end nop").contains("the body has ended before this"));
    assert!(of_body("br $x").contains("line 1, column 4"));
    assert!(of_body("i32.const 4294967296").contains("a number of 32 bits"));
    assert!(of_body(&"(drop ".repeat(10_000)).contains("too many folded"));
}

/// What would be read with another meaning than the one meant: line and column of the word that is amiss.
#[test]
fn the_assembler_is_strict() {
    let of_section = |text: &str| assemble_section(text).expect_err(text).to_string();
    let of_body = |text: &str| assemble_body(text).expect_err(text).to_string();
    let bodies = [
        (
            "(func (local $a i32) (local $a i64))",
            "1, column 29: $a is the name of an earlier parameter or local",
        ),
        ("(func (param $a i32)\n(local $a i32))", "2, column 8: $a is the name of an earlier"),
        (
            "(func (param $a i32) (param $a i32))",
            "1, column 29: $a is the name of an earlier parameter",
        ),
        ("(func (local $a i32 i64))", "1, column 21: $a names one, and this is a second type"),
        ("(func (local $a))", "1, column 16: $a needs its type"),
        ("block $a end $b", "1, column 14: this `end` is that of $a, and not of $b"),
        ("block end $b", "1, column 11: this `end` is that of a block without a name"),
        ("nop end $f", "1, column 9: this `end` is that of a block without a name"),
        ("i32.const 1__000", "1, column 11: a number of 32 bits is wanted here"),
        ("i32.const 1_", "1, column 11: "),
        ("i32.const _1", "1, column 11: "),
        ("i32.const 0x_1", "1, column 11: "),
        ("i32.const 0x+1", "1, column 11: "),
        ("f64.const 1_.5", "1, column 11: a float is wanted here"),
        ("br 0_", "1, column 4: a label is wanted here"),
        ("(func (local (@times 3) i32))", "1, column 14: a value type is wanted here"),
        ("(func (local times=x i32))", "1, column 14: times= and a count"),
        ("struct.get 0 $x", "1, column 14: in a body alone a field is named by its number"),
        ("struct.new $x", "1, column 12: in a body alone a type is named by its number"),
    ];
    for (text, fault) in bodies {
        assert!(of_body(text).starts_with(&format!("line {fault}")), "{text}: {}", of_body(text));
    }
    let sections = [
        ("(type (struct (field $a i32 i64)))", "1, column 29: $a names one"),
        (
            "(type (struct (field $a i32) (field $a i32)))",
            "1, column 37: $a is the name of an earlier field",
        ),
        ("(type (struct (field $a)))", "1, column 24: $a needs its type"),
        ("(type (func (param $a i32 i64)))", "1, column 27: $a names one"),
    ];
    for (text, fault) in sections {
        assert!(
            of_section(text).starts_with(&format!("line {fault}")),
            "{text}: {}",
            of_section(text)
        );
    }
    assert_eq!(
        body_of("block $a end $a i32.const 1_000 drop"),
        digits("00 02 40 0B 41 E8 07 1A 0B")
    );
}

/// Types and a function in one text: the incident's, by names; the function may stand before the types.
#[test]
fn a_module_has_names() {
    let types = "(rec (type $kind (sub (descriptor $of) (struct (field $id i32) (field $length (mut i64)))))
                      (type $of (sub (describes $kind) (struct))))
                 (type $reader (func (param $at (ref null $kind)) (result i64)))";
    let function = "(func $read (type $reader) (local $end i64)
                      (struct.set $kind $length (local.get 0) (local.get $end))
                      (struct.get $kind $length (ref.cast (ref (exact $kind)) (local.get 0))))";
    let section = "02 4E 02 50 00 4D 01 5F 02 7F 00 7E 01 50 00 4C 00 5F 00 60 01 63 00 01 7E";
    // One local of i64, which is local 1: the parameter is the type's.
    let body = "01 01 7E 20 00 20 01 FB 05 00 01 20 00 FB 16 62 00 FB 02 00 01 0B";
    for text in [format!("(module $m {types} {function})"), format!("(module {function} {types})")]
    {
        assert_eq!(section_of(&text), digits(section), "{text}");
        assert_eq!(body_of(&text), digits(body), "{text}");
    }
    // After a library of three types.
    let text = format!("(module {types} {function})");
    let after = text::assemble_body(&text, 3).expect("it can be read");
    assert_eq!(after, digits("01 01 7E 20 00 20 01 FB 05 03 01 20 00 FB 16 62 03 FB 02 03 01 0B"));
}

#[test]
fn a_module_that_goes_wrong_is_told() {
    let of_body = |text: &str| assemble_body(text).expect_err(text).to_string();
    let cases = [
        ("(module (type $a (struct)))", "1, column 2: this module has no function"),
        ("(module (func) (func))", "1, column 16: a module has one function here"),
        (
            "(module (memory 1) (func))",
            "1, column 9: `(type`, `(rec` or `(func` is wanted here, and not `(memory`",
        ),
        ("(module (func) nop)", "1, column 16: "),
        ("(module (func)) (func)", "1, column 17: nothing more is wanted here"),
        ("(module (func", "1, column 9: this parenthesis is not closed"),
        ("(module (func (type $t)))", "1, column 21: no type is named $t"),
        ("(module (func (type 3)))", "1, column 21: there is no type 3"),
        (
            "(module (type $t (func)) (func (type $t) (param i32)))",
            "1, column 32: parameters and results are not",
        ),
        (
            "(module (type $a (struct (field $x i32))) (func (struct.get $a $y)))",
            "1, column 64: type 0 has no field that is named $y",
        ),
    ];
    for (text, fault) in cases {
        assert!(of_body(text).starts_with(&format!("line {fault}")), "{text}: {}", of_body(text));
    }
    assert_eq!(section_of("(module)"), [0x00]);
}

/// As many locals as the loader takes are written as any tool reads them; behind them, and of none, by a word that no tool reads.
#[test]
fn locals_are_written_out() {
    let many = print_body(&digits("01 80 02 7F 0B")).expect("it can be read");
    assert_eq!(many, format!("(func\n  (local{})\n)\n", " i32".repeat(256)));
    let more = print_body(&digits("02 01 7F 80 02 7F 0B")).expect("it can be read");
    assert_eq!(more, "(func\n  (local i32)\n  (local times=256 i32)\n)\n");
    assert!(!more.contains('@'));
}

/// A body of 32 KB never gives more than some 2 MB, however deep, and each byte is in the listing.
#[test]
fn hostile_bodies_stay_small() {
    let size = 32_768;
    let deep = |inside: &[u8]| {
        let mut body = vec![0x00];
        body.extend([0x02, 0x40].repeat(40));
        body.extend(inside.iter().cycle().take(size - body.len() - 41).copied());
        body.extend([0x0B; 41]);
        body
    };
    let nested = [vec![0x00], [0x02, 0x40].repeat(10_922), vec![0x0B; 10_923]].concat();
    let bodies = [
        nested,
        deep(&[0xD4]),
        deep(&[0x00]),
        deep(&[0x01]),
        [vec![0x00], [0x02, 0x40].repeat(16_383), vec![0xFF]].concat(),
        vec![0xFF; size],
        [vec![0xFF, 0x7F], [0x01, 0x6E].repeat(16_383)].concat(),
    ];
    for body in bodies {
        assert!(body.len() <= size, "{}", body.len());
        let listing = dump::text(&body, &dump::body(&body));
        assert!(listing.len() < 2_200_000, "{}", listing.len());
        assert_eq!(listed(&listing), body);
        if let Ok(text) = print_body(&body) {
            assert!(text.len() < 2_200_000, "{}", text.len());
        }
    }
    let supertypes = [vec![0x01, 0x50, 0xF0, 0xFF, 0x01], vec![0x00; 32_752], vec![0x5F, 0x00]];
    let supertypes = supertypes.concat();
    for section in [supertypes, vec![0x4E; size], [0x7F, 0x4E, 0x00].repeat(10_000)] {
        let listing = dump::text(&section, &dump::section(&section, 0));
        assert!(listing.len() < 2_200_000, "{}", listing.len());
        assert_eq!(listed(&listing), section);
    }
}

/// The bytes of a listing: behind each line's place, pairs of digits.
pub fn listed(listing: &str) -> Vec<u8> {
    let lines = listing.lines().filter(|line| !line.contains("the listing breaks off"));
    let pairs = lines.flat_map(|line| {
        let digits = line[8..].split(' ').take_while(|word| {
            word.len() == 2 && word.chars().all(|digit| digit.is_ascii_hexdigit())
        });
        digits.map(|pair| u8::from_str_radix(pair, 16).expect("a byte")).collect::<Vec<u8>>()
    });
    pairs.collect()
}

/// Words in any order, and texts with a word left out or put twice: bytes or a fault, and always an end.
#[test]
fn any_words_are_answered() {
    let words = [
        "(",
        ")",
        "(func",
        "(type",
        "$a",
        "$0",
        "(rec",
        "(sub",
        "final",
        "(struct",
        "(field",
        "(mut",
        "i32",
        "(ref",
        "null",
        "any",
        "anyref",
        "(exact",
        "0",
        "-1",
        "(local",
        "times=3",
        "(module",
        "block",
        "loop",
        "end",
        "br",
        "(block",
        "nop",
        "i32.const",
        "i64.const",
        "f32.const",
        "f64.const",
        "nan:0x1",
        "0x1p3",
        "i64.eqz",
        "br_on_cast",
        "(;",
        ";)",
        ";;",
        "\n",
        "(describes",
        "(param",
        "(result",
    ];
    let mut random = plain::generate::random::Random::new(7);
    for _ in 0..4_000 {
        let count = random.below(24);
        let soup: Vec<&str> = (0..count).map(|_| random.pick(&words)).collect();
        let soup = soup.join(" ");
        let _ = (assemble_section(&soup), assemble_body(&soup));
    }
    for request in requests(9, 400, true) {
        let Some((_, body)) = request.body() else { continue };
        let texts = [print_section(&request.section), print_body(body)];
        for text in texts.into_iter().flatten() {
            let words: Vec<&str> = text.split(' ').collect();
            let at = random.below(words.len());
            let without = [&words[..at], &words[at + 1..]].concat().join(" ");
            let twice = [&words[..=at], &words[at..]].concat().join(" ");
            for text in [without, twice] {
                let _ = (assemble_section(&text), assemble_body(&text));
            }
        }
    }
}
