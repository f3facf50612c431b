//! What is accepted, and refusals that name what they met.

mod common;

use common::{chelbugan, misused, no, yes, OwnFile};

/// A function type of nothing to nothing.
const V: &str = "01 60 00 00";

/// Each code by the core standard's name, at the byte that 3 has as its place.
#[test]
fn an_instruction_that_is_not_accepted_is_named() {
    let cases = [
        ("00 10 00 0B", 1, "10 is call, which is not accepted yet"),
        ("00 04 40 0B 0B", 1, "04 is if, which is not accepted yet"),
        ("00 0E 00 00 0B", 1, "0e is br_table, which is not accepted yet"),
        ("00 28 02 00 1A 0B", 1, "28 is i32.load, which is not accepted yet"),
        ("00 01 3E 03 00 0B", 2, "3e is i64.store32, which is not accepted yet"),
        ("00 D2 00 1A 0B", 1, "d2 is ref.func, which is not accepted yet"),
        ("00 FB 06 00 0B", 2, "fb 06 is array.new, which is not accepted yet"),
        ("00 FB 1E 0B", 2, "fb 1e is i31.get_u, which is not accepted yet"),
        ("00 FC 0B 00 0B", 1, "fc 0b is memory.fill, which is not accepted yet"),
        (
            "00 FC 12 0B",
            1,
            "fc is the first byte of conversions that saturate, and of memory and table",
        ),
        (
            "00 FD 0C 0B",
            1,
            "fd is the first byte of vector instructions, which is not accepted yet",
        ),
        ("00 FF 0B", 1, "ff begins no instruction"),
        ("00 FB 1F 0B", 2, "no instruction has the number 1f after FB"),
        ("00 FB 27 0B", 2, "no instruction has the number 27 after FB"),
    ];
    for (body, place, why) in cases {
        let said = no(&["check", V, body, "0"]);
        let headline = format!("no: refusal 3 at byte {place} of the body\n  {why}");
        assert!(said.starts_with(&headline), "{why} is not in\n{said}");
    }
}

#[test]
fn a_type_that_is_not_accepted_is_named() {
    let cases = [
        ("01 5F 01 78 00", 3, "78 is i8, which is not accepted yet"),
        ("01 5F 01 77 01", 3, "77 is i16, which is not accepted yet"),
        ("01 60 01 7B 00", 3, "7b is v128, which is not accepted yet"),
        ("01 5F 01 69 00", 3, "69 is exnref, which is not accepted yet"),
        ("01 5F 01 63 69 00", 4, "69 is exn, which is not accepted yet"),
        ("01 5F 01 64 7F 00", 4, "7f is i32, and a heap type is wanted"),
        ("01 5F 01 64 40 00", 4, "-64 is a negative number as a type's number"),
        ("01 5E 7F 00", 1, "5e is array, which is not accepted yet"),
        ("01 5F 01 65 00", 3, "65 begins no value type"),
        ("01 61", 1, "61 is neither 5f, a struct, nor 60, a function"),
    ];
    for (section, place, why) in cases {
        let said = no(&["check", section]);
        assert!(said.starts_with(&format!("no: refusal 3 at byte {place}\n  {why}\n")), "{said}");
    }
}

/// Types, functions and code of a module with one function: the type section's content is bytes 10 to 13, the body 22 to 23.
const MODULE: &[u8] = &[
    0x00, 0x61, 0x73, 0x6D, 0x01, 0x00, 0x00, 0x00, // magic, version
    0x01, 0x04, 0x01, 0x60, 0x00, 0x00, // types
    0x03, 0x02, 0x01, 0x00, // functions
    0x0A, 0x04, 0x01, 0x02, 0x00, 0x0B, // code
];

#[test]
fn a_module_is_told_with_the_part_that_is_wanted() {
    let module = OwnFile::new("whole.wasm", MODULE);
    let said = no(&["check", module.name()]).replace("\n  ", " ");
    let of_types = "this is a whole module; the loader reads the content of its type section, its bytes 10 to 13";
    assert!(said.contains(of_types), "{said}");
    let said = no(&["check", V, module.name(), "0"]).replace("\n  ", " ");
    let of_body =
        "this is a whole module; the loader reads one function's body, its bytes 22 to 23, the first of 1";
    assert!(said.contains(of_body), "{said}");
    // Of several files, on their lines; as JSON, in the cause.
    let two = chelbugan(&["check", module.name(), module.name()]);
    assert_eq!(two.out.matches(of_types).count(), 2, "{}", two.out);
    assert!(no(&["check", "--json", module.name()]).contains(of_types));
    // One that breaks off has no such part.
    let cut = OwnFile::new("cut.wasm", &MODULE[..11]);
    let said = no(&["check", cut.name()]);
    assert!(said.contains("the content of its type section\n"), "{said}");
}

#[test]
fn text_where_bytes_are_wanted_is_told() {
    let text = OwnFile::new("types.wat", b";; types\n(type (struct))\n");
    let said = no(&["check", text.name()]);
    assert!(
        said.ends_with(
            "  this is WebAssembly text: chelbugan assemble section makes bytes of it\n"
        ),
        "{said}"
    );
    let said = no(&["check", V, text.name(), "0"]);
    assert!(said.contains("this is WebAssembly text: chelbugan assemble body makes"), "{said}");
    let said = misused(&["check", "(type (struct))"]);
    assert!(said.contains("this is WebAssembly text: chelbugan assemble makes bytes"), "{said}");
}

#[test]
fn the_page_is_printed() {
    let page = concat!(env!("CARGO_MANIFEST_DIR"), "/../docs/ACCEPTED.md");
    let page = std::fs::read_to_string(page).expect("the page");
    assert_eq!(yes(&["explain", "accepted"]), page);
    for row in [
        "| `4c` | describes | type number |",
        "| `62` | (exact ..) | type number |",
        "| `7e` | i64 |  |",
        "| `6d` | eqref |  |",
        "| `02` | block | block type |",
        "| `fb 26` | br_on_cast_desc_eq_fail | flags, label, heap type, heap type |",
        "| `6a` | i32.add | does it |",
        "| `6c` | i32.mul | trap 46 |",
        "| `a3` | f64.div | does it |",
    ] {
        assert!(page.lines().any(|line| line == row), "{row} is not on the page");
    }
    let others = page.split_once("## What is not accepted").expect("the last part").1;
    for name in ["`10` call", "`04` if", "`78` i8", "`5e` array", "`fb 06` array.new", "`0a` code"]
    {
        assert!(others.contains(name), "{name} is not on the page");
    }
}
