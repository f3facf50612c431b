//! Request 10 of document 02, number by number: each kind of number in its shortest writing
//! and in every longer one, and numbers that need more bytes than one.

mod common;

use common::{body, count_only, section, times, F1, V};

/// 0 a struct of a mutable i32, 1 a function of nothing.
const FIELD: &str = "02 5F 01 7F 01 60 00 00";

/// Of text with one number in brackets: the bytes before the number, the number and the
/// bytes behind it.
fn parts(marked: &str) -> [&str; 3] {
    let (before, rest) = marked.split_once('[').expect("a number in brackets");
    let (number, behind) = rest.split_once(']').expect("a number in brackets");
    [before, number, behind]
}

/// The number in so many bytes, with what it is filled up with.
fn padded_to(number: &str, fill: u8, length: usize) -> String {
    let mut bytes: Vec<u8> =
        number.split(' ').map(|byte| u8::from_str_radix(byte, 16).expect("hex")).collect();
    *bytes.last_mut().expect("a byte") |= fill & 0x80;
    bytes.resize(length, fill);
    *bytes.last_mut().expect("a byte") &= 0x7F;
    bytes.iter().map(|byte| format!("{byte:02X}")).collect::<Vec<_>>().join(" ")
}

const ZEROS: u8 = 0x80;
const ONES: u8 = 0xFF;

/// The shortest writing is accepted, and each longer one is 32 at the number.
fn twins(marked: &str, fill: u8, greatest: usize, ask: impl Fn(&str) -> String) {
    let [before, number, behind] = parts(marked);
    assert!(ask(&format!("{before}{number}{behind}")).starts_with("yes"), "{marked}");
    let refused = format!("no 32 {}", before.split_whitespace().count());
    for length in number.split(' ').count() + 1..=greatest {
        let padded = padded_to(number, fill, length);
        assert_eq!(ask(&format!("{before}{padded}{behind}")), refused, "{marked} as {padded}");
    }
}

#[test]
fn each_number_of_a_section() {
    let marked = [
        "[00]",
        "[01] 5F 00",
        "01 4E [00]",
        "01 4E [02] 5F 00 5F 00",
        "01 50 [00] 5F 00",
        "01 4F [00] 5F 00",
        "02 50 00 5F 00 4F [01] 00 5F 00",
        "02 50 00 5F 00 4F 01 [00] 5F 00",
        "01 4E 02 4D 01 5F 00 4C [00] 5F 00",
        "01 4E 02 4D [01] 5F 00 4C 00 5F 00",
        "01 5F [00]",
        "01 5F [01] 7F 00",
        "01 60 [00] 00",
        "01 60 [01] 7F 00",
        "01 60 00 [00]",
        "01 60 00 [01] 7F",
        "02 5F 00 5F 01 63 [00] 00",
        "02 5F 00 5F 01 64 [00] 01",
        "02 5F 00 60 01 63 [01] 00",
        "02 5F 00 60 00 01 64 [00]",
        "02 5F 00 5F 01 63 62 [00] 00",
        "02 5F 00 60 00 01 64 62 [01]",
    ];
    marked.iter().for_each(|marked| twins(marked, ZEROS, 5, section));
}

#[test]
fn each_number_of_a_body() {
    let marked = [
        "[00] 0B",
        "[01] 01 7F 0B",
        "01 [01] 7F 0B",
        "01 [00] 7F 0B",
        "01 01 63 [00] 0B",
        "01 01 64 62 [00] 0B",
        "01 01 7F 20 [00] 1A 0B",
        "01 01 7F 41 00 21 [00] 0B",
        "01 01 7F 41 00 22 [00] 1A 0B",
        "00 0C [00] 0B",
        "00 41 00 0D [00] 0B",
        "00 41 [00] 1A 0B",
        "00 42 [00] 1A 0B",
        "00 D0 [00] 1A 0B",
        "00 D0 62 [00] 1A 0B",
        "00 02 63 [00] D0 00 0B 1A 0B",
        "00 03 64 62 [00] FB 01 00 0B 1A 0B",
        "00 FB [01] 00 1A 0B",
        "00 41 00 FB 00 [00] 1A 0B",
        "00 FB 01 [00] 1A 0B",
        "00 D0 00 FB 02 [00] 00 1A 0B",
        "00 D0 00 FB 02 00 [00] 1A 0B",
        "00 D0 00 41 00 FB 05 [00] 00 0B",
        "00 D0 00 41 00 FB 05 00 [00] 0B",
        "00 D0 00 FB 14 [00] 1A 0B",
        "00 D0 00 FB 15 62 [00] 1A 0B",
        "00 D0 00 FB 16 [00] 1A 0B",
        "00 D0 00 FB 17 62 [00] 1A 0B",
        "00 02 63 00 D0 00 FB [18] 03 00 00 00 0B 1A 0B",
        "00 02 63 00 D0 00 FB 18 03 [00] 00 00 0B 1A 0B",
        "00 02 63 00 D0 00 FB 18 03 00 [00] 00 0B 1A 0B",
        "00 02 63 00 D0 00 FB 18 03 00 00 [00] 0B 1A 0B",
        "00 02 63 00 D0 62 00 FB 19 03 00 62 [00] 00 0B 1A 0B",
        "00 02 63 00 D0 00 FB 19 03 00 00 62 [00] 0B 1A 0B",
    ];
    let of_field = |text: &str| body(FIELD, 1, text);
    for marked in marked {
        // A padded 0 of i64.const may have ten bytes, as a padded -1 may below.
        twins(marked, ZEROS, if marked.starts_with("00 42") { 10 } else { 5 }, of_field);
    }
    twins("00 41 [7F] 1A 0B", ONES, 5, of_field);
    twins("00 41 [80 7F] 1A 0B", ONES, 5, of_field);
    twins("00 41 [FF 00] 1A 0B", ZEROS, 5, of_field);
    twins("00 42 [7F] 1A 0B", ONES, 10, of_field);
    twins("00 42 [80 80 80 80 78] 1A 0B", ONES, 10, of_field);
    twins("00 42 [FF FF FF FF FF FF FF 00] 1A 0B", ZEROS, 10, of_field);
}

/// 0 has descriptor 1; F1's function gives an exact 0.
#[test]
fn each_number_of_a_body_with_descriptors() {
    let marked = [
        "00 FB 00 01 FB 20 [00] 0B",
        "00 FB 00 01 FB [20] 00 0B",
        "00 D0 62 01 FB 21 [00] 0B",
        "00 D0 00 FB 22 [00] 1A 00 0B",
        "00 D0 00 D0 01 FB 23 [00] 1A 00 0B",
        "00 D0 00 D0 62 01 FB 24 62 [00] 1A 00 0B",
        "00 02 63 00 D0 00 D0 01 FB 25 03 [00] 00 00 0B 1A 00 0B",
        "00 02 63 00 D0 00 D0 01 FB 25 03 00 [00] 00 0B 1A 00 0B",
        "00 02 63 00 D0 00 D0 01 FB 25 03 00 00 [00] 0B 1A 00 0B",
        "00 02 63 00 D0 00 D0 01 FB 26 03 [00] 00 00 0B 1A 00 0B",
        "00 02 63 00 D0 00 D0 62 01 FB 26 03 00 00 62 [00] 0B 1A 00 0B",
    ];
    marked.iter().for_each(|marked| twins(marked, ZEROS, 5, |text| body(F1, 2, text)));
}

/// Numbers that need two bytes to five, where a number is read and then judged.
#[test]
fn shortest_numbers_of_more_bytes() {
    let groups = |count: &str, types: usize| {
        count_only(&section(&format!("{count} {}", times(types, "5F 00"))))
    };
    assert_eq!(groups("7F", 127), "yes 127");
    assert_eq!(groups("80 01", 128), "yes 128");
    assert_eq!(groups("FF 01", 255), "yes 255");
    assert_eq!(groups("80 02", 256), "yes 256");
    assert_eq!(groups("FF 07", 1_023), "yes 1023");
    assert_eq!(groups("80 08", 1_024), "yes 1024");
    assert_eq!(groups("FF 00", 127), "no 32");
    assert_eq!(groups("80 81 00", 128), "no 32");
    // 16,384 empty groups would be two bytes too long; three bytes and the end.
    assert_eq!(section(&format!("FF 7F {}", times(16_383, "4E 00"))), "yes 0");
    assert_eq!(section("80 80 01"), "no 1 3");
    assert_eq!(section("80 80 80 01"), "no 1 4");
    assert_eq!(section("80 80 80 80 01"), "no 1 5");
    assert_eq!(section("FF FF FF FF 0F"), "no 1 5");
    // Heap types of two, three, four and five bytes, out of reach; 2^32 is the first negative
    // that 33 bits hold.
    for number in ["C0 00", "80 C0 00", "80 80 C0 00", "80 80 80 C0 00", "FF FF FF FF 0F"] {
        assert_eq!(section(&format!("01 5F 01 63 {number} 00")), "no 6 0", "{number}");
    }
    for number in ["BF 7F", "FF BF 7F", "FF FF BF 7F", "FF FF FF BF 7F", "80 80 80 80 70"] {
        assert_eq!(section(&format!("01 5F 01 63 {number} 00")), "no 3 4", "{number}");
    }
    // Locals: 128 to 256 are there, 128 and 255 are named.
    assert_eq!(body(V, 0, "01 80 02 7F 20 80 01 1A 20 FF 01 1A 0B"), "yes 5");
    assert_eq!(body(V, 0, "01 80 02 7F 20 80 02 1A 0B"), "no 21 4");
    assert_eq!(body(V, 0, "01 80 02 7F 20 FF 00 1A 0B"), "no 32 5");
    // 128 entries: 0B is the first one's count.
    assert_eq!(body(V, 0, "80 01 0B"), "no 1 3");
    assert_eq!(body(V, 0, &format!("80 01 {} 0B", times(128, "00 7F"))), "yes 1");
    // Labels and fields that are absent, FB numbers that are not listed.
    for number in ["80 01", "80 80 01", "80 80 80 01", "80 80 80 80 01", "FF FF FF FF 0F"] {
        assert_eq!(body(V, 0, &format!("00 0C {number} 0B")), "no 21 1");
        assert_eq!(body(V, 0, &format!("00 FB {number} 0B")), "no 3 2");
        assert_eq!(body(FIELD, 1, &format!("00 D0 00 FB 02 00 {number} 1A 0B")), "no 23 3");
        assert_eq!(body(V, 0, &format!("00 D0 62 {number} 1A 0B")), "no 6 1");
    }
}
