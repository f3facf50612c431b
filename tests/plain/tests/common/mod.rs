//! Requests written with spaces between bytes, as the papers write them.

#![allow(dead_code)]

use plain::lines::answer;

/// F1 and F2 of document 01, and V of READINGS.md.
pub const F1: &str = "02 4E 02 4D 01 5F 00 4C 00 5F 00 60 00 01 64 62 00";
pub const F2: &str = "02 4E 02 4D 01 5F 00 4C 00 5F 00 60 00 01 64 62 01";
pub const V: &str = "01 60 00 00";

/// Type 0 is open and has descriptor 1; 2 is below 0, its descriptor 3 below 1. Then
/// a function with this result.
pub fn described(result: &str) -> String {
    let types = "50 00 4D 01 5F 00 50 00 4C 00 5F 00 4F 01 00 4D 03 5F 00 4F 01 01 4C 02 5F 00";
    format!("02 4E 04 {types} 60 00 01 {result}")
}

/// Bytes for the line protocol; no bytes at all is `-`.
fn bytes(text: &str) -> String {
    let hex: String = text.split_whitespace().collect();
    if hex.is_empty() {
        return "-".to_string();
    }
    hex
}

pub fn section(section: &str) -> String {
    answer(&format!("S {}", bytes(section)))
}

pub fn type_bytes(section: &str, number: u32) -> String {
    answer(&format!("T {} {number}", bytes(section)))
}

pub fn body(section: &str, number: u32, body: &str) -> String {
    answer(&format!("B {} {number} {}", bytes(section), bytes(body)))
}

pub fn run(section: &str, number: u32, body: &str, budget: u64) -> String {
    answer(&format!("R {} {number} {} {budget}", bytes(section), bytes(body)))
}

/// The same four with a library before the section.
pub fn sections(library: &str, section: &str) -> String {
    answer(&format!("S {} {}", bytes(library), bytes(section)))
}

pub fn type_of(library: &str, section: &str, number: u32) -> String {
    answer(&format!("T {} {} {number}", bytes(library), bytes(section)))
}

pub fn body_over(library: &str, section: &str, number: u32, body: &str) -> String {
    answer(&format!("B {} {} {number} {}", bytes(library), bytes(section), bytes(body)))
}

pub fn run_over(library: &str, section: &str, number: u32, body: &str, budget: u64) -> String {
    answer(&format!("R {} {} {number} {} {budget}", bytes(library), bytes(section), bytes(body)))
}

/// A piece of bytes so many times over, with spaces between.
pub fn times(count: usize, piece: &str) -> String {
    vec![piece; count].join(" ")
}

/// An answer without its rows.
pub fn count_only(answer: &str) -> String {
    answer.split(' ').take(2).collect::<Vec<_>>().join(" ")
}

/// What comes before the state of a run's answer.
pub fn outcome(answer: &str) -> String {
    answer.split(" | ").next().unwrap_or("").to_string()
}
