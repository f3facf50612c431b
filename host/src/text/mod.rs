//! Sections and bodies in WebAssembly's text: printed from bytes, and assembled back. Nothing is judged.
//!
//! A `(module ..)` holds types and one function, so that the function names types and fields: its section and its body are
//! assembled one by one.
//!
//! A section's types are numbered on after the library's, which its text names by their numbers and does not define.
//!
//! The text says all that the bytes say but for padding of numbers, which the loader refuses: bytes without padding come
//! back as they were, and padded ones mended.

mod assemble;
mod encode;
mod instruction;
mod print;
mod tokens;

pub use assemble::{body as assemble_body, is_module, section as assemble_section};
pub use print::{body as print_body, section as print_section};

/// Whether something is meant as text: it is none but characters, and behind comments it begins with a parenthesis.
pub fn is_meant(text: &str) -> bool {
    if text.chars().any(|it| it.is_control() && !it.is_whitespace()) {
        return false;
    }
    match tokens::tokens(text) {
        Ok(tokens) => tokens.first().is_some_and(|first| first.text == "("),
        Err(_) => text.trim_start().starts_with(['(', ';']),
    }
}

#[cfg(test)]
mod tests;
