//! From bytes to what they say. Byte faults are given here with the loader's numbers, 1 to 5 and 32; no rule is asked.

pub mod body;
mod instruction;
pub mod module;
mod reader;
pub mod section;
mod types;

pub use reader::{Fault, Padded, Padding};
