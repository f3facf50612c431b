//! An independent reference checker for document 01, as document 02 amends it, in
//! ordinary Rust.
//!
//! It shares nothing with the formal definitions or the library: it is what
//! they are compared with. Everything is read into a tree first, and every rule
//! is asked of the tree, so that the code can be held against the paper.

pub mod body;
pub mod compute;
pub mod float;
pub mod frames;
pub mod generate;
pub mod instruction_reader;
pub mod instruction_rules;
pub mod lines;
pub mod machine;
pub mod number;
pub mod numeric;
pub mod order;
pub mod refusal;
pub mod section;
pub mod section_reader;
pub mod sizes;
pub mod state;
pub mod syntax;
pub mod tally;
pub mod type_rules;
