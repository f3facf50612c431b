//! The loader seen from outside: the archive that a host links.
//!
//! What it should answer, and every word that it should leave in lent memory, comes from the plain checker and from
//! docs/LAYOUT.md, and what a float operation gives from the processor too; nothing here was copied from the loader's own output.

pub mod compare;
pub mod expected;
pub mod floats;
pub mod guarded;
pub mod memory;
pub mod painted;
pub mod raw;
pub mod requests;
pub mod tally;
