//! The sizes of document 01, as document 02 amends them, each named once.

/// Of the library, the add-on's section and a body, each.
pub const INPUT_BYTES: usize = 32_768;
/// In the library and the add-on's section together.
pub const TYPES: usize = 1_024;
/// Fields of a struct, parameters or results of a function, each.
pub const ENTRIES: usize = 64;
pub const CHAIN_STEPS: usize = 63;
/// Parameters included.
pub const LOCALS: u64 = 256;
/// In all frames together, after an instruction.
pub const OPERANDS: usize = 512;
/// The function's own frame counted.
pub const FRAMES: usize = 64;
pub const BUDGET: u64 = 1_000_000;
pub const OBJECTS: usize = 1_024;
pub const CELLS: usize = 4_096;
