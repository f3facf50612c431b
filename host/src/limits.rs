//! The sizes of document 01, of types as document 02 has them. What goes beyond one of them is refusal 4, or trap 45 for objects and cells.

/// Bytes of a section: the library and the add-on's, each.
pub const SECTION_BYTES: usize = 32_768;
/// Bytes of a body.
pub const BODY_BYTES: usize = 32_768;
/// Types of the library and the add-on's section together.
pub const TYPES: usize = 1_024;
/// Fields of a struct, parameters of a function, and results of a function, each.
pub const FIELDS: usize = 64;
/// Steps from a type up its chain of supertypes, through both sections.
pub const CHAIN: usize = 63;
/// Locals of a body, its parameters among them.
pub const LOCALS: usize = 256;
/// Operands of all frames after an instruction.
pub const OPERANDS: usize = 512;
/// Frames: open blocks and loops, and the function's own.
pub const FRAMES: usize = 64;
/// Steps of a trial run.
pub const BUDGET: u64 = 1_000_000;
/// Objects that a run can make.
pub const OBJECTS: usize = 1_024;
/// Cells of a run's heap, one for each field of each object.
pub const CELLS: usize = 4_096;
