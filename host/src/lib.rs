//! The proved loader, called from Rust.
//!
//! [`Loader`] owns the memory that the loader is lent and gives answers as Rust values. [`calls`] has the calls
//! themselves, for a host that lends memory of its own. Everything is safe: any bytes, numbers and lengths may be handed
//! in. Arguments stand in one order everywhere: library, section, body, number, budget, memory. The library is the type
//! section that a fleet shares; who has none hands in [`EMPTY_LIBRARY`].
//!
//! The crate is `no_std`. What owns or hands out memory ([`Loader`], [`table`], [`state`]) needs an allocator and is the feature
//! `alloc`, which is on unless a host says `default-features = false`; [`calls`], [`limits`] and the refusals need none.
//!
//! ```
//! use chelbugan::{Loader, EMPTY_LIBRARY};
//!
//! let section = [0x01, 0x60, 0x00, 0x01, 0x7F]; // type 0: a function that gives an i32
//! let body = [0x00, 0x41, 0x07, 0x0B]; // no locals; i32.const 7, end
//! let mut loader = Loader::new();
//! assert_eq!(loader.judge_body(EMPTY_LIBRARY, &section, &body, 0)?, 2);
//! let run = loader.try_run(EMPTY_LIBRARY, &section, &body, 0, 1_000)?;
//! assert_eq!(run.ended.to_string(), "done after 2 steps, results: 1");
//! # Ok::<(), chelbugan::Refusal>(())
//! ```

#![cfg_attr(not(test), no_std)]
#![deny(missing_docs, missing_debug_implementations)]

#[cfg(feature = "alloc")]
extern crate alloc;

mod answer;
mod archive;
pub mod calls;
pub mod limits;
#[cfg(feature = "alloc")]
mod loader;
mod refusal;
#[cfg(feature = "alloc")]
pub mod state;
#[cfg(feature = "alloc")]
pub mod table;
#[cfg(feature = "alloc")]
mod value_types;

pub use calls::{Ended, EMPTY_LIBRARY};
#[cfg(feature = "alloc")]
pub use loader::{Loader, Run};
pub use refusal::{Input, Reason, Refusal, Trap};
#[cfg(feature = "alloc")]
pub use state::State;
#[cfg(feature = "alloc")]
pub use table::Table;
