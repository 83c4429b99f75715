//! The proved library beside a plain Rust implementation of the same papers, with one interface, so that the benchmark and the
//! differential run can put the same inputs through both.

pub mod better;
pub mod ours;
pub mod plain;
pub mod streams;

pub use sphairune::{Refused, Report, Totals};

/// Channels, dimmers, cues, groups, highest submaster; pages of cues, groups, submasters, patch.
pub type Limits = [u32; 9];

/// The longest stream, read or written.
pub const LONGEST: usize = 262_143;
