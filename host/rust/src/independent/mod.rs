//! Whole jobs over byte slices, written from the documents alone; and the lent
//! job over them, whose tables are laid out as docs/MEMORY.md says.

pub mod after;
pub mod back;
pub mod check;
pub mod closing;
pub mod job;
pub mod lent_job;
pub mod program;
pub mod sheet;
pub mod suite;
pub mod tables;
pub mod text;

pub use job::{check, probes, program, read_new, read_old, read_tests, record, sheet};

#[cfg(test)]
mod examples;
