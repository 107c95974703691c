//! What needs no proved function: plain Rust, the forms in which tables pass, the times
//! of line programs, and the report of a benchmark. Both programs take it from here, and
//! only `bench` links the proved functions.

#[cfg(feature = "proved")]
pub mod buffers;
pub mod line_programs;
pub mod plain;
pub mod questions;
pub mod report;
