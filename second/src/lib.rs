//! The second program: the monitor of document 01 in plain Rust, written from
//! the paper alone, so that the proved monitor can be compared with it.
//! One file a concept; each names the section of document 01 that it renders.

pub mod answers;
pub mod authority;
pub mod command;
pub mod compare;
pub mod coverage;
pub mod entry;
pub mod flow;
pub mod generate;
pub mod kinds;
pub mod lines;
pub mod memory;
pub mod monitor;
pub mod places;
pub mod requests;
mod rows;
pub mod rules;
pub mod state;
pub mod things;
