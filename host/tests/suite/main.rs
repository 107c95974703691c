//! The tests of the wrapper, one file a theme. What they expect is taken from document 01.

mod common;
mod header;
mod kinds;
mod layout;
mod lines;
mod memory;
mod refusals;
