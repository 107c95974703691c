//! The tests, one file a theme. What they expect comes from the words of
//! document 01, never from running the program.

mod agreement;
mod authority;
mod buffers;
mod case;
mod commands;
mod common;
mod coverage;
mod edges;
mod frames;
mod invariants;
mod leaves;
mod lines;
mod order;
mod remembered;
mod rules;
mod threads_and_objects;
