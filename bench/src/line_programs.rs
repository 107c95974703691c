//! Line programs on one long list, side by side: the list, and the times that programs
//! take for it.

mod list;
mod turns;

pub use list::{long, Long, LINES, SEED};
pub use turns::{by_turns, Found, Program, ROUNDS};
