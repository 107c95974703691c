//! The proved monitor for Rust programs: data and jobs carry labels, only standing
//! authority takes a label off, and a leave withdrawn counts at once.
//!
//! A [`Monitor`] owns the tables and has a function for each kind of request. A request
//! is answered, or refused by a [`Refusal`], which has a number and says in words why.
//!
//! ```
//! use suvdorkhun::{Monitor, Refusal, Thread};
//!
//! # fn main() -> Result<(), Refusal> {
//! let mut monitor = Monitor::new(8)?;
//! let office = Thread::FIRST;
//!
//! // An owner and a job that runs as her; a printer and a job of its own.
//! let owner = monitor.new_principal(office)?;
//! let printer = monitor.new_principal(office)?;
//! let hers = monitor.fork(office, owner)?;
//! let its = monitor.fork(office, printer)?;
//!
//! // She makes a tag. The printer's job carries it, so it may send nothing out.
//! let tag = monitor.new_tag(hers)?;
//! monitor.into_secrecy(its, tag)?;
//! assert_eq!(monitor.send_out(its, b"chart"), Err(Refusal::Flow));
//! assert_eq!(monitor.out_of_secrecy(its, tag), Err(Refusal::Authority));
//!
//! // With her leave it takes the tag off.
//! monitor.grant(hers, tag, owner, printer)?;
//! monitor.out_of_secrecy(its, tag)?;
//! assert_eq!(monitor.send_out(its, b"chart")?, b"chart");
//!
//! // She withdraws her leave, and it counts at once, whatever was remembered.
//! monitor.ungrant(hers, tag, owner, printer)?;
//! monitor.into_secrecy(its, tag)?;
//! assert_eq!(monitor.out_of_secrecy(its, tag), Err(Refusal::Authority));
//! # Ok(())
//! # }
//! ```
//!
//! [`Monitor::request`] takes a frame of any bytes, [`run`] a whole list of lines, and
//! [`lend`] the tables of a host that keeps its own. What is proved is the library: see
//! README.md for what that covers. "01" in these pages is the scope paper.

#![deny(unsafe_code)]
#![deny(missing_docs)]

pub mod kinds;
#[allow(unsafe_code)]
pub mod lend;
#[allow(missing_docs)]
pub mod raw;

mod answers;
mod lines;
mod monitor;
mod requests;
mod things;

pub use answers::{Answer, Refusal};
pub use lines::run;
pub use monitor::Monitor;
pub use things::{Label, Object, ObjectKind, Principal, Tag, Thread};
