//! The monitor in plain Rust on the tables of a pass, and the check of 9 in plain Rust on
//! the same tables as they are lent.

use crate::buffers::Buffers;
use crate::passes::Pass;
use crate::plain::monitor::Monitor;
use crate::plain::rules::break_no_rule;
use crate::rounds::{failed, hidden};
use std::cell::RefCell;
use std::io;

pub struct PlainSide {
    monitor: RefCell<Monitor>,
    lent: Buffers,
}

impl PlainSide {
    /// Its answers are held to the second program's.
    pub fn of(pass: &Pass) -> io::Result<PlainSide> {
        let monitor = Monitor::of(&pass.state);
        let other = || failed("plain Rust has a memory of another size".to_string());
        let plain = PlainSide {
            monitor: RefCell::new(monitor.ok_or_else(other)?),
            lent: Buffers::from(&pass.state),
        };
        pass.hold(|frame, answer| plain.put(frame, answer))?;
        Ok(plain)
    }

    /// One request.
    pub fn put(&self, frame: &[u8], answer: &mut [u8]) -> usize {
        self.monitor.borrow_mut().answer(frame, answer)
    }

    /// Whether the tables break no rule.
    pub fn check(&self) -> bool {
        break_no_rule(hidden(&self.lent))
    }

    /// One request behind the check.
    pub fn put_checked(&self, frame: &[u8], answer: &mut [u8]) -> usize {
        match self.check() {
            true => self.put(frame, answer),
            false => 0,
        }
    }
}
