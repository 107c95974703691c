//! A function of the monitor for each of the 27 kinds of request. 01, section "Requests":
//! the files have its rows in order, and each function's words are the row's "needs, and
//! refusals in order", where P, Q, T and O are its arguments. Refusals 2, and 3 where an
//! argument names nothing, stand before. "Null" means that the thread's secrecy is empty.

mod authority;
mod objects;
mod threads;

use crate::answers::Refusal;
use crate::monitor::Monitor;
use crate::things::Thread;

impl Monitor {
    /// "A frame is thread byte, kind byte, operands."
    fn ask(&mut self, by: Thread, kind: u8, operands: &[u8]) -> Result<&[u8], Refusal> {
        let frame = [&[by.0, kind][..], operands].concat();
        self.told(&frame)
    }

    fn done(&mut self, by: Thread, kind: u8, operands: &[u8]) -> Result<(), Refusal> {
        self.ask(by, kind, operands).map(|_| ())
    }

    fn value(&mut self, by: Thread, kind: u8, operands: &[u8]) -> Result<u8, Refusal> {
        self.ask(by, kind, operands).map(|told| told[0])
    }

    /// "01 if .., else 00"
    fn yes(&mut self, by: Thread, kind: u8, operands: &[u8]) -> Result<bool, Refusal> {
        self.value(by, kind, operands).map(|value| value == 1)
    }

    /// "for a message its length and bytes"
    fn message(&mut self, by: Thread, kind: u8, operands: &[u8]) -> Result<Vec<u8>, Refusal> {
        self.ask(by, kind, operands).map(|told| told[1..].to_vec())
    }
}
