//! Kinds 0A to 11: a thread's labels, forks and calls.

use crate::answers::Refusal;
use crate::kinds;
use crate::monitor::Monitor;
use crate::things::{Principal, Tag, Thread};

/// Labels of the thread that asks, forks and calls.
impl Monitor {
    /// 0A: T into the thread's secrecy. Anyone may.
    pub fn into_secrecy(&mut self, by: Thread, t: Tag) -> Result<(), Refusal> {
        self.done(by, kinds::INTO_SECRECY, &[t.0])
    }

    /// 0B: T out of the thread's secrecy. "T already out of S: done; not authoritative 5".
    pub fn out_of_secrecy(&mut self, by: Thread, t: Tag) -> Result<(), Refusal> {
        self.done(by, kinds::OUT_OF_SECRECY, &[t.0])
    }

    /// 0C: T into the thread's integrity. "T already in I: done; not authoritative 5".
    pub fn into_integrity(&mut self, by: Thread, t: Tag) -> Result<(), Refusal> {
        self.done(by, kinds::INTO_INTEGRITY, &[t.0])
    }

    /// 0D: T out of the thread's integrity. Anyone may.
    pub fn out_of_integrity(&mut self, by: Thread, t: Tag) -> Result<(), Refusal> {
        self.done(by, kinds::OUT_OF_INTEGRITY, &[t.0])
    }

    /// 0E: a new thread with the same labels that runs as P. "null; caller does not act for
    /// P 5; 16 threads 7".
    pub fn fork(&mut self, by: Thread, p: Principal) -> Result<Thread, Refusal> {
        self.value(by, kinds::FORK, &[p.0]).map(Thread)
    }

    /// 0F: the thread ends and its number is free. "null".
    pub fn end(&mut self, by: Thread) -> Result<(), Refusal> {
        self.done(by, kinds::END, &[])
    }

    /// 10: the caller is put aside and the thread runs as P. "caller does not act for P 5; 8
    /// put aside 7".
    pub fn call(&mut self, by: Thread, p: Principal) -> Result<(), Refusal> {
        self.done(by, kinds::CALL, &[p.0])
    }

    /// 11, return: "last one put aside is back; labels stay". "none put aside 8".
    pub fn return_from_call(&mut self, by: Thread) -> Result<(), Refusal> {
        self.done(by, kinds::RETURN, &[])
    }
}
