//! Kinds 12 to 1B: cells, queues and locks, and messages out and in. "A message is 0 to 32
//! bytes"; a longer one is refused 1.

use crate::answers::Refusal;
use crate::kinds;
use crate::monitor::Monitor;
use crate::things::{Label, Object, ObjectKind, Thread};

/// Cells, queues and locks, and messages out and in.
///
/// ```
/// # use suvdorkhun::{Label, Monitor, ObjectKind, Refusal, Thread};
/// # let mut monitor = Monitor::new(8)?;
/// # let office = Thread::FIRST;
/// let tag = monitor.new_tag(office)?;
/// let cell = monitor.new_object(office, ObjectKind::Cell, Label::from(tag), Label::EMPTY)?;
///
/// // The cell's secrecy is not within that of a thread without the tag.
/// assert_eq!(monitor.read_cell(office, cell), Err(Refusal::Flow));
/// monitor.into_secrecy(office, tag)?;
/// monitor.write_cell(office, cell, b"1100 m")?;
/// assert_eq!(monitor.read_cell(office, cell)?, b"1100 m");
/// # Ok::<(), Refusal>(())
/// ```
impl Monitor {
    /// 12: a new object, "empty or unlocked". "null and i within I; 64 objects 7".
    pub fn new_object(
        &mut self,
        by: Thread,
        kind: ObjectKind,
        s: Label,
        i: Label,
    ) -> Result<Object, Refusal> {
        // "Labels are 8 bytes, most significant first."
        let (s, i) = (s.bits().to_be_bytes(), i.bits().to_be_bytes());
        let operands = [&[kind as u8][..], &s, &i].concat();
        self.value(by, kinds::NEW_OBJECT, &operands).map(Object)
    }

    /// 13: the object is gone and its number free. "null and I = i".
    pub fn delete(&mut self, by: Thread, o: Object) -> Result<(), Refusal> {
        self.done(by, kinds::DELETE, &[o.0])
    }

    /// 14: the cell's message. "read".
    pub fn read_cell(&mut self, by: Thread, o: Object) -> Result<Vec<u8>, Refusal> {
        self.message(by, kinds::READ_CELL, &[o.0])
    }

    /// 15: the cell's message is replaced. "write".
    pub fn write_cell(&mut self, by: Thread, o: Object, message: &[u8]) -> Result<(), Refusal> {
        self.done(by, kinds::WRITE_CELL, &object_and(o, message))
    }

    /// 16: appended to the queue. "write; 8 held 7".
    pub fn put(&mut self, by: Thread, o: Object, message: &[u8]) -> Result<(), Refusal> {
        self.done(by, kinds::PUT, &object_and(o, message))
    }

    /// 17: the queue's first message, which is removed. "both; empty 8".
    pub fn get(&mut self, by: Thread, o: Object) -> Result<Vec<u8>, Refusal> {
        self.message(by, kinds::GET, &[o.0])
    }

    /// 18: the lock is held. "both; held 8".
    pub fn lock(&mut self, by: Thread, o: Object) -> Result<(), Refusal> {
        self.done(by, kinds::LOCK, &[o.0])
    }

    /// 19: the lock is unlocked; "done either way". "write".
    pub fn unlock(&mut self, by: Thread, o: Object) -> Result<(), Refusal> {
        self.done(by, kinds::UNLOCK, &[o.0])
    }

    /// 1A: the message may go out. "null".
    pub fn send_out(&mut self, by: Thread, message: &[u8]) -> Result<Vec<u8>, Refusal> {
        self.message(by, kinds::SEND_OUT, &operand(message))
    }

    /// 1B: the message may come in. "I empty".
    pub fn bring_in(&mut self, by: Thread, message: &[u8]) -> Result<Vec<u8>, Refusal> {
        self.message(by, kinds::BRING_IN, &operand(message))
    }
}

/// "A message operand is a length byte and that many bytes." Where a message is longer than
/// a length byte can say, 255 is as wrong as any, and refused 1 like every length over 32.
fn operand(message: &[u8]) -> Vec<u8> {
    let length = u8::try_from(message.len()).unwrap_or(u8::MAX);
    [&[length][..], message].concat()
}

fn object_and(o: Object, message: &[u8]) -> Vec<u8> {
    [&[o.0][..], &operand(message)].concat()
}
