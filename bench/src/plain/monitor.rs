//! The monitor of document 01 in plain safe Rust, written for speed and from the
//! paper: what the proved line program and single requests are measured against, and a
//! third opinion. There is no check of 9. Tables lie in place, a request allocates
//! nothing, and unused places are zero.

mod authority;
mod frame;
mod leaves;
mod memory;
mod objects;
mod tables;
mod threads;

pub use frame::{Frame, Message, LONGEST};
pub use memory::Memory;

use authority::Authority;
use objects::Objects;
use std::slice;
use threads::Thread;

const THREADS: usize = 16;

/// Section "Refusal numbers": those that can come without the check of 9 and with a
/// buffer of one's own.
#[derive(Clone, Copy, Debug, PartialEq, Eq)]
pub enum Refusal {
    Malformed = 1,
    NotLive = 2,
    NamesNothing = 3,
    Flow = 4,
    Authority = 5,
    Cycle = 6,
    Full = 7,
    EmptyOrHeld = 8,
}

#[derive(Clone, Copy, Debug, PartialEq, Eq)]
pub enum Done {
    Nothing,
    Number(u8),
    Message(Message),
}

pub type Answer = Result<Done, Refusal>;

const DONE: u8 = 0;

/// The status byte of an answer, and the bytes behind it.
pub fn parts(answer: &Answer) -> (u8, &[u8]) {
    match answer {
        Ok(Done::Nothing) => (DONE, &[]),
        Ok(Done::Number(number)) => (DONE, slice::from_ref(number)),
        Ok(Done::Message(message)) => (DONE, &message[..=usize::from(message[0])]),
        Err(refusal) => (*refusal as u8, &[]),
    }
}

fn refuse(refusal: Refusal, when: bool) -> Result<(), Refusal> {
    if when {
        Err(refusal)
    } else {
        Ok(())
    }
}

pub struct Monitor {
    authority: Authority,
    pub memory: Memory,
    threads: [Thread; THREADS],
    objects: Objects,
}

impl Monitor {
    /// "principals 0 and 1, no links, tags or objects; thread 0 live, principal 1,
    /// empty labels"
    pub fn fresh() -> Monitor {
        let mut threads = [Thread::default(); THREADS];
        threads[0] = Thread::of_the_office();
        Monitor {
            authority: Authority::fresh(),
            memory: Memory::default(),
            threads,
            objects: Objects::none(),
        }
    }

    /// A frame of any bytes. The answer is put at the front of a buffer that has room for
    /// it; says how many bytes it has.
    pub fn answer(&mut self, frame: &[u8], buffer: &mut [u8]) -> usize {
        let read = Frame::read(frame).ok_or(Refusal::Malformed);
        let answer = read.and_then(|frame| self.request(&frame));
        let (status, rest) = parts(&answer);
        buffer[0] = status;
        buffer[1..][..rest.len()].copy_from_slice(rest);
        1 + rest.len()
    }

    /// The order of checks: 1 and 2 here, 3 and 4 and the rest in the kind's row.
    pub fn request(&mut self, frame: &Frame) -> Answer {
        refuse(Refusal::Malformed, !frame.well_formed())?;
        let t = frame.thread();
        let live = self.threads.get(t).map_or(false, |thread| thread.live);
        refuse(Refusal::NotLive, !live)?;
        self.row(t, frame)
    }

    fn row(&mut self, t: usize, frame: &Frame) -> Answer {
        let [a, b, c] = frame.operands();
        match frame.kind() {
            0x01 => self.new_principal(t),
            0x02 => self.delegate(t, a, b),
            0x03 => self.revoke(t, a, b),
            0x04 => self.acts_for(a, b),
            0x05 => self.new_tag(t),
            0x06 => self.new_subtag(t, a),
            0x07 => self.grant(t, a, b, c),
            0x08 => self.ungrant(t, a, b, c),
            0x09 => self.authoritative(t, a),
            0x0A => self.add_secrecy(t, a),
            0x0B => self.remove_secrecy(t, a),
            0x0C => self.add_integrity(t, a),
            0x0D => self.remove_integrity(t, a),
            0x0E => self.fork(t, a),
            0x0F => self.end(t),
            0x10 => self.call(t, a),
            0x11 => self.go_back(t),
            0x12 => self.new_object(t, a, frame.labels()),
            0x13 => self.delete(t, a),
            0x14 => self.read_cell(t, a),
            0x15 => self.write_cell(t, a, frame.message_for_object()),
            0x16 => self.put(t, a, frame.message_for_object()),
            0x17 => self.get(t, a),
            0x18 => self.lock(t, a),
            0x19 => self.unlock(t, a),
            0x1A => self.send_out(t, frame.message()),
            _ => self.bring_in(t, frame.message()),
        }
    }

    /// The principal that thread t runs as.
    fn caller(&self, t: usize) -> u8 {
        self.threads[t].principal
    }

    /// "Null" means S is empty.
    fn null(&self, t: usize) -> Result<(), Refusal> {
        refuse(Refusal::Flow, self.threads[t].secrecy != 0)
    }

    fn principal_named(&self, p: u8) -> Result<(), Refusal> {
        refuse(Refusal::NamesNothing, !self.authority.made_principal(p))
    }

    fn tag_named(&self, t: u8) -> Result<(), Refusal> {
        refuse(Refusal::NamesNothing, !self.authority.made_tag(t))
    }
}
