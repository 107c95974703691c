//! What the tests share: a host that lends places and a buffer to the entry, and
//! frames and answers as digits.

use second::answers::bytes;
use second::coverage::lines_of;
use second::entry::entry;
use second::generate::{generate, nth};
use second::lines::{answer_line, frame_of_line, line_of_bytes};
use second::places::Places;
use second::state::{State, ThreadRow};
use second::things::*;

/// What the lent buffer holds before a request.
pub const BEFORE: u8 = 0xA5;

/// Digits to bytes; spaces are for the eye.
pub fn hex(digits: &str) -> Vec<u8> {
    let digits: Vec<u8> = digits.bytes().filter(|b| *b != b' ').collect();
    if digits.is_empty() {
        return Vec::new();
    }
    frame_of_any_length(&digits)
}

fn frame_of_any_length(digits: &[u8]) -> Vec<u8> {
    let value = |pair: &[u8]| frame_of_line(pair).expect("two digits")[0];
    digits.chunks(2).map(value).collect()
}

pub fn digits(bytes: &[u8]) -> String {
    String::from_utf8(line_of_bytes(bytes)).expect("digits")
}

/// A label of 8 bytes as an operand.
pub fn label(bits: u64) -> String {
    digits(&bits.to_be_bytes())
}

/// A host with its lent tables.
pub struct Host {
    pub places: Places,
}

impl Host {
    pub fn new(state: &State) -> Host {
        Host {
            places: Places::from(state),
        }
    }

    /// The fresh tables with the line program's M.
    pub fn fresh() -> Host {
        Host::new(&State::fresh(LINE_MEMORY))
    }

    pub fn with_memory(size: usize) -> Host {
        Host::new(&State::fresh(size))
    }

    /// The fresh tables after some requests, all of them done.
    pub fn after(frames: &[&str]) -> Host {
        let mut host = Host::fresh();
        host.done(frames);
        host
    }

    /// One request through the entry. The rest of the buffer has to stay.
    #[track_caller]
    pub fn ask(&mut self, frame: &str) -> String {
        let mut buffer = [BEFORE; 40];
        let answer = bytes(&entry(&mut self.places, &hex(frame), &mut buffer));
        let (front, rest) = buffer.split_at(answer.len());
        assert_eq!(front, answer);
        assert!(rest.iter().all(|byte| *byte == BEFORE));
        digits(&answer)
    }

    #[track_caller]
    pub fn expect(&mut self, exchanges: &[(&str, &str)]) {
        for (frame, answer) in exchanges {
            assert_eq!(self.ask(frame), *answer, "answer to {}", frame);
        }
    }

    #[track_caller]
    pub fn done(&mut self, frames: &[&str]) {
        for frame in frames {
            let answer = self.ask(frame);
            assert!(answer.starts_with("00"), "{} to {}", answer, frame);
        }
    }

    pub fn state(&self) -> State {
        self.places.state().expect("no rule is broken")
    }

    /// Changes the tables outside of any request.
    pub fn edit(&mut self, change: impl FnOnce(&mut State)) {
        let mut state = self.state();
        change(&mut state);
        self.places = Places::from(&state);
    }

    /// Questions and hits.
    pub fn counters(&self) -> (u32, u32) {
        (self.places.memory.questions, self.places.memory.hits)
    }

    /// The held pairs, latest first.
    pub fn pairs(&self) -> Vec<(u8, u8)> {
        let pairs = self.state().memory.pairs;
        pairs.iter().map(|(p, t)| (p.0, t.0)).collect()
    }

    pub fn thread(&self, t: u8) -> ThreadRow {
        self.state().threads[&Thread(t)].clone()
    }

    /// Makes a thread the public's, as no request from the fresh state can.
    pub fn make_public(&mut self, t: u8) {
        self.edit(|state| {
            let thread = state.threads.get_mut(&Thread(t)).expect("live");
            thread.principal = PUBLIC;
        });
    }
}

/// Two states alike in all tables but the memory and its counters.
pub fn same_but_memory(one: &State, other: &State) -> bool {
    one.authority == other.authority && one.threads == other.threads && one.objects == other.objects
}

/// Generated lists, all profiles in turn.
pub fn lists(count: u64, seed: u64) -> impl Iterator<Item = Vec<u8>> {
    (0..count).map(move |n| {
        let (seed, profile) = nth(n, seed);
        generate(seed, profile)
    })
}

/// Where a list leads from the fresh state.
pub fn led_to(list: &[u8]) -> State {
    let mut state = State::fresh(LINE_MEMORY);
    for line in lines_of(list) {
        let _ = answer_line(&mut state, line);
    }
    state
}
