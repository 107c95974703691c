//! Lists of requests that are put to the proved library again and again. A pass of such a
//! list leaves the tables as they were: it undoes what it changes, and the two counters
//! stand at their end, where they stay. So each pass finds the same tables and is
//! answered the same.
//! A frame of no bytes is refused 1 right behind the check of 9, which is all that a
//! request does then: it gives the time of the check, and what is left of a request's
//! time is the rest.

use crate::buffers::Buffers;
use crate::rounds::{failed, time, Work};
use bench::report::{Measured, Row, Time};
use second::answers::{bytes, Refusal};
use second::monitor::step;
use second::state::State;
use second::things::MIN_BUFFER;
use std::cell::RefCell;
use std::io;
use suvdorkhun::lend::{self, Reply};

pub type Frame = Vec<u8>;

pub struct Pass {
    title: String,
    /// The tables before each pass.
    pub state: State,
    lent: RefCell<Buffers>,
    frames: Vec<Frame>,
    /// What the second program answers.
    answers: Vec<Vec<u8>>,
}

impl Pass {
    /// The memory is settled by a first pass. The proved library is held to the second
    /// program's answers, and both leave the tables as they were.
    pub fn new(title: String, tables: State, frames: Vec<Frame>) -> io::Result<Pass> {
        let mut state = tables;
        second(&mut state, &frames);
        let mut after = state.clone();
        let pass = Pass {
            title,
            answers: second(&mut after, &frames),
            lent: RefCell::new(Buffers::from(&state)),
            state,
            frames,
        };
        let stay = after == pass.state;
        pass.same(stay, "the second program does not leave the tables")?;
        pass.hold(|frame, answer| pass.put(frame, answer))?;
        let stay = *pass.lent.borrow() == Buffers::from(&pass.state);
        pass.same(stay, "the proved library does not leave the tables")?;
        Ok(pass)
    }

    /// Answers are the second program's, or the error tells the first that is not.
    pub fn hold(&self, mut put: impl FnMut(&[u8], &mut [u8]) -> usize) -> io::Result<()> {
        for (frame, right) in self.frames.iter().zip(&self.answers) {
            let mut answer = [0; MIN_BUFFER];
            let written = put(frame, &mut answer);
            let difference = format!("{:02X?}: {:02X?} is right", frame, right);
            self.same(&answer[..written] == right, &difference)?;
        }
        Ok(())
    }

    fn same(&self, same: bool, difference: &str) -> io::Result<()> {
        if same {
            return Ok(());
        }
        Err(failed(format!("{}: {}", self.title, difference)))
    }

    /// One request to the proved library.
    fn put(&self, frame: &[u8], answer: &mut [u8]) -> usize {
        request(&mut self.lent.borrow_mut(), frame, answer).written
    }

    /// A pass by the proved library.
    pub fn requests(&self) -> bool {
        self.by(|frame, answer| self.put(frame, answer))
    }

    /// The check of 9 alone, as often as there are requests.
    pub fn checks(&self) -> bool {
        let mut lent = self.lent.borrow_mut();
        self.as_often(|| refuses_no_bytes(&mut lent))
    }

    /// Anyone's check as often as there are requests.
    pub fn as_often(&self, mut check: impl FnMut() -> bool) -> bool {
        self.frames.iter().all(|_| check())
    }

    /// A pass by anyone: whether each answer is as long as it should be and begins so.
    pub fn by(&self, mut put: impl FnMut(&[u8], &mut [u8]) -> usize) -> bool {
        let mut answer = [0; MIN_BUFFER];
        let mut answers = self.frames.iter().zip(&self.answers);
        answers.all(|(frame, right)| {
            let written = put(frame, &mut answer);
            written == right.len() && answer[0] == right[0]
        })
    }

    /// One of the above as work to be measured.
    pub fn work<'a>(&'a self, all: &'a mut dyn FnMut() -> bool) -> Work<'a> {
        Work {
            title: &self.title,
            pieces: self.frames.len(),
            all,
        }
    }
}

/// The times of requests, of the check of 9 in them, and of the rest, which is behind it.
pub struct Split {
    whole: Measured,
    check: Measured,
    pub rest: Measured,
}

impl Split {
    pub fn of(requests: Vec<f64>, checks: Vec<f64>) -> Split {
        Split {
            rest: less(&requests, &checks),
            whole: time(requests),
            check: time(checks),
        }
    }

    /// The row of the rest is the last.
    pub fn rows(&self, name: &str) -> [Row; 3] {
        let row = |part, time: &Measured| {
            let name = format!("{}, {}", name, part);
            Row::new(&name, time.clone()).proved()
        };
        [
            row("whole", &self.whole),
            row("check of 9", &self.check),
            row("behind it", &self.rest),
        ]
    }
}

/// What is left of a time when another one is taken off, round by round.
pub fn less(whole: &[f64], part: &[f64]) -> Measured {
    let lost = || "it is lost in how the times spread".to_string();
    Time::less(whole, part).ok_or_else(lost)
}

/// A pass by the second program.
fn second(state: &mut State, frames: &[Frame]) -> Vec<Vec<u8>> {
    let answer = |frame: &Frame| bytes(&step(state, frame));
    frames.iter().map(answer).collect()
}

fn request(lent: &mut Buffers, frame: &[u8], answer: &mut [u8]) -> Reply {
    let Buffers {
        state,
        links,
        grants,
        store,
    } = lent;
    lend::request(state, links, grants, store, frame, answer)
}

/// Whether the tables break no rule, by a frame of no bytes.
pub fn refuses_no_bytes(lent: &mut Buffers) -> bool {
    request(lent, &[], &mut [0; MIN_BUFFER]).status == Refusal::Malformed as u8
}
