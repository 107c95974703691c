//! One call of the proved library and of the second program, both with the same lent.
//! What it gives back and what it leaves are compared: the status, the number of bytes
//! written, every byte of the answer buffer and of the store, every record of both lists
//! and every field of the state. Beside what is lent nothing may be written.

mod guarded;

use crate::buffers::raw::{PrincipalLink, TagLink};
use crate::buffers::Buffers;
use guarded::Guarded;
use second::answers::{bytes, status, DONE};
use second::entry;
use second::rules::all_broken;
use std::fmt;
use suvdorkhun::lend;

pub enum Call {
    Start { size: usize },
    Clear,
    Request { frame: Vec<u8>, answer: Vec<u8> },
}

impl fmt::Display for Call {
    fn fmt(&self, f: &mut fmt::Formatter) -> fmt::Result {
        match self {
            Call::Start { size } => write!(f, "start with size {}", size),
            Call::Clear => write!(f, "clear"),
            Call::Request { frame, answer } => {
                let room = answer.len();
                let (frame, answer) = (Digits(frame), Digits(answer));
                write!(f, "request {} with a buffer of {}: {}", frame, room, answer)
            }
        }
    }
}

struct Digits<'a>(&'a [u8]);

impl fmt::Display for Digits<'_> {
    fn fmt(&self, f: &mut fmt::Formatter) -> fmt::Result {
        self.0.iter().try_for_each(|byte| write!(f, "{:02X}", byte))
    }
}

/// What a call gives back, and what it leaves.
#[derive(PartialEq, Eq)]
pub struct After {
    pub status: u8,
    pub written: usize,
    pub answer: Vec<u8>,
    pub lent: Buffers,
    /// Whether nothing was written beside the buffers.
    pub kept: bool,
}

impl fmt::Display for After {
    fn fmt(&self, f: &mut fmt::Formatter) -> fmt::Result {
        let answer = Digits(&self.answer);
        write!(f, "{}, {} written: {}", self.status, self.written, answer)?;
        write!(f, "{}", if self.kept { "" } else { ", and beside it" })
    }
}

impl Call {
    /// What both give back and leave, or words for where they differ.
    pub fn compared(&self, before: &Buffers) -> Result<After, String> {
        let proved = self.by(before, call_proved);
        let second = self.by(before, call_second);
        if proved == second {
            return Ok(proved);
        }
        Err([
            format!("{}", self),
            format!("proved: {}", proved),
            format!("second: {}", second),
            format!("rules broken: {:?}", all_broken(&before.places())),
            format!("left unlike: {:?}", proved.lent.differences(&second.lent)),
            format!("lent: {:?}", before),
        ]
        .join("\n"))
    }

    fn by(&self, before: &Buffers, call: fn(&Call, &mut After)) -> After {
        let answer = match self {
            Call::Request { answer, .. } => answer.clone(),
            Call::Start { .. } | Call::Clear => Vec::new(),
        };
        let mut after = After {
            status: DONE,
            written: 0,
            answer,
            lent: before.clone(),
            kept: true,
        };
        call(self, &mut after);
        after
    }
}

const GUARD: u8 = 0xA5;

const GUARD_LINK: PrincipalLink = PrincipalLink {
    from: GUARD,
    to: GUARD,
};

const GUARD_GRANT: TagLink = TagLink {
    tag: GUARD,
    from: GUARD,
    to: GUARD,
};

fn call_proved(call: &Call, after: &mut After) {
    let lent = &mut after.lent;
    let mut links = Guarded::new(&lent.links, GUARD_LINK);
    let mut grants = Guarded::new(&lent.grants, GUARD_GRANT);
    let mut store = Guarded::new(&lent.store, GUARD);
    let mut answer = Guarded::new(&after.answer, GUARD);
    let (state, l, g, s) = (&mut lent.state, links.lent(), grants.lent(), store.lent());
    match call {
        Call::Start { size } => after.status = lend::start(state, l, g, s, *size),
        Call::Clear => lend::clear(state),
        Call::Request { frame, .. } => {
            let reply = lend::request(state, l, g, s, frame, answer.lent());
            after.status = reply.status;
            after.written = reply.written;
        }
    }
    let mut kept = [true; 4];
    (lent.links, kept[0]) = links.back();
    (lent.grants, kept[1]) = grants.back();
    (lent.store, kept[2]) = store.back();
    (after.answer, kept[3]) = answer.back();
    after.kept = kept == [true; 4];
}

fn call_second(call: &Call, after: &mut After) {
    let before = after.lent.places();
    let mut places = before.clone();
    match call {
        Call::Start { size } => {
            let started = entry::start(&mut places, *size);
            after.status = started.map_or_else(|refusal| refusal as u8, |()| DONE);
        }
        Call::Clear => entry::clear(&mut places),
        Call::Request { frame, .. } => {
            let answer = entry::entry(&mut places, frame, &mut after.answer);
            after.status = status(&answer);
            after.written = bytes(&answer).len();
        }
    }
    // Places that stay are the buffers that were lent, pairs of 65536 and more too.
    if places != before {
        after.lent = Buffers::from(&places);
    }
}
