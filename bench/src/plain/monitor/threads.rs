//! The threads, and the rows 0A to 11 of document 01, section "Requests": labels,
//! fork and end, call and return.

use super::authority::OFFICE;
use super::{refuse, Answer, Done, Monitor, Refusal};

const PUT_ASIDE: usize = 8;

#[derive(Clone, Copy, Default)]
pub struct Thread {
    pub live: bool,
    pub principal: u8,
    /// How many are put aside, and who; the last one last.
    pub calls: u8,
    pub aside: [u8; PUT_ASIDE],
    pub secrecy: u64,
    pub integrity: u64,
}

impl Thread {
    pub fn of_the_office() -> Thread {
        Thread {
            live: true,
            principal: OFFICE,
            ..Thread::default()
        }
    }
}

impl Monitor {
    pub fn add_secrecy(&mut self, t: usize, tag: u8) -> Answer {
        self.tag_named(tag)?;
        self.threads[t].secrecy |= 1 << tag;
        Ok(Done::Nothing)
    }

    pub fn remove_integrity(&mut self, t: usize, tag: u8) -> Answer {
        self.tag_named(tag)?;
        self.threads[t].integrity &= !(1 << tag);
        Ok(Done::Nothing)
    }

    pub fn remove_secrecy(&mut self, t: usize, tag: u8) -> Answer {
        self.tag_named(tag)?;
        if self.threads[t].secrecy >> tag & 1 == 1 {
            refuse(Refusal::Authority, !self.question(t, tag))?;
            self.threads[t].secrecy &= !(1 << tag);
        }
        Ok(Done::Nothing)
    }

    pub fn add_integrity(&mut self, t: usize, tag: u8) -> Answer {
        self.tag_named(tag)?;
        if self.threads[t].integrity >> tag & 1 == 0 {
            refuse(Refusal::Authority, !self.question(t, tag))?;
            self.threads[t].integrity |= 1 << tag;
        }
        Ok(Done::Nothing)
    }

    pub fn fork(&mut self, t: usize, p: u8) -> Answer {
        self.principal_named(p)?;
        self.null(t)?;
        self.caller_acts_for(t, p)?;
        let free = self.threads.iter().position(|thread| !thread.live);
        let new = free.ok_or(Refusal::Full)?;
        self.threads[new] = Thread {
            principal: p,
            calls: 0,
            aside: [0; PUT_ASIDE],
            ..self.threads[t]
        };
        Ok(Done::Number(new as u8))
    }

    pub fn end(&mut self, t: usize) -> Answer {
        self.null(t)?;
        self.threads[t] = Thread::default();
        Ok(Done::Nothing)
    }

    pub fn call(&mut self, t: usize, p: u8) -> Answer {
        self.principal_named(p)?;
        self.caller_acts_for(t, p)?;
        let thread = &mut self.threads[t];
        let place = thread.aside.get_mut(usize::from(thread.calls));
        *place.ok_or(Refusal::Full)? = thread.principal;
        thread.calls += 1;
        thread.principal = p;
        Ok(Done::Nothing)
    }

    /// 11, return: "last one put aside is back; labels stay".
    pub fn go_back(&mut self, t: usize) -> Answer {
        let thread = &mut self.threads[t];
        refuse(Refusal::EmptyOrHeld, thread.calls == 0)?;
        thread.calls -= 1;
        let last = &mut thread.aside[usize::from(thread.calls)];
        thread.principal = std::mem::take(last);
        Ok(Done::Nothing)
    }
}
