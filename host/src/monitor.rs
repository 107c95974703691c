//! A monitor that owns its tables: the state, 256 places a list, the store and the answer
//! buffer. From the fresh state no request leads to tables that break a rule (proved), and
//! nothing else changes them here, so it never gives 9; nor 10, since the buffer has 34
//! bytes.

use crate::answers::{Answer, Refusal};
use crate::kinds;
use crate::lend::{self, PrincipalLink, State, TagLink};

/// The monitor with its tables. Its functions for the kinds of request are named after 01's
/// table; the first argument is the thread that asks.
#[derive(Clone, Debug)]
pub struct Monitor {
    state: Box<State>,
    links: Vec<PrincipalLink>,
    grants: Vec<TagLink>,
    store: Vec<u8>,
    answer: [u8; lend::ANSWER],
}

impl Monitor {
    /// The fresh state, which remembers at most so many answers. "a memory size over 64" is
    /// refused 11. The size makes it faster or slower and changes no answer (proved).
    pub fn new(memory: usize) -> Result<Monitor, Refusal> {
        let mut state = Box::new(State::zero());
        let mut links = vec![PrincipalLink::default(); lend::LINKS];
        let mut grants = vec![TagLink::default(); lend::LINKS];
        let mut store = vec![0; lend::STORE];
        let status = lend::start(&mut state, &mut links, &mut grants, &mut store, memory);
        Refusal::check(status)?;
        Ok(Monitor {
            state,
            links,
            grants,
            store,
            answer: [0; lend::ANSWER],
        })
    }

    /// One request, as a frame of any bytes: "thread byte, kind byte, operands".
    ///
    /// ```
    /// use suvdorkhun::{Answer, Monitor, Refusal};
    ///
    /// let mut monitor = Monitor::new(8)?;
    /// assert_eq!(monitor.request(&[0x00, 0x01]), Answer::Value(2));
    /// assert_eq!(monitor.request(&[0x00]), Answer::Refused(Refusal::Malformed));
    /// # Ok::<(), Refusal>(())
    /// ```
    pub fn request(&mut self, frame: &[u8]) -> Answer {
        let gives_message = frame.get(1).copied().map_or(false, kinds::answers_message);
        match self.told(frame) {
            Err(refusal) => Answer::Refused(refusal),
            Ok([]) => Answer::Done,
            Ok([_, message @ ..]) if gives_message => Answer::Message(message.to_vec()),
            Ok([value, ..]) => Answer::Value(*value),
        }
    }

    /// What follows the status byte of an answer: nothing, "the value byte, or for a message
    /// its length and bytes".
    pub(crate) fn told(&mut self, frame: &[u8]) -> Result<&[u8], Refusal> {
        let reply = lend::request(
            &mut self.state,
            &mut self.links,
            &mut self.grants,
            &mut self.store,
            frame,
            &mut self.answer,
        );
        Refusal::check(reply.status)?;
        Ok(&self.answer[1..reply.written])
    }

    /// Forgets the remembered answers. It changes no answer to come (proved), and the two
    /// counters stay.
    pub fn clear(&mut self) {
        lend::clear(&mut self.state);
    }

    /// How often authority for a tag was asked for: by 06, 09, 0B and 0C.
    pub fn questions(&self) -> u32 {
        self.state.memory.questions
    }

    /// How many of the questions the memory answered.
    pub fn hits(&self) -> u32 {
        self.state.memory.hits
    }

    /// All tables but the lists and the store, to read.
    pub fn state(&self) -> &State {
        &self.state
    }

    /// The principal links that stand, "in order of acceptance".
    pub fn links(&self) -> &[PrincipalLink] {
        &self.links[..self.state.tables.links]
    }

    /// The tag links that are recorded, "in order of acceptance".
    pub fn grants(&self) -> &[TagLink] {
        &self.grants[..self.state.tables.grants]
    }
}
