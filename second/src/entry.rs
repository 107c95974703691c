//! The single-request entry over lent places and a lent answer buffer, and the start
//! and the clearing over the same places, whatever they hold.
//! Document 01, section "Refusal numbers": 10, then 9, then the step. "It is put
//! at the front of the lent buffer ...; the rest of the buffer stays."

use crate::answers::{bytes, refuse, Answer, Refusal};
use crate::authority::{Link, TagLink};
use crate::memory::Pair;
use crate::monitor::{self, step};
use crate::places::Places;
use crate::rules::broken;
use crate::things::{MAX_MEMORY, MIN_BUFFER};

/// The fresh tables. "Unused places are zero", as many as are lent.
pub fn start(places: &mut Places, memory_size: usize) -> Result<(), Refusal> {
    let (state, started) = monitor::start(memory_size);
    let mut fresh = Places::from(&state);
    let links = places.principal_links.len();
    fresh.principal_links.resize(links, Link::default());
    let tag_links = places.tag_links.len();
    fresh.tag_links.resize(tag_links, TagLink::default());
    fresh.messages.resize(places.messages.len(), 0);
    *places = fresh;
    started
}

/// "The host may clear the memory between requests; this leaves the counters." No
/// rule is tested, and every place of a pair is unused then.
pub fn clear(places: &mut Places) {
    places.memory.held = 0;
    places.memory.pairs = [Pair::default(); MAX_MEMORY];
}

pub fn entry(places: &mut Places, frame: &[u8], buffer: &mut [u8]) -> Answer {
    refuse(Refusal::ShortBuffer, buffer.len() < MIN_BUFFER)?;
    let answer = answer(places, frame);
    let bytes = bytes(&answer);
    buffer[..bytes.len()].copy_from_slice(&bytes);
    answer
}

fn answer(places: &mut Places, frame: &[u8]) -> Answer {
    refuse(Refusal::BrokenTables, broken(places).is_some())?;
    let mut state = places.state().expect("no rule is broken");
    let answer = step(&mut state, frame);
    *places = Places::from(&state);
    answer
}
