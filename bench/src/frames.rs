//! Frames and answer buffers for a request to given tables: well-formed frames of every
//! kind with operands from what is there, frames that miss by a byte, and any bytes.

use crate::random::Random;
use second::generate;
use second::kinds;
use second::state::State;
use second::things::{Principal, Tag, MIN_BUFFER};

/// The longest answer buffer, and the longest of most frames of any bytes.
pub const LONGEST: usize = 40;

pub fn any_frame(random: &mut Random, state: &State) -> Vec<u8> {
    match random.below(16) {
        0 => any_bytes(random),
        1 => {
            let frame = well_formed(random, state);
            missed(random, frame)
        }
        2 => leave(random, state).unwrap_or_else(|| well_formed(random, state)),
        _ => well_formed(random, state),
    }
}

/// Half of them aimed at being done.
fn well_formed(random: &mut Random, state: &State) -> Vec<u8> {
    let kind = any_kind(random, state);
    let refusal = random.pick(&[3, 4, 5, 6, 7, 8]);
    let wished = random.pick(&[0, 0, 0, refusal, refusal, 2]);
    generate::frame(state, kind, wished, random.draw())
}

/// The end of the last thread, after which every request is refused, comes seldom.
fn any_kind(random: &mut Random, state: &State) -> u8 {
    let seldom = state.threads.len() < 2 && !random.one_in(16);
    loop {
        let kind = kinds::FIRST + random.below(kinds::LAST.into()) as u8;
        if kind != kinds::END || !seldom {
            return kind;
        }
    }
}

/// A leave by one who may give it, if there is one, to anybody. Operands from all that is
/// there seldom make one.
fn leave(random: &mut Random, state: &State) -> Option<Vec<u8>> {
    let authority = &state.authority;
    let free = state
        .threads
        .iter()
        .filter(|(_, row)| row.secrecy.is_empty());
    let (thread, caller) = random.some(free.map(|(t, row)| (t.0, row.principal)))?;
    let to = random.below(authority.principals as u32) as u8;
    if random.one_in(2) {
        let all = (0..authority.principals as u8).map(Principal);
        let from = random.some(all.filter(|p| authority.acts_for(caller, *p)))?;
        return Some(vec![thread, kinds::DELEGATE, from.0, to]);
    }
    let tag = Tag(random.some(0..authority.tags.len() as u8)?);
    let nodes = authority.counted_nodes(tag).into_iter();
    let from = random.some(nodes.filter(|p| authority.acts_for(caller, *p)))?;
    Some(vec![thread, kinds::GRANT, tag.0, from.0, to])
}

/// Some of them begin as a request does, and some are much longer than any request.
fn any_bytes(random: &mut Random) -> Vec<u8> {
    let length = random.below(LONGEST as u32 + 1) as usize;
    let long = random.pick(&[255, 256, 257, 4096]);
    let length = if random.one_in(8) { long } else { length };
    let mut frame = bytes(random, length);
    if random.one_in(2) {
        let begin = [random.below(17) as u8, random.below(29) as u8];
        frame.iter_mut().zip(begin).for_each(|(byte, b)| *byte = b);
    }
    frame
}

/// One byte changed, taken away or added.
fn missed(random: &mut Random, mut frame: Vec<u8>) -> Vec<u8> {
    let at = random.index(&frame);
    match random.below(4) {
        0 => frame[at] = random.draw() as u8,
        1 => frame[at] ^= 1 << random.below(8),
        2 => frame.truncate(at),
        _ => frame.push(random.draw() as u8),
    }
    frame
}

/// An answer buffer full of any bytes, mostly one with room.
pub fn any_answer(random: &mut Random) -> Vec<u8> {
    if random.one_in(12) {
        let short = random.below(MIN_BUFFER as u32) as usize;
        return bytes(random, short);
    }
    answer_with_room(random)
}

pub fn answer_with_room(random: &mut Random) -> Vec<u8> {
    let more = random.below((LONGEST - MIN_BUFFER) as u32 + 1) as usize;
    bytes(random, MIN_BUFFER + more)
}

fn bytes(random: &mut Random, length: usize) -> Vec<u8> {
    (0..length).map(|_| random.draw() as u8).collect()
}
