//! The line program: one frame a line in, one answer a line out, FF last.
//! Document 01, section "Lines". Input is read in a stream, and of a line no
//! more is kept than is needed to tell that it is too long.

use crate::answers::{bytes, Answer, Refusal};
use crate::monitor::step;
use crate::state::State;
use crate::things::MAX_DIGITS;
use std::io::{self, BufRead, Write};

pub const LINE_FEED: u8 = b'\n';

/// Opens the last line, before questions and hits.
pub const LAST_LINE: u8 = 0xFF;

const DIGITS: &[u8; 16] = b"0123456789ABCDEF";
const NO_DIGIT: u8 = 255;

/// "The digit's value comes from a 256-entry table, 255 for no digit."
const VALUES: [u8; 256] = values();

const fn values() -> [u8; 256] {
    let mut values = [NO_DIGIT; 256];
    let mut value = 0;
    while value < DIGITS.len() {
        values[DIGITS[value] as usize] = value as u8;
        value += 1;
    }
    values
}

/// The frame of a line without its LF. "A line with any byte but a digit, of odd
/// length, empty, or over 72 digits is refused 1".
pub fn frame_of_line(line: &[u8]) -> Result<Vec<u8>, Refusal> {
    let values: Vec<u8> = line.iter().map(|b| VALUES[usize::from(*b)]).collect();
    let even = values.len() % 2 == 0;
    if values.is_empty() || !even || values.len() > MAX_DIGITS || values.contains(&NO_DIGIT) {
        return Err(Refusal::Malformed);
    }
    let two_a_byte = |pair: &[u8]| pair[0] << 4 | pair[1];
    Ok(values.chunks(2).map(two_a_byte).collect())
}

/// "digits 0-9, A-F, two a byte, high first"
pub fn line_of_bytes(bytes: &[u8]) -> Vec<u8> {
    let two = |b: &u8| [DIGITS[usize::from(b >> 4)], DIGITS[usize::from(b & 15)]];
    bytes.iter().flat_map(two).collect()
}

pub fn answer_line(state: &mut State, line: &[u8]) -> Answer {
    step(state, &frame_of_line(line)?)
}

/// "and last FF, questions, hits (4 bytes each, high first)"
pub fn last_line(state: &State) -> Vec<u8> {
    let mut last = vec![LAST_LINE];
    last.extend(state.memory.questions.to_be_bytes());
    last.extend(state.memory.hits.to_be_bytes());
    line_of_bytes(&last)
}

/// The whole program, from the state it starts with.
pub fn run(state: &mut State, mut input: impl BufRead, mut output: impl Write) -> io::Result<()> {
    let mut line = Vec::new();
    while read_line(&mut input, &mut line)? {
        let answer = bytes(&answer_line(state, &line));
        output.write_all(&line_of_bytes(&answer))?;
        output.write_all(&[LINE_FEED])?;
    }
    output.write_all(&last_line(state))?;
    output.write_all(&[LINE_FEED])?;
    output.flush()
}

/// Reads a line without its LF and tells whether there was one: "A last line
/// without LF counts if it has a byte." A line that is too long is cut one byte
/// after it has become so.
fn read_line(input: &mut impl BufRead, line: &mut Vec<u8>) -> io::Result<bool> {
    line.clear();
    loop {
        let part = match input.fill_buf() {
            Err(error) if error.kind() == io::ErrorKind::Interrupted => continue,
            part => part?,
        };
        if part.is_empty() {
            return Ok(!line.is_empty());
        }
        let feed = part.iter().position(|b| *b == LINE_FEED);
        let room = MAX_DIGITS + 1 - line.len();
        let length = feed.unwrap_or(part.len());
        line.extend(&part[..length.min(room)]);
        let taken = feed.map_or(part.len(), |feed| feed + 1);
        input.consume(taken);
        if feed.is_some() {
            return Ok(true);
        }
    }
}
