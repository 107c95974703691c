//! The plain monitor as a line program. Document 01, section "Lines". Input and
//! output go by blocks; of a line no more is kept than shows that it is too long.

use super::monitor::{parts, Answer, Frame, Memory, Monitor, Refusal, LONGEST};
use std::io::{self, ErrorKind, Read, Write};

/// The bytes of a block, in and out.
const BLOCK: usize = 64 * 1024;

/// A line of "over 72 digits" is refused.
const MOST_DIGITS: usize = 2 * LONGEST;

/// The longest line of an answer: status, length and 32 bytes in digits, and LF.
const LONGEST_LINE: usize = 2 * 34 + 1;

/// Opens the last line.
const LAST_LINE: u8 = 0xFF;

const LINE_FEED: u8 = b'\n';
const DIGITS: &[u8; 16] = b"0123456789ABCDEF";
const NO_DIGIT: u8 = 255;

/// The value of every byte as a digit.
const VALUES: [u8; 256] = values();

/// The two digits of every byte.
const PAIRS: [[u8; 2]; 256] = pairs();

const fn values() -> [u8; 256] {
    let mut values = [NO_DIGIT; 256];
    let mut value = 0;
    while value < DIGITS.len() {
        values[DIGITS[value] as usize] = value as u8;
        value += 1;
    }
    values
}

const fn pairs() -> [[u8; 2]; 256] {
    let mut pairs = [[0; 2]; 256];
    let mut byte = 0;
    while byte < pairs.len() {
        pairs[byte] = [DIGITS[byte >> 4], DIGITS[byte & 15]];
        byte += 1;
    }
    pairs
}

/// Answers all lines, and prints FF, questions and hits last.
pub fn run(input: &mut dyn Read, output: &mut dyn Write) -> io::Result<()> {
    let mut monitor = Monitor::fresh();
    let mut answers = Answers::to(output);
    let mut block = vec![0; BLOCK];
    // What stands at the front of the block: the start of a line without its LF.
    let mut kept = 0;
    loop {
        let filled = match kept + read(input, &mut block[kept..])? {
            filled if filled == kept => break,
            filled => filled,
        };
        let rest = answer_lines(&mut monitor, &block[..filled], &mut answers)?;
        // A line cut one byte after it has become too long is still too long.
        kept = (filled - rest).min(MOST_DIGITS + 1);
        block.copy_within(rest..rest + kept, 0);
    }
    if kept > 0 {
        answers.put(&answer(&mut monitor, &block[..kept]))?;
    }
    answers.end(&monitor.memory)
}

/// How many bytes were read: 0 at the end of the input.
fn read(input: &mut dyn Read, block: &mut [u8]) -> io::Result<usize> {
    loop {
        match input.read(block) {
            Err(error) if error.kind() == ErrorKind::Interrupted => {}
            done => return done,
        }
    }
}

/// Answers every line that has its LF, and tells where the rest starts.
fn answer_lines(monitor: &mut Monitor, block: &[u8], answers: &mut Answers) -> io::Result<usize> {
    let mut start = 0;
    while let Some(length) = block[start..].iter().position(|b| *b == LINE_FEED) {
        answers.put(&answer(monitor, &block[start..start + length]))?;
        start += length + 1;
    }
    Ok(start)
}

fn answer(monitor: &mut Monitor, line: &[u8]) -> Answer {
    monitor.request(&frame(line).ok_or(Refusal::Malformed)?)
}

/// None for a line "with any byte but a digit .., of odd length, empty, or over 72
/// digits".
fn frame(line: &[u8]) -> Option<Frame> {
    if line.is_empty() || line.len() % 2 == 1 || line.len() > MOST_DIGITS {
        return None;
    }
    let mut bytes = [0; LONGEST];
    let mut all = 0;
    for (byte, two) in bytes.iter_mut().zip(line.chunks_exact(2)) {
        let (high, low) = (VALUES[usize::from(two[0])], VALUES[usize::from(two[1])]);
        all |= high | low;
        *byte = high << 4 | low;
    }
    (all != NO_DIGIT).then(|| Frame::new(bytes, line.len() / 2))
}

/// A block of lines on their way out.
struct Answers<'a> {
    output: &'a mut dyn Write,
    block: Vec<u8>,
    used: usize,
}

impl Answers<'_> {
    fn to(output: &mut dyn Write) -> Answers<'_> {
        Answers {
            output,
            block: vec![0; BLOCK],
            used: 0,
        }
    }

    fn put(&mut self, answer: &Answer) -> io::Result<()> {
        let (status, rest) = parts(answer);
        self.digits(&[status]);
        self.digits(rest);
        self.end_line()
    }

    /// There is room for a whole line when it starts.
    fn digits(&mut self, bytes: &[u8]) {
        let room = &mut self.block[self.used..][..2 * bytes.len()];
        for (two, byte) in room.chunks_exact_mut(2).zip(bytes) {
            two.copy_from_slice(&PAIRS[usize::from(*byte)]);
        }
        self.used += 2 * bytes.len();
    }

    fn end_line(&mut self) -> io::Result<()> {
        self.block[self.used] = LINE_FEED;
        self.used += 1;
        if self.used + LONGEST_LINE > BLOCK {
            self.write()?;
        }
        Ok(())
    }

    fn write(&mut self) -> io::Result<()> {
        self.output.write_all(&self.block[..self.used])?;
        self.used = 0;
        Ok(())
    }

    /// "and last FF, questions, hits (4 bytes each, high first)"
    fn end(mut self, memory: &Memory) -> io::Result<()> {
        self.digits(&[LAST_LINE]);
        self.digits(&memory.questions.to_be_bytes());
        self.digits(&memory.hits.to_be_bytes());
        self.end_line()?;
        self.write()?;
        self.output.flush()
    }
}

#[cfg(test)]
mod tests;
