//! Lines that are refused 1, of every sort that document 01 names, in section
//! "Lines" and in the line of 1 of section "Refusal numbers".

use super::draft::Draft;
use crate::kinds;
use crate::lines::{line_of_bytes, LINE_FEED};
use crate::things::*;

type Sort = fn(&mut Draft) -> Vec<u8>;

pub const SORTS: &[Sort] = &[
    // No line of digits.
    lowercase,
    |d| inserted(d, b'\r'),
    |d| inserted(d, b' '),
    |d| inserted(d, 0),
    any_high_byte,
    next_to_a_digit,
    carriage_return,
    any_bytes,
    // No whole number of bytes, or none, or too many.
    odd,
    |_| Vec::new(),
    |d| digits(d, MAX_DIGITS + 1),
    |d| digits(d, MAX_DIGITS + 2),
    longest_and_more,
    very_long,
    // No frame.
    one_byte,
    unknown_kind,
    operand_missing,
    operand_too_many,
    message_too_long,
    message_cut,
    message_of_72_digits,
    object_kind_over_2,
];

impl Draft {
    /// A well-formed frame of any kind.
    fn any_frame(&mut self) -> Vec<u8> {
        let kinds: Vec<u8> = (kinds::FIRST..=kinds::LAST).collect();
        let kind = self.random.pick(&kinds);
        self.frame(kind)
    }
}

fn any_line(d: &mut Draft) -> Vec<u8> {
    let frame = d.any_frame();
    line_of_bytes(&frame)
}

/// The kind has a letter, so that there is one.
fn lowercase(d: &mut Draft) -> Vec<u8> {
    let frame = d.frame(kinds::INTO_SECRECY);
    line_of_bytes(&frame).to_ascii_lowercase()
}

fn inserted(d: &mut Draft, byte: u8) -> Vec<u8> {
    let mut line = any_line(d);
    let at = d.random.below(line.len() + 1);
    line.insert(at, byte);
    line
}

fn carriage_return(d: &mut Draft) -> Vec<u8> {
    let mut line = any_line(d);
    line.push(b'\r');
    line
}

fn replaced(d: &mut Draft, byte: u8) -> Vec<u8> {
    let mut line = any_line(d);
    let at = d.random.below(line.len());
    line[at] = byte;
    line
}

fn any_high_byte(d: &mut Draft) -> Vec<u8> {
    let byte = d.random.byte() | 0x80;
    replaced(d, byte)
}

fn next_to_a_digit(d: &mut Draft) -> Vec<u8> {
    let byte = d.random.pick(b"/:@G`afg");
    replaced(d, byte)
}

/// The first byte is no digit.
fn any_bytes(d: &mut Draft) -> Vec<u8> {
    let length = d.random.below(MAX_DIGITS);
    let mut line = vec![b'#'];
    line.extend((0..length).map(|_| d.random.byte()));
    line.retain(|byte| *byte != LINE_FEED);
    line
}

fn odd(d: &mut Draft) -> Vec<u8> {
    let mut line = any_line(d);
    line.pop();
    line
}

fn digits(d: &mut Draft, length: usize) -> Vec<u8> {
    let mut line = any_line(d);
    line.resize(length, b'0');
    line
}

/// The longest frame there is, all right but for the digits after it.
fn longest_and_more(d: &mut Draft) -> Vec<u8> {
    let kind = d.random.pick(&[kinds::WRITE_CELL, kinds::PUT]);
    let mut frame = d.frame(kind);
    frame.truncate(3);
    frame.push(MAX_MESSAGE as u8);
    frame.resize(MAX_DIGITS / 2, 0x42);
    let mut line = line_of_bytes(&frame);
    line.resize(MAX_DIGITS + 1 + d.random.below(2), b'0');
    line
}

fn very_long(d: &mut Draft) -> Vec<u8> {
    let length = MAX_DIGITS * (2 + d.random.below(200));
    digits(d, length)
}

fn one_byte(d: &mut Draft) -> Vec<u8> {
    any_line(d)[..2].to_vec()
}

fn unknown_kind(d: &mut Draft) -> Vec<u8> {
    let mut frame = d.any_frame();
    let beyond = kinds::LAST + 1 + d.random.below(usize::from(u8::MAX - kinds::LAST)) as u8;
    frame[1] = d.random.pick(&[0, kinds::LAST + 1, beyond]);
    line_of_bytes(&frame)
}

fn operand_missing(d: &mut Draft) -> Vec<u8> {
    let mut frame = d.any_frame();
    if frame.len() > 1 {
        frame.pop();
    }
    line_of_bytes(&frame)
}

fn operand_too_many(d: &mut Draft) -> Vec<u8> {
    let mut frame = d.any_frame();
    frame.push(d.random.byte());
    line_of_bytes(&frame)
}

fn message_frame(d: &mut Draft) -> Vec<u8> {
    let kind = d.random.pick(&[kinds::SEND_OUT, kinds::BRING_IN]);
    let mut frame = d.frame(kind);
    frame.truncate(2);
    frame
}

/// The length byte is over 32, with as many bytes as a line can take.
fn message_too_long(d: &mut Draft) -> Vec<u8> {
    let mut frame = message_frame(d);
    let length = MAX_MESSAGE + 1 + d.random.below(usize::from(u8::MAX) - MAX_MESSAGE);
    frame.push(length as u8);
    frame.resize(MAX_DIGITS / 2, 0);
    line_of_bytes(&frame)
}

/// Fewer or more bytes than the length byte says.
fn message_cut(d: &mut Draft) -> Vec<u8> {
    let mut frame = message_frame(d);
    let length = 1 + d.random.below(MAX_MESSAGE - 1);
    let other = d.random.pick(&[0, length - 1, length + 1]);
    frame.push(length as u8);
    frame.extend((0..other).map(|_| d.random.byte()));
    line_of_bytes(&frame)
}

/// 33 bytes under the length byte 33: the whole message is there.
fn message_of_72_digits(d: &mut Draft) -> Vec<u8> {
    let mut frame = message_frame(d);
    frame.push(MAX_MESSAGE as u8 + 1);
    frame.resize(MAX_DIGITS / 2, 0x41);
    line_of_bytes(&frame)
}

fn object_kind_over_2(d: &mut Draft) -> Vec<u8> {
    let mut frame = d.frame(kinds::NEW_OBJECT);
    frame[2] = d.random.pick(&[3, 4, 128, 255]);
    line_of_bytes(&frame)
}
