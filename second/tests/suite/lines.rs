//! The line program on single lines and odd input: section "Lines" of document 01,
//! readings H1 to H5.

use crate::case::{printed, INPUT, OUTPUT};
use second::lines::run;
use second::state::State;
use std::io::{BufReader, Read};

const LAST: &str = "FF0000000000000000\n";

/// The answer to one line in an otherwise empty input.
#[track_caller]
fn one_line(line: &[u8]) -> String {
    let mut input = line.to_vec();
    input.push(b'\n');
    let output = printed(&input);
    let answer = output.strip_suffix(LAST).expect("nothing was asked");
    answer.trim_end().to_string()
}

fn repeated(digits: &str, times: usize) -> Vec<u8> {
    digits.repeat(times).into_bytes()
}

#[test]
fn h1_a_byte_that_is_no_digit_is_1() {
    for byte in 0..=255u8 {
        let digit = byte.is_ascii_digit() || (b'A'..=b'F').contains(&byte);
        if digit || byte == b'\n' {
            continue;
        }
        assert_eq!(one_line(&[b'0', b'0', b'0', byte]), "01", "byte {}", byte);
        assert_eq!(one_line(&[byte, b'0', b'0', b'1']), "01", "byte {}", byte);
        assert_eq!(one_line(&[byte]), "01", "byte {}", byte);
    }
}

#[test]
fn h1_every_digit_has_its_value() {
    // 1B gives its message back, so that each byte is seen again.
    for byte in 0..=255u8 {
        let line = format!("001B01{:02X}", byte);
        assert_eq!(one_line(line.as_bytes()), format!("0001{:02X}", byte));
    }
}

#[test]
fn h1_lowercase_carriage_return_space_odd_and_empty() {
    for line in [
        "000a00", "000f", "0001\r", " 0001", "00 01", "000", "0", "", "0x01",
    ] {
        assert_eq!(one_line(line.as_bytes()), "01", "line {:?}", line);
    }
}

#[test]
fn h1_a_long_line_is_one_line_however_long() {
    for digits in [73, 74, 100, 8192, 8193, 100_000, 1_000_000] {
        let mut line = repeated("0", digits);
        assert_eq!(one_line(&line), "01", "{} digits", digits);
        line[digits - 1] = b'g';
        assert_eq!(one_line(&line), "01", "{} bytes", digits);
    }
}

#[test]
fn h1_nothing_changes_by_a_refused_line() {
    let between = INPUT.replace('\n', "\n0\n");
    let answers = OUTPUT.replace('\n', "\n01\n");
    let answers = answers.strip_suffix("01\n").expect("FF is no answer");
    assert_eq!(printed(between.as_bytes()), answers);
}

#[test]
fn h2_72_digits_are_taken() {
    let message = "41".repeat(32);
    let cell = "00120000000000000000000000000000000000";
    let write = format!("00150020{}", message);
    assert_eq!(write.len(), 72);
    let input = format!("{}\n{}\n001400\n", cell, write);
    let expected = format!("0000\n00\n0020{}\n{}", message, LAST);
    assert_eq!(printed(input.as_bytes()), expected);
}

#[test]
fn h2_72_digits_may_still_be_no_frame() {
    let line = format!("001B21{}", "41".repeat(33));
    assert_eq!(line.len(), 72);
    assert_eq!(one_line(line.as_bytes()), "01");
}

#[test]
fn h3_the_last_line() {
    for (input, answers) in [
        ("0001\n", "0002\n"),
        ("0001", "0002\n"),
        ("0001\n\n", "0002\n01\n"),
        ("\n", "01\n"),
        ("", ""),
        ("0", "01\n"),
        ("\n0", "01\n01\n"),
        ("\n\n", "01\n01\n"),
        ("0001\n0001", "0002\n0003\n"),
        ("0001\n\r", "0002\n01\n"),
    ] {
        let expected = format!("{}{}", answers, LAST);
        assert_eq!(printed(input.as_bytes()), expected, "input {:?}", input);
    }
}

#[test]
fn h4_ff_comes_last_after_all_threads_ended() {
    let input = "0005\n000900\n000F\n000900\n000F\nxx\n";
    let expected = "0000\n0001\n00\n02\n02\n01\nFF0000000100000000\n";
    assert_eq!(printed(input.as_bytes()), expected);
}

#[test]
fn h5_no_line_is_answered_9_or_10_or_11() {
    // Every first byte of an answer is a status; FF opens the last line.
    for list in crate::common::lists(15, 40) {
        let output = printed(&list);
        let answers = output.lines().rev().skip(1);
        for answer in answers {
            assert!(&answer[..2] <= "08", "answer {}", answer);
        }
    }
}

/// Hands out its bytes one at a time.
struct Drop<'a>(&'a [u8]);

impl Read for Drop<'_> {
    fn read(&mut self, buffer: &mut [u8]) -> std::io::Result<usize> {
        let end = buffer.len().min(1);
        self.0.read(&mut buffer[..end])
    }
}

#[test]
fn input_in_small_parts_is_the_same_input() {
    let mut lists: Vec<Vec<u8>> = crate::common::lists(15, 41).collect();
    lists.push(INPUT.as_bytes().to_vec());
    for list in lists {
        let mut output = Vec::new();
        let input = BufReader::with_capacity(3, Drop(&list));
        run(&mut State::fresh(8), input, &mut output).expect("written");
        assert_eq!(String::from_utf8_lossy(&output), printed(&list));
    }
}
