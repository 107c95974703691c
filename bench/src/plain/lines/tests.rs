//! The plain monitor against document 01's words on lines, against the examples, and
//! against the second program on lists of every profile.

use super::run;
use second::compare::{first_difference, ours};
use second::generate::{generate, nth, PROFILES};
use std::ffi::OsStr;
use std::fs;
use std::io::{self, Read};
use std::path::Path;

const NO_QUESTION: &str = "FF0000000000000000\n";

/// Gives few bytes at a time.
struct Trickle<'a>(&'a [u8], usize);

impl Read for Trickle<'_> {
    fn read(&mut self, block: &mut [u8]) -> io::Result<usize> {
        let most = self.1.min(block.len());
        self.0.read(&mut block[..most])
    }
}

fn answers_by(bytes: usize, input: &[u8]) -> String {
    let mut output = Vec::new();
    run(&mut Trickle(input, bytes), &mut output).expect("a buffer takes all");
    String::from_utf8(output).expect("digits")
}

fn answers(input: &[u8]) -> String {
    answers_by(usize::MAX, input)
}

/// Lines that ask no question.
fn assert_lines(input: &[u8], lines: &str) {
    assert_eq!(answers(input), lines.to_owned() + NO_QUESTION);
}

#[test]
fn empty_input() {
    assert_lines(b"", "");
}

#[test]
fn last_lines() {
    assert_lines(b"0001", "0002\n");
    assert_lines(b"0001\n", "0002\n");
    assert_lines(b"0001\n\n", "0002\n01\n");
    assert_lines(b"\n", "01\n");
}

#[test]
fn bytes_that_are_no_digits() {
    assert_lines(b"0001\r\n0005\r\n", "01\n01\n");
    assert_lines(b"000a\n 001\n0\x0001\n\xFF001\n000\n", &"01\n".repeat(5));
}

#[test]
fn lines_of_72_digits_and_more() {
    let with_digits = |n: usize| format!("001A20{}\n", "41".repeat((n - 6) / 2));
    let taken = format!("0020{}\n", "41".repeat(32));
    assert_lines(with_digits(70).as_bytes(), &taken);
    assert_lines(with_digits(72).as_bytes(), "01\n");
    let of_33_bytes = format!("001A21{}\n", "41".repeat(33));
    assert_lines(of_33_bytes.as_bytes(), "01\n");
    assert_lines(with_digits(74).as_bytes(), "01\n");
    let long = format!("{}\n0001\n{}", "0".repeat(1_000_001), "F".repeat(200_000));
    assert_lines(long.as_bytes(), "01\n0002\n01\n");
}

#[test]
fn the_longest_frame_is_taken() {
    let cell = "00120000000000000000000000000000000000\n";
    let write = format!("00150020{}\n", "7F".repeat(32));
    let input = format!("{}{}001400\n", cell, write);
    let read = format!("0000\n00\n0020{}\n", "7F".repeat(32));
    assert_lines(input.as_bytes(), &read);
}

/// However the input comes in, and wherever a block ends.
#[test]
fn pieces_make_no_difference() {
    let lists: Vec<u8> = (0..60).flat_map(|n| list(n, 7)).collect();
    let whole = answers(&lists);
    assert!(lists.len() > 2 * super::BLOCK);
    for bytes in [1, 2, 71, 72, 73, 74, 1000] {
        assert!(answers_by(bytes, &lists) == whole, "{} at a time", bytes);
    }
}

#[test]
fn the_examples() {
    let directory = Path::new(env!("CARGO_MANIFEST_DIR")).join("../examples");
    let mut seen = 0;
    for file in fs::read_dir(directory).expect("the examples") {
        let file = file.expect("a file").path();
        if file.extension() == Some(OsStr::new("hex")) {
            let input = fs::read(&file).expect("an example");
            let output = fs::read_to_string(file.with_extension("out")).expect("its answers");
            assert_eq!(answers(&input), output, "{}", file.display());
            seen += 1;
        }
    }
    assert!(seen > 0);
}

#[test]
fn lists_of_every_profile() {
    for n in 0..10 * PROFILES.len() as u64 {
        let list = list(n, 1);
        let (ours, plain) = (ours(&list), answers(&list));
        if let Some(difference) = first_difference(&list, &ours, plain.as_bytes()) {
            panic!(
                "list {}, line {}, {}: second {}, plain {}",
                n, difference.line, difference.request, difference.ours, difference.theirs
            );
        }
    }
}

fn list(n: u64, seed: u64) -> Vec<u8> {
    let (seed, profile) = nth(n, seed);
    generate(seed, profile)
}
