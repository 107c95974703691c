//! Whole lists of lines. 01, section "Lines".

use crate::common::*;
use suvdorkhun::{lend, run, Answer, Monitor};

#[test]
fn the_examples_get_their_answers() {
    for (path, list, expected) in examples() {
        assert_eq!(run(MEMORY, &list), Ok(expected), "{:?}", path);
    }
}

#[test]
fn a_last_line_without_line_feed_counts() {
    for (path, list, expected) in examples() {
        let cut = &list[..list.len() - 1];
        assert_eq!(run(MEMORY, cut), Ok(expected), "{:?}", path);
    }
}

#[test]
fn empty_input() {
    let last = b"FF0000000000000000\n".to_vec();
    assert_eq!(run(MEMORY, b""), Ok(last));
}

#[test]
fn what_is_no_frame_is_refused_1() {
    let answers = b"01\n01\n01\n01\n01\nFF0000000000000000\n".to_vec();
    assert_eq!(run(MEMORY, b"\n000\n000e01\n0001\r\nx"), Ok(answers));
}

/// Answers that are much longer than their requests: the output grows.
#[test]
fn the_output_grows_as_needed() {
    let message = "5A".repeat(32);
    let mut list = format!("0012{}\n", "00".repeat(17));
    list += &format!("00150020{}\n", message);
    list += &"001400\n".repeat(5000);
    let mut expected = String::from("0000\n00\n");
    expected += &format!("0020{}\n", message).repeat(5000);
    expected += "FF0000000000000000\n";
    let out = run(MEMORY, list.as_bytes()).expect("8 is not over 64");
    assert_eq!(String::from_utf8(out).expect("digits"), expected);
}

/// The same list line by line through a monitor.
#[test]
fn a_list_is_answered_as_its_requests_one_by_one() {
    for (path, list, expected) in examples() {
        let mut monitor = Monitor::new(MEMORY).expect("8 is not over 64");
        let mut out = String::new();
        for frame in frames(&list) {
            out += &line(&monitor.request(&frame));
        }
        out += &format!("FF{:08X}{:08X}\n", monitor.questions(), monitor.hits());
        assert_eq!(out.as_bytes(), expected, "{:?}", path);
    }
}

/// "An answer is a status byte (00 or the number), then on done the value byte, or for a
/// message its length and bytes."
fn line(answer: &Answer) -> String {
    let bytes = match answer {
        Answer::Done => vec![0],
        Answer::Value(value) => vec![0, *value],
        Answer::Message(message) => [&[0, message.len() as u8][..], message].concat(),
        Answer::Refused(refusal) => vec![refusal.number()],
    };
    let digits: String = bytes.iter().map(|byte| format!("{:02X}", byte)).collect();
    digits + "\n"
}

/// Where there is no room, a lent run says so, and writes no half of an answer.
#[test]
fn a_lent_run_says_whether_it_is_complete() {
    let mut store = vec![0; lend::STORE];
    let mut out = [b'.'; 100];
    let ran = lend::run(MEMORY, &mut store, b"0001\n0001\n", &mut out);
    assert_eq!((ran.status, ran.complete, ran.read), (0, 1, 10));
    assert_eq!(out[..ran.written], b"0002\n0003\nFF0000000000000000\n"[..]);
    assert!(out[ran.written..].iter().all(|byte| *byte == b'.'));

    let mut out = [b'.'; 50];
    let ran = lend::run(MEMORY, &mut store, b"0001\n0001\n", &mut out);
    assert_eq!((ran.status, ran.complete), (0, 0));
    assert!(out[ran.written..].iter().all(|byte| *byte == b'.'));
}
