//! Frames: refusal 1, the order of bytes, and the table of needs. Section
//! "Requests" of document 01, readings A1 to A4 and F14, F16.

use crate::common::*;
use second::flow::{Need, NEEDS};
use second::requests::read_frame;
use second::things::*;

/// How many operand bytes each kind takes, message kinds with an empty message.
const OPERANDS: [(u8, usize); 27] = [
    (0x01, 0),
    (0x02, 2),
    (0x03, 2),
    (0x04, 2),
    (0x05, 0),
    (0x06, 1),
    (0x07, 3),
    (0x08, 3),
    (0x09, 1),
    (0x0A, 1),
    (0x0B, 1),
    (0x0C, 1),
    (0x0D, 1),
    (0x0E, 1),
    (0x0F, 0),
    (0x10, 1),
    (0x11, 0),
    (0x12, 17),
    (0x13, 1),
    (0x14, 1),
    (0x15, 2),
    (0x16, 2),
    (0x17, 1),
    (0x18, 1),
    (0x19, 1),
    (0x1A, 1),
    (0x1B, 1),
];

fn well_formed(frame: &[u8]) -> bool {
    read_frame(frame).is_ok()
}

#[test]
fn every_kind_takes_its_length_and_no_other() {
    for (kind, length) in OPERANDS {
        for operands in 0..60 {
            let mut frame = vec![0, kind];
            frame.resize(2 + operands, 0);
            let right = operands == length;
            assert_eq!(well_formed(&frame), right, "{:02X} {}", kind, operands);
        }
    }
}

#[test]
fn no_other_kind_is_known() {
    let known: Vec<u8> = OPERANDS.iter().map(|(kind, _)| *kind).collect();
    for kind in (0..=255).filter(|kind| !known.contains(kind)) {
        for operands in 0..20 {
            let mut frame = vec![0, kind];
            frame.resize(2 + operands, 0);
            assert!(!well_formed(&frame), "{:02X}", kind);
        }
    }
}

#[test]
fn frames_under_two_bytes() {
    assert!(!well_formed(&[]));
    for byte in 0..=255 {
        assert!(!well_formed(&[byte]));
    }
}

#[test]
fn f14_a_message_is_its_length_byte_and_that_many_bytes() {
    for (kind, before) in [(0x15, 1), (0x16, 1), (0x1A, 0), (0x1B, 0)] {
        for length in 0..=255u8 {
            for bytes in [0, 1, 31, 32, 33, 34, 255, usize::from(length)] {
                let mut frame = vec![0, kind];
                frame.resize(2 + before, 0);
                frame.push(length);
                frame.resize(3 + before + bytes, 7);
                let right = bytes == usize::from(length) && length <= 32;
                assert_eq!(well_formed(&frame), right, "{} {}", length, bytes);
            }
        }
    }
}

#[test]
fn object_kind_over_2() {
    for kind in 0..=255 {
        let mut frame = vec![0, 0x12, kind];
        frame.resize(19, 0);
        assert_eq!(well_formed(&frame), kind <= 2, "object kind {}", kind);
    }
}

#[test]
fn a1_kinds_are_hexadecimal_and_so_is_the_printed_status() {
    // Kind 10 is call (16), not the tenth; kind 0A takes a tag into S.
    let mut host = Host::after(&["00 05", "00 10 01"]);
    assert_eq!(host.thread(0).put_aside, [OFFICE]);
    host.done(&["00 0A 00"]);
    assert!(host.thread(0).secrecy.holds(Tag(0)));
}

#[test]
fn a2_the_order_of_operands() {
    // 07 T P Q: tag 0 from 1 to 2.
    let host = Host::after(&["00 01", "00 05", "00 07 00 01 02"]);
    let granted = host.state().authority.tag_links[0];
    assert_eq!(granted.tag, Tag(0));
    assert_eq!(granted.link.from, Principal(1));
    assert_eq!(granted.link.to, Principal(2));
}

#[test]
fn a3_label_bytes_are_most_significant_first() {
    let mut host = Host::fresh();
    for _ in 0..64 {
        host.done(&["00 05"]);
    }
    host.expect(&[("00 12 00 8000000000000001 0000000000000000", "0000")]);
    let object = host.state().objects[&Object(0)].clone();
    let tags: Vec<Tag> = object.secrecy.tags().collect();
    assert_eq!(tags, [Tag(0), Tag(63)]);
    assert!(object.integrity.is_empty());
    host.expect(&[("00 12 00 0000000000000100 0000000000000000", "0001")]);
    let tags: Vec<Tag> = host.state().objects[&Object(1)].secrecy.tags().collect();
    assert_eq!(tags, [Tag(8)]);
}

#[test]
fn a4_answers_with_nothing_to_give_are_the_status_alone() {
    let cell = "00 12 00 0000000000000000 0000000000000000";
    let queue = "00 12 01 0000000000000000 0000000000000000";
    let lock = "00 12 02 0000000000000000 0000000000000000";
    let mut host = Host::after(&["00 01", "00 01", "00 05", cell, queue, lock]);
    for frame in [
        "00 02 02 03",
        "00 03 02 03",
        "00 07 00 01 02",
        "00 08 00 01 02",
        "00 0A 00",
        "00 0B 00",
        "00 0C 00",
        "00 0D 00",
        "00 10 02",
        "00 11",
        "00 15 00 00",
        "00 16 01 00",
        "00 18 02",
        "00 19 02",
        "00 13 00",
        "00 0F",
    ] {
        assert_eq!(host.ask(frame), "00", "answer to {}", frame);
    }
}

#[test]
fn a4_an_empty_message_is_its_length_0() {
    let cell = "00 12 00 0000000000000000 0000000000000000";
    let queue = "00 12 01 0000000000000000 0000000000000000";
    let mut host = Host::after(&[cell, queue, "00 16 01 00"]);
    for frame in ["00 14 00", "00 17 01", "00 1A 00", "00 1B 00"] {
        assert_eq!(host.ask(frame), "0000", "answer to {}", frame);
    }
}

#[test]
fn f16_the_table_of_needs() {
    let null = [1, 2, 3, 5, 6, 7, 8, 0x0E, 0x0F, 0x12, 0x13, 0x1A];
    let (read, write, both) = ([0x14], [0x15, 0x16, 0x19], [0x17, 0x18]);
    for (kind, need) in (0..=0x1B).zip(NEEDS) {
        let expected = if null.contains(&kind) {
            Need::Null
        } else if read.contains(&kind) {
            Need::Read
        } else if write.contains(&kind) {
            Need::Write
        } else if both.contains(&kind) {
            Need::Both
        } else {
            Need::Nothing
        };
        assert_eq!(need, expected, "kind {:02X}", kind);
    }
}
