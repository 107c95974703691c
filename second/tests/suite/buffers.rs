//! The lent answer buffer, of which document 01 speaks at the end of section
//! "Refusal numbers": readings G1 to G4. And what start and clearing do to lent places
//! that hold anything: D12, D14.

use crate::common::*;
use second::answers::{bytes, Refusal};
use second::authority::{Link, TagLink};
use second::entry::{clear, entry, start};
use second::places::{Places, MESSAGE_STORE};
use second::state::State;
use second::things::*;

const FRAMES: [&str; 7] = [
    "00 01",
    "00 09 3F",
    "00 1A 20 000102030405060708090A0B0C0D0E0F101112131415161718191A1B1C1D1E1F",
    "00 1A 00",
    "",
    "0F 01",
    "00 0F",
];

#[test]
fn g1_g2_under_34_bytes_is_10_for_every_request_and_nothing_is_written() {
    for length in 0..MIN_BUFFER {
        for frame in FRAMES {
            let mut host = Host::fresh();
            let before = host.places.clone();
            let mut buffer = vec![BEFORE; length];
            let answer = entry(&mut host.places, &hex(frame), &mut buffer);
            assert_eq!(answer, Err(Refusal::ShortBuffer));
            assert_eq!(buffer, vec![BEFORE; length]);
            assert_eq!(host.places, before);
        }
    }
    assert_eq!(Refusal::ShortBuffer as u8, 10);
}

#[test]
fn g3_the_answer_is_at_the_front_and_the_rest_stays() {
    for length in [34, 35, 40, 256] {
        let before: Vec<u8> = (0..length).map(|n| n as u8 ^ 0x5A).collect();
        for frame in FRAMES {
            let mut buffer = before.clone();
            let answer = entry(&mut Host::fresh().places, &hex(frame), &mut buffer);
            let written = bytes(&answer);
            assert_eq!(buffer[..written.len()], written);
            assert_eq!(buffer[written.len()..], before[written.len()..]);
        }
    }
}

#[test]
fn g3_a_full_message_takes_34_bytes() {
    let mut buffer = [BEFORE; 35];
    let frame = hex(FRAMES[2]);
    let answer = entry(&mut Host::fresh().places, &frame, &mut buffer);
    assert!(answer.is_ok());
    let mut expected = vec![0, 32];
    expected.extend(0..32);
    expected.push(BEFORE);
    assert_eq!(buffer[..], expected);
}

#[test]
fn g3_a_refusal_writes_one_byte() {
    for (frame, number) in [("00 FF", 1), ("0F 01", 2), ("00 09 00", 3), ("00 11", 8)] {
        let mut buffer = [BEFORE; 34];
        let answer = entry(&mut Host::fresh().places, &hex(frame), &mut buffer);
        assert!(answer.is_err());
        assert_eq!(buffer[0], number);
        assert_eq!(buffer[1..], [BEFORE; 33]);
    }
}

#[test]
fn g4_a_frame_may_have_any_length() {
    for length in [0, 1, 37, 38, 100, 255, 256, 4096] {
        for kind in 0..=0x1B {
            let mut frame = vec![0; length];
            frame.iter_mut().skip(1).for_each(|byte| *byte = kind);
            let mut buffer = [BEFORE; 34];
            let answer = entry(&mut Host::fresh().places, &frame, &mut buffer);
            assert_eq!(answer, Err(Refusal::Malformed), "{} {}", length, kind);
        }
    }
}

/// Places that hold something wherever they can, lists and store as long as wished.
fn filled(links: usize, tag_links: usize, messages: usize) -> Places {
    let link = Link {
        from: Principal(7),
        to: Principal(255),
    };
    let tag = Tag(9);
    let mut places = Host::fresh().places;
    places.principal_count = 1000;
    places.principal_link_count = 3;
    places.principal_links = vec![link; links];
    places.tag_links = vec![TagLink { tag, link }; tag_links];
    places.messages = vec![BEFORE; messages];
    places.threads[15].live = 2;
    places.memory.pairs = [(Principal(8), tag); MAX_MEMORY];
    places.memory.held = usize::MAX;
    places.memory.size = 99;
    places.memory.hits = 5;
    places
}

#[test]
fn d14_the_start_leaves_fresh_tables_and_zeros() {
    for (size, fresh) in [(8, 8), (64, 64), (65, 0), (usize::MAX, 0)] {
        let mut places = filled(256, 256, MESSAGE_STORE);
        assert_eq!(start(&mut places, size).is_ok(), size == fresh);
        assert_eq!(places, Places::from(&State::fresh(fresh)));
    }
}

#[test]
fn d14_the_start_takes_lists_of_any_length() {
    for lengths in [(0, 0, 0), (255, 257, 1), (257, 255, MESSAGE_STORE + 1)] {
        let (links, tag_links, messages) = lengths;
        let mut places = filled(links, tag_links, messages);
        assert_eq!(start(&mut places, 8), Ok(()));
        let mut fresh = Places::from(&State::fresh(8));
        fresh.principal_links = vec![Link::default(); links];
        fresh.tag_links = vec![TagLink::default(); tag_links];
        fresh.messages = vec![0; messages];
        assert_eq!(places, fresh);
    }
}

#[test]
fn d12_clearing_takes_any_places() {
    let mut places = filled(255, 0, 1);
    let mut cleared = places.clone();
    clear(&mut cleared);
    places.memory.held = 0;
    places.memory.pairs = [(PUBLIC, Tag(0)); MAX_MEMORY];
    assert_eq!(cleared, places);
}
