//! Each kind's function: what it is answered, and that it does what its row says. Then a frame
//! of each kind.

use crate::common::*;
use suvdorkhun::{Answer, Label, Object, ObjectKind, Principal, Refusal, Tag, Thread};

const PUBLIC: Principal = Principal::PUBLIC;
const THE_OFFICE: Principal = Principal::OFFICE;

#[test]
fn kinds_01_to_04_principals() {
    let mut monitor = fresh();
    let (two, three) = (Principal(2), Principal(3));
    assert_eq!(monitor.new_principal(OFFICE), Ok(two));
    assert_eq!(monitor.new_principal(OFFICE), Ok(three));
    assert_eq!(monitor.acts_for(OFFICE, THE_OFFICE, two), Ok(true));
    assert_eq!(monitor.acts_for(OFFICE, three, two), Ok(false));

    assert_eq!(monitor.delegate(OFFICE, two, three), Ok(()));
    assert_eq!(monitor.acts_for(OFFICE, three, two), Ok(true));
    assert_eq!(monitor.acts_for(OFFICE, two, three), Ok(false));
    assert_eq!(monitor.delegate(OFFICE, three, two), Err(Refusal::Cycle));
    assert_eq!(
        monitor.delegate(OFFICE, two, PUBLIC),
        Err(Refusal::Authority)
    );

    assert_eq!(monitor.revoke(OFFICE, two, three), Ok(()));
    assert_eq!(monitor.acts_for(OFFICE, three, two), Ok(false));
    assert_eq!(
        monitor.revoke(OFFICE, PUBLIC, three),
        Err(Refusal::Authority)
    );
}

#[test]
fn kinds_05_and_06_tags() {
    let (mut monitor, tag, _, other) = two_parties();
    assert_eq!(tag, Tag(0));
    assert_eq!(monitor.new_tag(other), Ok(Tag(1)));
    assert_eq!(monitor.new_subtag(OFFICE, tag), Ok(Tag(2)));
    assert_eq!(
        monitor.new_subtag(OFFICE, Tag(2)),
        Err(Refusal::NamesNothing)
    );
    assert_eq!(monitor.new_subtag(other, tag), Err(Refusal::Authority));
}

#[test]
fn kinds_07_to_09_leaves() {
    let (mut monitor, tag, two, other) = two_parties();
    assert_eq!(monitor.authoritative(OFFICE, tag), Ok(true));
    assert_eq!(monitor.authoritative(other, tag), Ok(false));
    assert_eq!(
        monitor.grant(other, tag, two, THE_OFFICE),
        Err(Refusal::Authority)
    );
    assert_eq!(monitor.grant(OFFICE, tag, THE_OFFICE, two), Ok(()));
    assert_eq!(monitor.authoritative(other, tag), Ok(true));
    assert_eq!(
        monitor.grant(other, tag, two, THE_OFFICE),
        Err(Refusal::Cycle)
    );
    assert_eq!(
        monitor.ungrant(other, tag, THE_OFFICE, two),
        Err(Refusal::Authority)
    );
    assert_eq!(monitor.ungrant(OFFICE, tag, THE_OFFICE, two), Ok(()));
    assert_eq!(monitor.authoritative(other, tag), Ok(false));
}

#[test]
fn kinds_0a_to_0d_labels_of_a_thread() {
    let (mut monitor, tag, _, other) = two_parties();
    assert_eq!(monitor.into_secrecy(other, tag), Ok(()));
    assert_eq!(monitor.send_out(other, b""), Err(Refusal::Flow));
    assert_eq!(monitor.out_of_secrecy(other, tag), Err(Refusal::Authority));
    assert_eq!(monitor.into_integrity(other, tag), Err(Refusal::Authority));
    assert_eq!(monitor.out_of_integrity(other, tag), Ok(()));

    assert_eq!(monitor.into_secrecy(OFFICE, tag), Ok(()));
    assert_eq!(monitor.out_of_secrecy(OFFICE, tag), Ok(()));
    assert_eq!(monitor.send_out(OFFICE, b""), Ok(vec![]));
    assert_eq!(monitor.into_integrity(OFFICE, tag), Ok(()));
    assert_eq!(monitor.bring_in(OFFICE, b""), Err(Refusal::Flow));
    assert_eq!(monitor.out_of_integrity(OFFICE, tag), Ok(()));
    assert_eq!(monitor.bring_in(OFFICE, b""), Ok(vec![]));
}

#[test]
fn kinds_0e_to_11_forks_and_calls() {
    let (mut monitor, _, two, other) = two_parties();
    assert_eq!(other, Thread(1));
    assert_eq!(monitor.fork(other, two), Ok(Thread(2)));
    assert_eq!(monitor.fork(other, THE_OFFICE), Err(Refusal::Authority));
    assert_eq!(monitor.end(other), Ok(()));
    assert_eq!(monitor.end(other), Err(Refusal::NotLive));
    assert_eq!(monitor.fork(OFFICE, two), Ok(other));

    assert_eq!(monitor.call(OFFICE, two), Ok(()));
    assert_eq!(monitor.call(OFFICE, THE_OFFICE), Err(Refusal::Authority));
    assert_eq!(monitor.return_from_call(OFFICE), Ok(()));
    assert_eq!(monitor.call(OFFICE, THE_OFFICE), Ok(()));
}

#[test]
fn kinds_12_to_15_cells() {
    let (mut monitor, tag, _, other) = two_parties();
    let secret = Label::from(tag);
    let cell = monitor.new_object(OFFICE, ObjectKind::Cell, secret, Label::EMPTY);
    assert_eq!(cell, Ok(Object(0)));
    let cell = Object(0);
    assert_eq!(monitor.read_cell(other, cell), Err(Refusal::Flow));
    assert_eq!(monitor.write_cell(other, cell, b"sounding"), Ok(()));
    assert_eq!(monitor.into_secrecy(other, tag), Ok(()));
    assert_eq!(monitor.read_cell(other, cell), Ok(b"sounding".to_vec()));
    assert_eq!(monitor.write_cell(other, cell, b""), Ok(()));
    assert_eq!(monitor.read_cell(other, cell), Ok(vec![]));
    assert_eq!(monitor.delete(other, cell), Err(Refusal::Flow));
    assert_eq!(monitor.delete(OFFICE, cell), Ok(()));
    assert_eq!(monitor.delete(OFFICE, cell), Err(Refusal::NamesNothing));
}

#[test]
fn kind_12_has_its_labels_in_their_places() {
    let mut monitor = fresh();
    let tags: Vec<Tag> = (0..64)
        .map(|_| monitor.new_tag(OFFICE).expect("64 tags"))
        .collect();
    let (s, i) = (
        Label::from([tags[0], tags[63]]),
        Label::from([tags[7], tags[32]]),
    );
    monitor
        .into_integrity(OFFICE, tags[7])
        .expect("its own tag");
    let kind = ObjectKind::Queue;
    assert_eq!(monitor.new_object(OFFICE, kind, s, i), Err(Refusal::Flow));
    monitor
        .into_integrity(OFFICE, tags[32])
        .expect("its own tag");
    assert_eq!(monitor.new_object(OFFICE, kind, s, i), Ok(Object(0)));
    let row = monitor.state().tables.objects[0];
    assert_eq!((row.live, row.kind), (1, 1));
    assert_eq!(row.labels.secrecy, 1 << 63 | 1);
    assert_eq!(row.labels.integrity, 1 << 32 | 1 << 7);
}

#[test]
fn kinds_16_and_17_queues() {
    let mut monitor = fresh();
    let queue = monitor.new_object(OFFICE, ObjectKind::Queue, Label::EMPTY, Label::EMPTY);
    let queue = queue.expect("a first object");
    assert_eq!(monitor.get(OFFICE, queue), Err(Refusal::EmptyOrHeld));
    for n in 0..8 {
        assert_eq!(monitor.put(OFFICE, queue, &[n; 32]), Ok(()));
    }
    assert_eq!(monitor.put(OFFICE, queue, &[8]), Err(Refusal::Full));
    for n in 0..8 {
        assert_eq!(monitor.get(OFFICE, queue), Ok(vec![n; 32]));
    }
    assert_eq!(monitor.read_cell(OFFICE, queue), Err(Refusal::NamesNothing));
}

#[test]
fn kinds_18_and_19_locks() {
    let mut monitor = fresh();
    let lock = monitor.new_object(OFFICE, ObjectKind::Lock, Label::EMPTY, Label::EMPTY);
    let lock = lock.expect("a first object");
    assert_eq!(monitor.lock(OFFICE, lock), Ok(()));
    assert_eq!(monitor.lock(OFFICE, lock), Err(Refusal::EmptyOrHeld));
    assert_eq!(monitor.unlock(OFFICE, lock), Ok(()));
    assert_eq!(monitor.unlock(OFFICE, lock), Ok(()));
    assert_eq!(monitor.lock(OFFICE, lock), Ok(()));
}

#[test]
fn kinds_1a_and_1b_out_and_in() {
    let mut monitor = fresh();
    assert_eq!(monitor.send_out(OFFICE, b"chart"), Ok(b"chart".to_vec()));
    assert_eq!(monitor.bring_in(OFFICE, &[9; 32]), Ok(vec![9; 32]));
}

/// A request of each kind, and what it is answered by a monitor with everything in it.
fn one_of_each_kind() -> [(Vec<u8>, Answer); 27] {
    let value = Answer::Value;
    let message = |bytes: &[u8]| Answer::Message(bytes.to_vec());
    [
        (vec![0, 0x01], value(3)),
        (vec![0, 0x02, 2, 3], Answer::Done),
        (vec![0, 0x03, 2, 3], Answer::Done),
        (vec![0, 0x04, 2, 2], value(1)),
        (vec![0, 0x05], value(1)),
        (vec![0, 0x06, 0], value(2)),
        (vec![0, 0x07, 0, 1, 2], Answer::Done),
        (vec![0, 0x08, 0, 1, 2], Answer::Done),
        (vec![0, 0x09, 0], value(1)),
        (vec![0, 0x0A, 0], Answer::Done),
        (vec![0, 0x0B, 0], Answer::Done),
        (vec![0, 0x0C, 0], Answer::Done),
        (vec![0, 0x0D, 0], Answer::Done),
        (vec![0, 0x0E, 2], value(2)),
        (vec![1, 0x0F], Answer::Done),
        (vec![0, 0x10, 1], Answer::Done),
        (vec![0, 0x11], Answer::Done),
        ([&[0, 0x12, 2][..], &[0; 16]].concat(), value(3)),
        (vec![0, 0x13, 3], Answer::Done),
        (vec![0, 0x14, 0], message(b"")),
        (vec![0, 0x15, 0, 1, b'A'], Answer::Done),
        (vec![0, 0x16, 1, 1, b'B'], Answer::Done),
        (vec![0, 0x17, 1], message(b"A")),
        (vec![0, 0x18, 2], Answer::Done),
        (vec![0, 0x19, 2], Answer::Done),
        (vec![0, 0x1A, 1, b'C'], message(b"C")),
        (vec![0, 0x1B, 1, b'D'], message(b"D")),
    ]
}

#[test]
fn each_kind_answers_nothing_a_value_or_a_message() {
    let (mut monitor, _, _, _) = two_parties();
    for kind in [ObjectKind::Cell, ObjectKind::Queue, ObjectKind::Lock] {
        let made = monitor.new_object(OFFICE, kind, Label::EMPTY, Label::EMPTY);
        assert_eq!(made, Ok(Object(kind as u8)));
    }
    assert_eq!(monitor.put(OFFICE, Object(1), b"A"), Ok(()));
    for (kind, (frame, answer)) in (1..).zip(one_of_each_kind()) {
        assert_eq!(frame[1], kind);
        assert_eq!(monitor.request(&frame), answer, "kind {:02X}", kind);
    }
}
