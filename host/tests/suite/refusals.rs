//! Each refusal by a list of requests as short as can be. 9 and 10 are given only to a host
//! that lends its own tables and buffer.

use crate::common::*;
use suvdorkhun::lend;
use suvdorkhun::{Answer, Label, Monitor, ObjectKind, Principal, Refusal, Tag, Thread};

#[test]
fn refusal_1_malformed() {
    let mut monitor = fresh();
    let refused = Answer::Refused(Refusal::Malformed);
    assert_eq!(monitor.request(&[]), refused);
    assert_eq!(monitor.request(&[0]), refused);
    assert_eq!(monitor.request(&[0, 0x1C]), refused);
    assert_eq!(monitor.request(&[0, 0x01, 0]), refused);
    assert_eq!(monitor.request(&[9, 0x00]), refused);
}

#[test]
fn refusal_1_for_messages_over_32_bytes() {
    let mut monitor = fresh();
    let kind = ObjectKind::Cell;
    let cell = monitor.new_object(OFFICE, kind, Label::EMPTY, Label::EMPTY);
    let cell = cell.expect("a first object");
    assert_eq!(monitor.write_cell(OFFICE, cell, &[7; 32]), Ok(()));
    for length in [33, 34, 255, 256, 257, 288, 511, 512, 4096] {
        let message = vec![7; length];
        let refused = Err(Refusal::Malformed);
        assert_eq!(monitor.write_cell(OFFICE, cell, &message), refused);
        assert_eq!(monitor.put(OFFICE, cell, &message), refused);
        assert_eq!(monitor.send_out(OFFICE, &message), Err(Refusal::Malformed));
        assert_eq!(monitor.bring_in(OFFICE, &message), Err(Refusal::Malformed));
    }
    assert_eq!(monitor.read_cell(OFFICE, cell), Ok(vec![7; 32]));
}

#[test]
fn refusal_2_not_live() {
    assert_eq!(fresh().new_tag(Thread(1)), Err(Refusal::NotLive));
    assert_eq!(fresh().new_tag(Thread(255)), Err(Refusal::NotLive));
}

#[test]
fn refusal_3_names_nothing() {
    let refused = Err(Refusal::NamesNothing);
    assert_eq!(fresh().authoritative(OFFICE, Tag(0)), refused);
    assert_eq!(
        fresh().acts_for(OFFICE, Principal(2), Principal(1)),
        refused
    );
}

#[test]
fn refusal_4_flow() {
    let mut monitor = fresh();
    let tag = monitor.new_tag(OFFICE).expect("a first tag");
    let vouched = monitor.new_object(OFFICE, ObjectKind::Cell, Label::EMPTY, Label::from(tag));
    assert_eq!(vouched, Err(Refusal::Flow));
}

#[test]
fn refusal_5_authority() {
    let refused = Err(Refusal::Authority);
    assert_eq!(
        fresh().fork(OFFICE, Principal::PUBLIC),
        Err(Refusal::Authority)
    );
    assert_eq!(fresh().call(OFFICE, Principal::PUBLIC), refused);
}

#[test]
fn refusal_6_cycle() {
    let office = Principal::OFFICE;
    assert_eq!(
        fresh().delegate(OFFICE, office, office),
        Err(Refusal::Cycle)
    );
}

#[test]
fn refusal_7_full() {
    let mut monitor = fresh();
    for _ in 0..8 {
        assert_eq!(monitor.call(OFFICE, Principal::OFFICE), Ok(()));
    }
    assert_eq!(monitor.call(OFFICE, Principal::OFFICE), Err(Refusal::Full));
}

#[test]
fn refusal_8_empty_or_held() {
    assert_eq!(fresh().return_from_call(OFFICE), Err(Refusal::EmptyOrHeld));
}

#[test]
fn refusal_9_broken_tables() {
    let mut answer = [7; lend::ANSWER];
    let mut lent = Lent::fresh();
    lent.links.pop();
    let before = lent.state;
    let reply = lent.request(&[0, 0x01], &mut answer);
    assert_eq!((reply.status, reply.written), (9, 1));
    assert_eq!((answer[0], &answer[1..]), (9, &[7; 33][..]));
    assert_eq!(lent.state, before);
}

#[test]
fn refusal_10_short_buffer() {
    let mut answer = [7; lend::ANSWER - 1];
    let mut lent = Lent::fresh();
    let before = lent.state;
    let reply = lent.request(&[0, 0x01], &mut answer);
    assert_eq!((reply.status, reply.written), (10, 0));
    assert_eq!(answer, [7; 33]);
    assert_eq!(lent.state, before);
    assert_eq!(lent.request(&[0, 0x01], &mut []).status, 10);
}

#[test]
fn refusal_11_memory_size() {
    assert!(Monitor::new(64).is_ok());
    assert_eq!(Monitor::new(65).map(|_| ()), Err(Refusal::MemorySize));
    assert_eq!(suvdorkhun::run(65, b"0001\n"), Err(Refusal::MemorySize));
}

#[test]
fn each_has_its_number_its_name_and_a_sentence() {
    for (number, refusal) in (1..).zip(Refusal::ALL) {
        assert_eq!(refusal.number(), number);
        assert_eq!(Refusal::from_number(number), Some(refusal));
        let words = format!(
            "refused {}, {}: {}",
            number,
            refusal.name(),
            refusal.sentence()
        );
        assert_eq!(refusal.to_string(), words);
        assert_eq!(Answer::Refused(refusal).to_string(), words);
    }
    assert_eq!(Refusal::from_number(0), None);
    assert_eq!(Refusal::from_number(12), None);
}
