//! Threads, objects and flow: section "Flow" of document 01 with the rows 0A to 1B,
//! readings F1 to F17.

use crate::common::*;
use second::places::{MESSAGE_PLACE, OBJECT_MESSAGES};
use second::state::{Contents, ObjectRow, ThreadRow};
use second::things::*;
use std::collections::VecDeque;

const CELL: &str = "00 12 00 0000000000000000 0000000000000000";
const QUEUE: &str = "00 12 01 0000000000000000 0000000000000000";
const LOCK: &str = "00 12 02 0000000000000000 0000000000000000";

#[test]
fn f1_thread_0_can_end_and_all_can() {
    let mut host = Host::after(&["00 0E 01", "00 0F", "01 0F"]);
    assert!(host.state().threads.is_empty());
    host.expect(&[("00 01", "02"), ("01 04 00 00", "02"), ("00 0F", "02")]);
    host.expect(&[("00 FF", "01")]);
}

#[test]
fn f1_the_number_is_free_for_fork() {
    let mut host = Host::after(&["00 0E 01", "00 0F"]);
    host.expect(&[("01 0E 01", "0000"), ("00 04 01 01", "0001")]);
}

#[test]
fn f2_end_inside_a_call_frees_the_whole_record() {
    let mut host = Host::after(&["00 01", "00 0E 01", "01 10 02", "01 10 02", "01 0F"]);
    assert_eq!(host.places.threads[1], Default::default());
    host.expect(&[("00 0E 01", "0001"), ("01 11", "08")]);
}

#[test]
fn f3_fork_copies_labels_and_puts_nothing_aside() {
    let mut host = Host::after(&["00 01", "00 05", "00 05", "00 0C 01", "00 10 02"]);
    host.expect(&[("00 0E 02", "0001")]);
    let expected = ThreadRow {
        principal: Principal(2),
        secrecy: Label::default(),
        integrity: Label::from_bits(0b10),
        put_aside: Vec::new(),
    };
    assert_eq!(host.thread(1), expected);
    assert_eq!(host.thread(0).put_aside, [OFFICE]);
    // Later changes of the one are not changes of the other.
    host.done(&["00 0D 01"]);
    assert_eq!(host.thread(1), expected);
}

#[test]
fn f4_threads_take_the_lowest_free_number() {
    let mut host = Host::fresh();
    for n in 1..16 {
        assert_eq!(host.ask("00 0E 01"), format!("00{:02X}", n));
    }
    host.expect(&[("00 0E 01", "07")]);
    host.done(&["09 0F", "03 0F", "0C 0F"]);
    host.expect(&[
        ("00 0E 01", "0003"),
        ("00 0E 01", "0009"),
        ("00 0E 01", "000C"),
    ]);
    host.expect(&[("00 0E 01", "07")]);
}

#[test]
fn f4_objects_take_the_lowest_free_number() {
    let mut host = Host::fresh();
    for n in 0..64 {
        assert_eq!(host.ask(CELL), format!("00{:02X}", n));
    }
    host.expect(&[(CELL, "07")]);
    host.done(&["00 13 3F", "00 13 00", "00 13 20"]);
    host.expect(&[
        (CELL, "0000"),
        (QUEUE, "0020"),
        (LOCK, "003F"),
        (LOCK, "07"),
    ]);
}

#[test]
fn f4_a_reused_number_names_the_new_object() {
    let mut host = Host::after(&[QUEUE, "00 16 00 01 41", "00 13 00", CELL]);
    host.expect(&[("00 14 00", "0000"), ("00 17 00", "03")]);
    host.done(&["00 15 00 01 42", "00 13 00", QUEUE]);
    host.expect(&[("00 17 00", "08"), ("00 14 00", "03")]);
    host.done(&["00 13 00", LOCK, "00 18 00", "00 13 00", LOCK]);
    host.expect(&[("00 18 00", "00")]);
}

#[test]
fn f4_principals_and_tags_take_the_next_number() {
    let mut host = Host::fresh();
    for n in 2..64 {
        assert_eq!(host.ask("00 01"), format!("00{:02X}", n));
    }
    for n in 0..64 {
        assert_eq!(host.ask("00 05"), format!("00{:02X}", n));
    }
    host.expect(&[("00 01", "07"), ("00 05", "07")]);
}

/// Sets the labels of thread 0.
fn set_labels(host: &mut Host, secrecy: u64, integrity: u64) {
    host.edit(|state| {
        let thread = state.threads.get_mut(&Thread(0)).expect("live");
        thread.secrecy = Label::from_bits(secrecy);
        thread.integrity = Label::from_bits(integrity);
    });
}

fn two_tags() -> Host {
    Host::after(&["00 05", "00 05"])
}

/// All pairs of labels over two tags.
fn label_pairs() -> Vec<(u64, u64)> {
    (0..4).flat_map(|a| (0..4).map(move |b| (a, b))).collect()
}

fn within(a: u64, b: u64) -> bool {
    a & !b == 0
}

#[test]
fn f5_new_object_needs_null_and_i_within_i() {
    for (big_s, big_i) in label_pairs() {
        for (s, i) in label_pairs() {
            let mut host = two_tags();
            set_labels(&mut host, big_s, big_i);
            let frame = format!("00 12 00 {} {}", label(s), label(i));
            let met = big_s == 0 && within(i, big_i);
            let expected = if met { "0000" } else { "04" };
            assert_eq!(
                host.ask(&frame),
                expected,
                "{} {} {} {}",
                big_s,
                big_i,
                s,
                i
            );
        }
    }
}

fn object(s: u64, i: u64, contents: Contents) -> ObjectRow {
    ObjectRow {
        secrecy: Label::from_bits(s),
        integrity: Label::from_bits(i),
        contents,
    }
}

/// Asks a frame about object 0 under every choice of labels over two tags, and
/// compares 4 with the rule; every other answer has to be the one given.
fn under_all_labels(frame: &str, done: &str, contents: Contents, rule: fn([u64; 4]) -> bool) {
    for (big_s, big_i) in label_pairs() {
        for (s, i) in label_pairs() {
            let mut host = two_tags();
            set_labels(&mut host, big_s, big_i);
            let row = object(s, i, contents.clone());
            host.edit(|state| {
                state.objects.insert(Object(0), row);
            });
            let expected = if rule([big_s, big_i, s, i]) {
                done
            } else {
                "04"
            };
            let labels = (big_s, big_i, s, i);
            assert_eq!(host.ask(frame), expected, "{} under {:?}", frame, labels);
        }
    }
}

fn read_rule([big_s, big_i, s, i]: [u64; 4]) -> bool {
    within(s, big_s) && within(big_i, i)
}

fn write_rule([big_s, big_i, s, i]: [u64; 4]) -> bool {
    within(big_s, s) && within(i, big_i)
}

fn both_rule([big_s, big_i, s, i]: [u64; 4]) -> bool {
    big_s == s && big_i == i
}

#[test]
fn f6_delete_needs_null_and_equal_integrity() {
    let rule = |[big_s, big_i, _, i]: [u64; 4]| big_s == 0 && big_i == i;
    let queue = Contents::Queue(VecDeque::from([vec![1]]));
    under_all_labels("00 13 00", "00", Contents::Cell(vec![1]), rule);
    under_all_labels("00 13 00", "00", queue, rule);
    under_all_labels("00 13 00", "00", Contents::Lock { held: true }, rule);
}

#[test]
fn f7_an_object_of_another_kind_is_3() {
    let mut host = Host::after(&[CELL, QUEUE, LOCK]);
    for (frames, own) in [
        (["00 14 {}", "00 15 {} 00"], 0),
        (["00 16 {} 00", "00 17 {}"], 1),
        (["00 18 {}", "00 19 {}"], 2),
    ] {
        for frame in frames {
            for o in 0..4 {
                let answer = host.ask(&frame.replace("{}", &format!("0{}", o)));
                assert_eq!(answer == "03", o != own, "{} on {}", frame, o);
            }
        }
    }
}

#[test]
fn f8_read_write_and_both() {
    let cell = Contents::Cell(vec![0x41]);
    let queue = Contents::Queue(VecDeque::from([vec![0x41]]));
    let lock = Contents::Lock { held: false };
    under_all_labels("00 14 00", "000141", cell.clone(), read_rule);
    under_all_labels("00 15 00 00", "00", cell, write_rule);
    under_all_labels("00 16 00 00", "00", queue.clone(), write_rule);
    under_all_labels("00 17 00", "000141", queue, both_rule);
    under_all_labels("00 18 00", "00", lock.clone(), both_rule);
    under_all_labels("00 19 00", "00", lock, write_rule);
}

#[test]
fn null_is_asked_of_its_kinds_and_of_no_other() {
    let null = [
        "00 01",
        "00 02 01 01",
        "00 03 01 01",
        "00 05",
        "00 06 00",
        "00 07 00 01 01",
        "00 08 00 01 01",
        "00 0E 01",
        "00 0F",
        "00 1A 00",
    ];
    let none = [
        "00 04 00 00",
        "00 09 00",
        "00 0A 00",
        "00 0B 00",
        "00 0C 00",
        "00 0D 00",
    ];
    for (big_s, big_i) in label_pairs() {
        for frame in null {
            let mut host = two_tags();
            set_labels(&mut host, big_s, big_i);
            assert_eq!(host.ask(frame) == "04", big_s != 0, "{}", frame);
        }
        for frame in none.iter().chain(&["00 10 01", "00 11"]) {
            let mut host = two_tags();
            set_labels(&mut host, big_s, big_i);
            assert_ne!(host.ask(frame), "04", "{}", frame);
        }
    }
}

#[test]
fn f9_a_supertag_in_a_label_does_not_stand_for_its_subtags() {
    // Tag 1 is a subtag of 0.
    let mut host = Host::after(&["00 05", "00 06 00"]);
    host.done(&[&format!("00 12 00 {} {}", label(0b10), label(0))]);
    host.done(&["00 0A 00"]);
    host.expect(&[("00 14 00", "04")]);
    host.done(&["00 0A 01"]);
    host.expect(&[("00 14 00", "0000")]);
    // 0B of the supertag leaves the subtag.
    host.done(&["00 0B 00"]);
    assert_eq!(host.thread(0).secrecy.bits(), 0b10);
    host.expect(&[("00 1A 00", "04")]);
}

#[test]
fn f10_a_tainted_thread_may_endorse_call_and_return() {
    let mut host = Host::after(&["00 01", "00 05", "00 0A 00"]);
    host.expect(&[
        ("00 0C 00", "00"),
        ("00 0D 00", "00"),
        ("00 10 02", "00"),
        ("00 11", "00"),
        ("00 0B 00", "00"),
    ]);
}

#[test]
fn f11_in_twice_and_out_twice_are_done() {
    let mut host = Host::after(&["00 05"]);
    host.expect(&[("00 0D 00", "00"), ("00 0A 00", "00")]);
    let before = host.state();
    host.expect(&[("00 0A 00", "00"), ("00 0D 00", "00")]);
    assert_eq!(host.state(), before);
}

#[test]
fn f11_anyone_may_taint_himself() {
    let mut host = Host::after(&["00 01", "00 05", "00 0E 02"]);
    host.expect(&[("01 0A 00", "00"), ("01 0D 00", "00"), ("01 0B 00", "05")]);
    assert_eq!(host.thread(1).secrecy.bits(), 1);
}

#[test]
fn f12_a_lock_has_no_owner() {
    let mut host = Host::after(&["00 01", "00 0E 02", LOCK, "00 18 00"]);
    host.expect(&[("01 18 00", "08"), ("00 18 00", "08"), ("01 19 00", "00")]);
    host.expect(&[("01 18 00", "00"), ("00 19 00", "00"), ("00 19 00", "00")]);
}

#[test]
fn f12_a_writer_is_not_told_whether_it_was_locked() {
    // Thread 0 may write up to the lock under tag 0 but not read it.
    let lock = format!("00 12 02 {} {}", label(1), label(0));
    let mut host = Host::after(&["00 05", &lock, "00 0E 01", "01 0A 00"]);
    host.expect(&[("00 19 00", "00"), ("01 18 00", "00"), ("00 19 00", "00")]);
    host.expect(&[("01 18 00", "00"), ("00 18 00", "04")]);
}

#[test]
fn f13_send_out_and_bring_in() {
    for (big_s, big_i) in label_pairs() {
        let mut host = two_tags();
        set_labels(&mut host, big_s, big_i);
        let before = host.state();
        let out = if big_s == 0 { "0002CAFE" } else { "04" };
        let brought = if big_i == 0 { "0002CAFE" } else { "04" };
        host.expect(&[("00 1A 02 CAFE", out), ("00 1B 02 CAFE", brought)]);
        assert_eq!(host.state(), before);
    }
}

#[test]
fn f15_a_writer_that_may_not_read_may_not_lock() {
    let lock = format!("00 12 02 {} {}", label(1), label(0));
    let mut host = Host::after(&["00 05", &lock]);
    host.expect(&[("00 18 00", "04"), ("00 0A 00", "00"), ("00 18 00", "00")]);
}

#[test]
fn f17_an_unmade_tag_in_either_label_is_3() {
    let mut host = two_tags();
    for bits in [0b100, 1 << 63, u64::MAX] {
        host.expect(&[
            (&format!("00 12 00 {} {}", label(bits), label(0)), "03"),
            (&format!("00 12 02 {} {}", label(0), label(bits)), "03"),
            (&format!("00 12 03 {} {}", label(0), label(bits)), "01"),
        ]);
    }
}

#[test]
fn call_and_return_leave_the_labels() {
    let mut host = Host::after(&["00 01", "00 05", "00 10 02", "00 0A 00", "00 11"]);
    assert_eq!(host.thread(0).secrecy.bits(), 1);
    assert_eq!(host.thread(0).principal, OFFICE);
    host.done(&["00 0C 00", "00 10 02", "00 0D 00", "00 11"]);
    assert_eq!(host.thread(0).integrity.bits(), 0);
}

#[test]
fn calls_come_back_last_first() {
    let mut host = Host::after(&["00 01", "00 10 02", "00 01", "00 10 03"]);
    assert_eq!(host.thread(0).put_aside, [OFFICE, Principal(2)]);
    host.done(&["00 11"]);
    assert_eq!(host.thread(0).principal, Principal(2));
    host.done(&["00 11"]);
    assert_eq!(host.thread(0).principal, OFFICE);
    host.expect(&[("00 11", "08")]);
}

/// Unused places are zero again: readings C8.
#[test]
fn what_is_given_up_is_zero() {
    let mut host = Host::after(&[CELL, QUEUE, "00 15 00 04 01020304", "00 15 00 01 09"]);
    assert_eq!(host.places.messages[..5], [1, 9, 0, 0, 0]);
    host.done(&["00 16 01 02 0506", "00 16 01 01 07", "00 17 01"]);
    let second = &host.places.messages[OBJECT_MESSAGES..];
    assert_eq!(second[..3], [1, 7, 0]);
    assert!(second[MESSAGE_PLACE..].iter().all(|byte| *byte == 0));
    host.done(&["00 13 00", "00 13 01"]);
    assert!(host.places.messages.iter().all(|byte| *byte == 0));
    host.done(&["00 01", "00 01", "00 10 02", "00 11"]);
    assert_eq!(host.places.threads[0].put_aside, [PUBLIC; 8]);
    host.done(&["00 03 02 01"]);
    assert_eq!(host.places.principal_link_count, 1);
    assert_eq!(host.places.principal_links[0].from, Principal(3));
    assert_eq!(host.places.principal_links[1], Default::default());
}
