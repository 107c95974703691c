//! Section "Near the edges" of document 01: the twelve numbered cases, and the
//! ninth call.

use crate::common::*;
use second::authority::{Link, TagLink};
use second::rules::all_broken;
use second::things::*;

const CELL: &str = "00 12 00 0000000000000000 0000000000000000";
const QUEUE: &str = "00 12 01 0000000000000000 0000000000000000";
const LOCK: &str = "00 12 02 0000000000000000 0000000000000000";

fn link(from: u8, to: u8) -> Link {
    Link {
        from: Principal(from),
        to: Principal(to),
    }
}

#[test]
fn edge_1_principal_5_acts_for_5_with_no_links() {
    let mut host = Host::fresh();
    host.edit(|state| state.authority.principals = 6);
    assert!(host.state().authority.principal_links.is_empty());
    host.expect(&[("00 04 05 05", "0001")]);
}

#[test]
fn edge_2_delegate_to_oneself() {
    let mut host = Host::after(&["00 01"]);
    host.expect(&[("00 02 02 02", "06"), ("00 02 01 01", "06")]);
    // "not 0": there "Q public 5" stands first, even for the public itself.
    host.expect(&[("00 02 00 00", "05")]);
    host.make_public(0);
    host.expect(&[("00 02 00 00", "05")]);
}

#[test]
fn edge_3_the_same_link_twice() {
    let mut host = Host::after(&["00 01", "00 01"]);
    host.expect(&[("00 02 02 03", "00"), ("00 02 02 03", "00")]);
    let links = host.state().authority.principal_links;
    assert_eq!(links, [link(2, 1), link(3, 1), link(2, 3)]);
}

#[test]
fn edge_4_a_public_thread_delegates_from_0_to_2() {
    let mut host = Host::after(&["00 01", "00 0E 01"]);
    host.make_public(0);
    host.expect(&[("00 02 00 02", "00")]);
    assert!(host.state().authority.principal_links.contains(&link(0, 2)));
    assert_eq!(all_broken(&host.places), []);
    // 2 acts for 0 now, and so does 1, who acts for 2.
    host.expect(&[("01 04 02 00", "0001"), ("01 04 01 00", "0001")]);
}

#[test]
fn edge_5_revoking_an_absent_link_keeps_the_memory() {
    let mut host = Host::after(&["00 01", "00 01", "00 05", "00 09 00"]);
    assert_eq!(host.pairs(), [(1, 0)]);
    host.expect(&[("00 03 02 03", "00")]);
    assert_eq!(host.pairs(), [(1, 0)]);
    host.expect(&[("00 08 00 01 02", "00")]);
    assert_eq!(host.pairs(), [(1, 0)]);
}

#[test]
fn edge_6_cut_off_upstream_and_restored() {
    let mut host = Host::after(&["00 01", "00 01", "00 05", "00 0E 02", "00 0E 03"]);
    host.expect(&[
        ("00 07 00 01 02", "00"),
        ("01 07 00 02 03", "00"),
        ("02 09 00", "0001"),
        ("00 08 00 01 02", "00"),
        ("02 09 00", "0000"),
        ("01 09 00", "0000"),
        ("00 07 00 01 02", "00"),
        ("02 09 00", "0001"),
    ]);
}

#[test]
fn edge_7_supertag_and_subtag() {
    // 2 is granted the supertag 0, 3 only the subtag 1.
    let mut host = Host::after(&["00 01", "00 01", "00 05", "00 06 00"]);
    host.done(&["00 0E 02", "00 0E 03", "00 07 00 01 02", "00 07 01 01 03"]);
    host.expect(&[
        ("01 09 00", "0001"),
        ("01 09 01", "0001"),
        ("02 09 01", "0001"),
        ("02 09 00", "0000"),
    ]);
}

#[test]
fn edge_8_messages_of_32_and_33_bytes() {
    let mut host = Host::after(&[CELL, QUEUE]);
    let (taken, refused) = ("42".repeat(32), "42".repeat(33));
    for operand in ["00 15 00", "00 16 01", "00 1A", "00 1B"] {
        let answer = host.ask(&format!("{} 20 {}", operand, taken));
        assert!(answer.starts_with("00"), "{}", operand);
        assert_eq!(host.ask(&format!("{} 21 {}", operand, refused)), "01");
    }
    let back = format!("0020{}", taken);
    host.expect(&[("00 14 00", &back), ("00 17 01", &back)]);
}

#[test]
fn edge_9_put_on_seven_and_on_eight_held() {
    let mut host = Host::after(&[QUEUE]);
    for n in 0..7 {
        assert_eq!(host.ask(&format!("00 16 00 01 0{}", n)), "00");
    }
    host.expect(&[("00 16 00 01 07", "00"), ("00 16 00 01 08", "07")]);
    for n in 0..8 {
        assert_eq!(host.ask("00 17 00"), format!("00010{}", n));
    }
    host.expect(&[("00 17 00", "08")]);
}

#[test]
fn edge_10_unlock_of_an_unlocked_lock() {
    let mut host = Host::after(&[LOCK]);
    host.expect(&[
        ("00 19 00", "00"),
        ("00 18 00", "00"),
        ("00 18 00", "08"),
        ("00 19 00", "00"),
        ("00 19 00", "00"),
        ("00 18 00", "00"),
    ]);
}

#[test]
fn edge_11_new_subtag_with_64_tags() {
    let mut host = Host::fresh();
    for _ in 0..64 {
        host.done(&["00 05"]);
    }
    host.expect(&[("00 05", "07")]);
    assert_eq!(host.counters(), (0, 0));
    host.expect(&[("00 06 3F", "07")]);
    assert_eq!(host.counters(), (1, 0));
    assert_eq!(host.pairs(), [(1, 63)]);
}

#[test]
fn edge_12_memory_of_size_0() {
    let mut host = Host::with_memory(0);
    host.expect(&[
        ("00 05", "0000"),
        ("00 09 00", "0001"),
        ("00 09 00", "0001"),
        ("00 09 00", "0001"),
    ]);
    assert_eq!(host.pairs(), []);
    assert_eq!(host.counters(), (3, 0));
}

#[test]
fn the_ninth_call_deep() {
    let mut host = Host::after(&["00 01"]);
    for _ in 0..8 {
        host.expect(&[("00 10 01", "00")]);
    }
    host.expect(&[("00 10 01", "07")]);
    for _ in 0..8 {
        host.expect(&[("00 11", "00")]);
    }
    host.expect(&[("00 11", "08")]);
}

/// Edge 6 again, on the tables: the cut-off link stays recorded.
#[test]
fn a_cut_off_link_stays_recorded() {
    let mut host = Host::after(&["00 01", "00 01", "00 05"]);
    host.done(&["00 07 00 01 02", "00 07 00 02 03", "00 08 00 01 02"]);
    let cut_off = TagLink {
        tag: Tag(0),
        link: link(2, 3),
    };
    assert_eq!(host.state().authority.tag_links, [cut_off]);
}
