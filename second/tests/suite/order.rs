//! The order of refusals: 10, 9, 1, 2, 3, 4, then the row's. Section "Refusal
//! numbers, in order of check" of document 01, readings B1 to B12.

use crate::common::*;
use second::answers::Refusal;
use second::authority::{Link, TagLink};
use second::entry::entry;
use second::things::*;

/// The office's thread 0 and a thread 1 of principal 2, tags 0 and its subtag 1,
/// a cell 0, a queue 1 and a lock 2 under empty labels.
fn desk() -> Host {
    Host::after(&[
        "00 01",
        "00 01",
        "00 0E 02",
        "00 05",
        "00 06 00",
        "00 12 00 0000000000000000 0000000000000000",
        "00 12 01 0000000000000000 0000000000000000",
        "00 12 02 0000000000000000 0000000000000000",
    ])
}

/// Fills the principal links up to 256, by principals up to 63.
fn fill_principal_links(host: &mut Host) {
    host.edit(|state| {
        let authority = &mut state.authority;
        authority.principals = MAX_PRINCIPALS;
        let downwards = (2..64).flat_map(|p| (1..p).map(move |q| (p, q)));
        for (p, q) in downwards {
            let link = Link {
                from: Principal(p),
                to: Principal(q),
            };
            let room = authority.principal_links.len() < MAX_LINKS;
            if room && !authority.principal_links.contains(&link) {
                authority.principal_links.push(link);
            }
        }
        assert_eq!(authority.principal_links.len(), 256);
    });
}

/// Fills the tag links of tag 0 up to 256.
fn fill_tag_links(host: &mut Host) {
    host.edit(|state| {
        let authority = &mut state.authority;
        authority.principals = MAX_PRINCIPALS;
        let upwards = (1..64).flat_map(|p| (p + 1..64).map(move |q| (p, q)));
        authority.tag_links = upwards
            .take(MAX_LINKS)
            .map(|(p, q)| TagLink {
                tag: Tag(0),
                link: Link {
                    from: Principal(p),
                    to: Principal(q),
                },
            })
            .collect();
    });
}

#[test]
fn b1_10_before_9() {
    let mut host = desk();
    host.places.memory.hits = 1000;
    let before = host.places.clone();
    let mut buffer = [BEFORE; 33];
    let answer = entry(&mut host.places, &hex("FF FF"), &mut buffer);
    assert_eq!(answer, Err(Refusal::ShortBuffer));
    assert_eq!(buffer, [BEFORE; 33]);
    assert_eq!(host.places, before);
}

#[test]
fn b1_9_before_1() {
    let mut host = desk();
    host.places.memory.hits = 1000;
    host.expect(&[("", "09"), ("00", "09"), ("00 FF", "09"), ("0F 01", "09")]);
}

#[test]
fn b1_1_before_2() {
    // Thread 0F is not live.
    desk().expect(&[
        ("0F 00", "01"),
        ("0F 1C", "01"),
        ("0F 01 00", "01"),
        ("0F", "01"),
    ]);
}

#[test]
fn b1_2_before_3() {
    desk().expect(&[("0F 09 63", "02"), ("0F 06 01", "02"), ("0F 14 02", "02")]);
}

#[test]
fn b1_3_before_4() {
    let mut host = desk();
    host.done(&["01 0A 00"]);
    host.expect(&[
        ("01 02 00 63", "03"),
        ("01 03 63 00", "03"),
        ("01 06 63", "03"),
        ("01 07 63 00 00", "03"),
        ("01 08 00 00 63", "03"),
        ("01 0E 63", "03"),
        ("01 13 63", "03"),
        // The lock named as a cell, which the thread could not write either.
        ("01 15 02 00", "03"),
    ]);
}

#[test]
fn b1_4_before_5() {
    let mut host = desk();
    host.done(&["01 0A 00"]);
    host.expect(&[
        ("01 02 01 00", "04"),
        ("01 03 01 02", "04"),
        ("01 06 00", "04"),
        ("01 07 00 01 02", "04"),
        ("01 08 00 01 02", "04"),
        ("01 0E 01", "04"),
    ]);
    assert_eq!(host.counters(), (1, 0));
}

#[test]
fn b2_all_reasons_for_1_come_before_2() {
    let mut host = desk();
    host.expect(&[
        ("0F 12 03 0000000000000000 0000000000000000", "01"),
        ("0F 1A 21", "01"),
        ("0F 1A 01", "01"),
        ("0F 09", "01"),
    ]);
    // And before 3: object kind 3 with labels of unmade tags.
    host.expect(&[("00 12 03 FFFFFFFFFFFFFFFF 0000000000000000", "01")]);
}

#[test]
fn b3_a_thread_byte_of_16_or_more_is_2() {
    let mut host = desk();
    for thread in 2..=255u8 {
        let frame = digits(&[thread, 0x01]);
        assert_eq!(host.ask(&frame), "02", "thread {}", thread);
    }
}

#[test]
fn b4_all_3s_come_before_any_4() {
    let mut host = desk();
    host.done(&["01 0A 00"]);
    let questions = host.counters();
    host.expect(&[
        // An unmade tag in s, in i.
        ("01 12 00 0000000000000004 0000000000000000", "03"),
        ("01 12 00 0000000000000000 0000000000000004", "03"),
        // i is not within I either.
        ("00 12 00 0000000000000000 0000000000000005", "03"),
        // A subtag in 06.
        ("01 06 01", "03"),
    ]);
    assert_eq!(host.counters(), questions);
}

#[test]
fn b5_the_need_comes_before_5_to_8() {
    // 2 is no one the caller acts for; the queue is empty, the lock held.
    let mut host = desk();
    host.done(&["00 18 02", "01 0A 00"]);
    host.expect(&[
        ("01 01", "04"),
        ("01 05", "04"),
        ("01 17 01", "04"),
        ("01 18 02", "04"),
    ]);
    for _ in 0..8 {
        host.done(&["00 16 01 00"]);
    }
    host.expect(&[("01 16 01 00", "04"), ("00 16 01 00", "07")]);
    for _ in 0..61 {
        host.done(&["00 12 00 0000000000000000 0000000000000000"]);
    }
    host.expect(&[
        ("01 12 00 0000000000000000 0000000000000000", "04"),
        ("00 12 00 0000000000000000 0000000000000000", "07"),
    ]);
    // i not within I is 4 as well, with 64 objects.
    host.expect(&[("00 12 00 0000000000000000 0000000000000001", "04")]);
    for _ in 0..14 {
        host.done(&["00 0E 01"]);
    }
    host.expect(&[("01 0E 02", "04"), ("00 0E 02", "07")]);
}

#[test]
fn b6_delegate_5_then_done_then_6_then_7() {
    let mut host = desk();
    fill_principal_links(&mut host);
    let (p, q) = (Principal(2), Principal(1));
    let there = Link { from: p, to: q };
    assert!(host.state().authority.principal_links.contains(&there));
    host.expect(&[
        // Thread 1 runs as 2, who does not act for 1.
        ("01 02 01 02", "05"),
        ("01 02 01 01", "05"),
        ("00 02 02 00", "05"),
        // A link that is there is done with 256 links held.
        ("00 02 02 01", "00"),
        // P = Q, and a path from Q to P, with 256 links held.
        ("00 02 02 02", "06"),
        ("00 02 01 02", "06"),
        // No link, no path: only room is wanting.
        ("00 02 01 3F", "07"),
    ]);
    assert_eq!(host.state().authority.principal_links.len(), 256);
}

#[test]
fn b6_delegate_of_the_public_to_itself_is_5() {
    let mut host = desk();
    host.make_public(0);
    host.expect(&[("00 02 00 00", "05")]);
}

#[test]
fn b7_grant_5_then_done_then_6_then_7() {
    let mut host = desk();
    fill_tag_links(&mut host);
    fill_principal_links(&mut host);
    host.expect(&[
        // Not acting for 1; not a node of tag 1's own graph; to the public.
        ("01 07 00 01 02", "05"),
        ("00 07 01 02 03", "05"),
        ("00 07 00 01 00", "05"),
        ("00 07 00 01 02", "00"),
        ("00 07 00 01 01", "06"),
        ("00 07 00 02 01", "06"),
        ("00 07 01 01 02", "07"),
    ]);
    assert_eq!(host.state().authority.tag_links.len(), 256);
}

#[test]
fn b8_already_there_comes_before_the_authority_check() {
    // 2 is authoritative for neither tag.
    let mut host = desk();
    let before = host.counters();
    host.expect(&[("01 0B 00", "00")]);
    assert_eq!(host.counters(), before);
    host.edit(|state| {
        let thread = state.threads.get_mut(&Thread(1)).expect("live");
        thread.integrity.add(Tag(0));
    });
    host.expect(&[("01 0C 00", "00")]);
    assert_eq!(host.counters(), before);
    host.expect(&[("01 0C 01", "05"), ("01 0A 00", "00"), ("01 0B 00", "05")]);
    assert_eq!(host.counters(), (before.0 + 2, before.1));
}

#[test]
fn b9_new_subtag_5_before_7() {
    let mut host = desk();
    for _ in 0..62 {
        host.done(&["00 05"]);
    }
    let (questions, hits) = host.counters();
    host.expect(&[("01 06 00", "05"), ("00 06 02", "07")]);
    assert_eq!(host.counters(), (questions + 2, hits));
}

#[test]
fn b10_call_5_before_7() {
    let mut host = desk();
    for _ in 0..8 {
        host.done(&["01 10 02"]);
    }
    host.expect(&[("01 10 01", "05"), ("01 10 02", "07")]);
}

#[test]
fn fork_5_before_7() {
    let mut host = desk();
    for _ in 0..14 {
        host.done(&["00 0E 01"]);
    }
    host.expect(&[("01 0E 01", "05"), ("01 0E 02", "07")]);
}

#[test]
fn b11_get_and_lock_4_before_8() {
    let mut host = desk();
    host.done(&["00 18 02", "00 0C 00"]);
    // Endorsed by tag 0 the office may write, but I and i differ.
    host.expect(&[("00 17 01", "04"), ("00 18 02", "04")]);
    host.done(&["00 0D 00"]);
    host.expect(&[("00 17 01", "08"), ("00 18 02", "08")]);
}

#[test]
fn b12_new_principal_4_then_5_then_7() {
    let mut host = desk();
    host.edit(|state| state.authority.principals = MAX_PRINCIPALS);
    host.make_public(1);
    host.done(&["01 0A 00"]);
    host.expect(&[("01 01", "04")]);
    host.edit(|state| {
        let thread = state.threads.get_mut(&Thread(1)).expect("live");
        thread.secrecy.remove(Tag(0));
    });
    host.expect(&[("01 01", "05"), ("00 01", "07")]);
}

#[test]
fn b12_new_principal_with_256_links_is_7() {
    let mut host = desk();
    fill_principal_links(&mut host);
    // Fewer than 64 principals: those that no link names are not made.
    host.edit(|state| {
        let named = |l: &Link| l.from.max(l.to).0;
        let links = &state.authority.principal_links;
        let highest = links.iter().map(named).max().expect("256 links");
        state.authority.principals = usize::from(highest) + 1;
        assert!(state.authority.principals < MAX_PRINCIPALS);
    });
    host.expect(&[("00 01", "07")]);
}

#[test]
fn new_tag_4_then_5_then_7() {
    let mut host = desk();
    for _ in 0..62 {
        host.done(&["00 05"]);
    }
    host.make_public(1);
    host.expect(&[
        ("01 05", "05"),
        ("00 05", "07"),
        ("01 0A 00", "00"),
        ("01 05", "04"),
    ]);
}
