//! Section "Who may do what" of document 01 with the rows 01 to 09: readings A5
//! to A8 and E1 to E11.

use crate::common::*;
use second::authority::{Authority, Link, TagLink, TagRow};
use second::things::*;

fn links(pairs: &[(u8, u8)]) -> Vec<Link> {
    let link = |(p, q): &(u8, u8)| Link {
        from: Principal(*p),
        to: Principal(*q),
    };
    pairs.iter().map(link).collect()
}

/// Principals 2 to 5 made by the office, tag 0, and threads 1 to 4 of 2 to 5.
fn desk() -> Host {
    let mut host = Host::after(&["00 01", "00 01", "00 01", "00 01", "00 05"]);
    host.done(&["00 0E 02", "00 0E 03", "00 0E 04", "00 0E 05"]);
    host
}

#[test]
fn a5_the_direction_of_acts_for() {
    let mut host = desk();
    host.done(&["00 02 02 03"]);
    host.expect(&[("00 04 03 02", "0001"), ("00 04 02 03", "0000")]);
    // 01 links the new one to its maker.
    host.expect(&[("00 04 01 02", "0001"), ("00 04 02 01", "0000")]);
}

#[test]
fn a6_04_is_about_its_operands_and_09_about_the_caller() {
    let mut host = desk();
    host.expect(&[("01 04 01 02", "0001"), ("01 04 02 01", "0000")]);
    host.expect(&[("00 09 00", "0001"), ("01 09 00", "0000")]);
}

#[test]
fn a7_the_caller_is_whom_the_thread_runs_as_now() {
    let mut host = desk();
    host.done(&["00 10 02"]);
    // The called-as one is linked to, is the root, and is asked for.
    host.expect(&[("00 01", "0006"), ("00 05", "0001"), ("00 09 01", "0001")]);
    let state = host.state();
    let made = state.authority.principal_links.last().copied();
    assert_eq!(made, links(&[(6, 2)]).pop());
    assert_eq!(state.authority.tags[1].root, Principal(2));
    assert_eq!(host.pairs(), [(2, 1)]);
    // 2 does not act for 1 whom it put aside.
    host.expect(&[("00 09 00", "0000"), ("00 10 01", "05")]);
    host.done(&["00 11"]);
    host.expect(&[("00 09 00", "0001")]);
}

#[test]
fn a8_the_root_of_a_subtag_is_its_maker() {
    let mut host = desk();
    host.done(&["00 07 00 01 02"]);
    host.expect(&[("01 06 00", "0001")]);
    let tags = host.state().authority.tags;
    let expected = TagRow {
        root: Principal(2),
        supertag: Some(Tag(0)),
    };
    assert_eq!(tags[1], expected);
    // Withdrawn from the supertag, the maker still holds its subtag.
    host.done(&["00 08 00 01 02"]);
    host.expect(&[("01 09 00", "0000"), ("01 09 01", "0001")]);
}

#[test]
fn e1_a_principal_met_twice() {
    // Two ways from 2 to 5, one of them cut: the answer is by the other.
    let mut host = desk();
    host.done(&["00 02 02 03", "00 02 02 04", "00 02 03 05", "00 02 04 05"]);
    host.expect(&[("00 04 05 02", "0001")]);
    host.done(&["00 03 03 05"]);
    host.expect(&[("00 04 05 02", "0001")]);
    host.done(&["00 03 02 04"]);
    host.expect(&[("00 04 05 02", "0000")]);
}

#[test]
fn e1_the_walk_ends_on_every_graph() {
    // Also where links go round, which the rules of 9 keep out.
    let authority = Authority {
        principals: 6,
        principal_links: links(&[(2, 3), (3, 4), (4, 2), (4, 4)]),
        tags: vec![TagRow {
            root: OFFICE,
            supertag: None,
        }],
        tag_links: Vec::new(),
    };
    for p in 0..6 {
        for q in 0..6 {
            let round = (2..5).contains(&p) && (2..5).contains(&q);
            let acts = authority.acts_for(Principal(p), Principal(q));
            assert_eq!(acts, p == q || round, "{} for {}", p, q);
        }
    }
}

#[test]
fn e2_everyone_acts_for_himself_if_made() {
    let mut host = desk();
    for p in 0..6 {
        assert_eq!(host.ask(&format!("00 04 0{} 0{}", p, p)), "0001");
    }
    host.expect(&[("00 04 06 06", "03"), ("00 04 FF FF", "03")]);
}

#[test]
fn e3_grant_asks_for_the_tags_own_graph() {
    // 2 holds the supertag 0; the subtag 1 is the office's.
    let mut host = desk();
    host.done(&["00 07 00 01 02", "00 06 00"]);
    host.expect(&[("01 09 01", "0001"), ("01 07 01 02 03", "05")]);
    host.expect(&[("00 07 01 02 03", "05"), ("00 07 01 01 02", "00")]);
    host.expect(&[("01 07 01 02 03", "00")]);
}

#[test]
fn e4_acting_for_a_node_makes_no_node() {
    // 2 acts for the office, the root, but is no counted node itself.
    let mut host = desk();
    host.edit(|state| {
        let made = state.authority.principal_links.iter();
        let kept = made.filter(|l| l.from != Principal(2)).copied();
        state.authority.principal_links = kept.collect();
    });
    host.done(&["00 02 01 02"]);
    host.expect(&[("01 09 00", "0001"), ("01 07 00 02 03", "05")]);
    // As the office, for whom 2 acts, the grant is done.
    host.expect(&[("01 07 00 01 03", "00")]);
    // And a node may not be used by one who does not act for it.
    host.expect(&[("02 09 00", "0001"), ("03 07 00 03 04", "05")]);
}

#[test]
fn e4_a_dangling_link_makes_no_node() {
    let mut host = desk();
    host.done(&["00 07 00 01 02", "00 07 00 02 03", "00 08 00 01 02"]);
    // Both ends of the link from 2 to 3 are named, and neither counts.
    host.expect(&[("01 09 00", "0000"), ("02 09 00", "0000")]);
    host.expect(&[("01 07 00 02 04", "05"), ("02 07 00 03 04", "05")]);
}

#[test]
fn e5_ungrant_does_not_ask_for_a_counted_node() {
    let mut host = desk();
    host.done(&["00 07 00 01 02", "00 07 00 02 03", "00 08 00 01 02"]);
    host.expect(&[("01 08 00 02 03", "00")]);
    assert!(host.state().authority.tag_links.is_empty());
}

#[test]
fn e5_a_removal_to_the_public_is_done_with_no_change() {
    let mut host = desk();
    host.done(&["00 09 00"]);
    let before = host.state();
    host.expect(&[("00 03 02 00", "00"), ("00 08 00 01 00", "00")]);
    assert_eq!(host.state(), before);
    host.expect(&[("01 03 01 00", "05"), ("01 08 00 01 00", "05")]);
}

#[test]
fn e6_a_withdrawal_is_not_passed_on() {
    let mut host = desk();
    host.done(&["00 07 00 01 02", "00 07 00 02 03", "00 07 00 03 04"]);
    host.done(&["00 08 00 01 02"]);
    host.expect(&[("02 09 00", "0000"), ("03 09 00", "0000")]);
    // Reached again from another side, what is further down counts again.
    host.done(&["00 07 00 01 03"]);
    host.expect(&[
        ("01 09 00", "0000"),
        ("02 09 00", "0001"),
        ("03 09 00", "0001"),
    ]);
}

#[test]
fn e7_6_of_a_grant_goes_by_recorded_paths() {
    let mut host = desk();
    host.done(&["00 07 00 01 02", "00 07 00 02 03", "00 08 00 01 02"]);
    host.done(&["00 07 00 01 03"]);
    host.expect(&[("00 07 00 03 02", "06"), ("00 07 00 03 03", "06")]);
    host.done(&["00 08 00 02 03"]);
    host.expect(&[("00 07 00 03 02", "00")]);
}

#[test]
fn e7_cycles_are_told_tag_by_tag() {
    let mut host = desk();
    host.done(&["00 05", "00 07 00 01 02", "00 07 01 01 03"]);
    host.done(&["00 07 00 02 03"]);
    // Of tag 1 there is no path from 2 to 3.
    host.expect(&[("00 07 01 03 02", "00"), ("00 07 00 03 02", "06")]);
}

#[test]
fn e7_6_of_a_delegation_goes_by_any_length_of_path() {
    let mut host = desk();
    host.done(&["00 02 02 03", "00 02 03 04", "00 02 04 05"]);
    host.expect(&[
        ("00 02 05 02", "06"),
        ("00 02 04 02", "06"),
        ("00 02 01 05", "06"),
        ("00 02 02 05", "00"),
    ]);
}

#[test]
fn e8_a_leave_is_held_as_a_set() {
    let mut host = desk();
    host.done(&["00 02 02 03", "00 02 02 03", "00 03 02 03"]);
    host.expect(&[("00 04 03 02", "0000")]);
    host.done(&["00 07 00 01 02", "00 07 00 01 02", "00 08 00 01 02"]);
    host.expect(&[("01 09 00", "0000")]);
}

#[test]
fn e9_authority_passes_one_step_and_to_no_sibling() {
    // Tag 0 with subtags 1 and 2; 2 is granted 1 only.
    let mut host = desk();
    host.done(&["00 06 00", "00 06 00", "00 07 01 01 02"]);
    host.expect(&[
        ("01 09 01", "0001"),
        ("01 09 00", "0000"),
        ("01 09 02", "0000"),
    ]);
}

#[test]
fn e9_a_holder_of_a_subtag_makes_no_subtag() {
    let mut host = desk();
    host.done(&["00 06 00", "00 07 01 01 02"]);
    host.expect(&[("01 06 01", "03"), ("01 06 00", "05")]);
}

#[test]
fn e10_nobody_acts_for_the_public_from_the_fresh_state() {
    let mut host = desk();
    host.expect(&[
        ("00 02 00 02", "05"),
        ("00 03 00 02", "05"),
        ("00 0E 00", "05"),
        ("00 10 00", "05"),
        ("00 07 00 00 02", "05"),
    ]);
    for list in lists(15, 7) {
        let state = led_to(&list);
        let public = |l: &Link| l.from == PUBLIC || l.to == PUBLIC;
        assert!(!state.authority.principal_links.iter().any(public));
        assert!(state.threads.values().all(|row| row.principal != PUBLIC));
    }
}

#[test]
fn e10_the_public_may_make_nothing() {
    let mut host = desk();
    host.make_public(0);
    host.expect(&[("00 01", "05"), ("00 05", "05")]);
    // But it forks and calls as itself, and ends.
    host.expect(&[("00 0E 00", "0005"), ("00 10 00", "00"), ("00 0F", "00")]);
}

#[test]
fn e11_running_threads_keep_their_principal() {
    let mut host = desk();
    host.done(&["00 10 02", "01 10 02"]);
    host.edit(|state| state.authority.principal_links.clear());
    assert_eq!(host.thread(0).principal, Principal(2));
    // Return gives back with no check: 2 does not act for 1.
    host.expect(&[("00 11", "00")]);
    assert_eq!(host.thread(0).principal, OFFICE);
    host.expect(&[("00 10 02", "05"), ("00 0E 02", "05")]);
}

#[test]
fn authority_goes_by_acting_for_any_counted_node() {
    // The tag goes from 1 to 2; 3 acts for 2, and 4 for 3.
    let mut host = desk();
    host.done(&["00 07 00 01 02", "00 02 02 03", "00 02 03 04"]);
    host.expect(&[
        ("02 09 00", "0001"),
        ("03 09 00", "0001"),
        ("04 09 00", "0000"),
    ]);
    host.done(&["00 03 02 03"]);
    host.expect(&[("02 09 00", "0000"), ("03 09 00", "0000")]);
}

#[test]
fn counted_nodes_are_those_of_the_root_on() {
    let tag_links = [(1, 2), (2, 3), (4, 5)];
    let authority = Authority {
        principals: 6,
        principal_links: Vec::new(),
        tags: vec![TagRow {
            root: OFFICE,
            supertag: None,
        }],
        tag_links: links(&tag_links)
            .into_iter()
            .map(|link| TagLink { tag: Tag(0), link })
            .collect(),
    };
    let counted: Vec<u8> = authority
        .counted_nodes(Tag(0))
        .iter()
        .map(|p| p.0)
        .collect();
    assert_eq!(counted, [1, 2, 3]);
}
