//! The structs are declared as the library has them: their sizes, each field of the fresh
//! state at its place, and each field that requests change.

use crate::common::*;
use std::mem::size_of;
use suvdorkhun::lend::*;
use suvdorkhun::{lend, ObjectKind, Principal, Tag};

#[test]
fn a_state_has_as_many_bytes_as_in_the_library() {
    assert_eq!(size_of::<State>(), lend::state_size());
}

/// The same numbers stand in suvdorkhun.h.
#[test]
fn the_sizes_are_those_of_the_header() {
    assert_eq!(size_of::<LabelPair>(), 16);
    assert_eq!(size_of::<ThreadRow>(), 40);
    assert_eq!(size_of::<TagRow>(), 3);
    assert_eq!(size_of::<ObjectRow>(), 40);
    assert_eq!(size_of::<Tables>(), 3424);
    assert_eq!(size_of::<Memory>(), 280);
    assert_eq!(size_of::<State>(), 3704);
    assert_eq!(size_of::<PrincipalLink>(), 2);
    assert_eq!(size_of::<TagLink>(), 3);
    assert_eq!(size_of::<Reply>(), 16);
    assert_eq!(size_of::<Ran>(), 24);
    assert_eq!(lend::STORE, 16_896);
}

/// "Fresh: principals 0 and 1, no links, tags or objects; thread 0 live, principal 1, empty
/// labels."
#[test]
fn the_fresh_state_is_seen_at_its_places() {
    for size in [0, 1, 8, 63, 64] {
        let mut fresh = State::zero();
        fresh.tables.principals = 2;
        fresh.tables.threads[0].live = 1;
        fresh.tables.threads[0].principal = 1;
        fresh.memory.size = size;
        let (lent, status) = Lent::started(size);
        assert_eq!((lent.state, status), (fresh, 0));
        assert_eq!(lent.links, [PrincipalLink::default(); 256]);
        assert_eq!(lent.grants, [TagLink::default(); 256]);
        assert_eq!(lent.store, [0; lend::STORE]);
    }
}

#[test]
fn a_second_start_gives_the_fresh_state_again() {
    for (path, list, _) in examples() {
        let mut lent = Lent::fresh();
        for frame in frames(&list) {
            lent.request(&frame, &mut [0; lend::ANSWER]);
        }
        let (links, grants) = (&mut lent.links, &mut lent.grants);
        let status = lend::start(&mut lent.state, links, grants, &mut lent.store, MEMORY);
        assert_eq!((lent.state, status), (Lent::fresh().state, 0), "{:?}", path);
        assert_eq!(lent.links, [PrincipalLink::default(); 256]);
        assert_eq!(lent.grants, [TagLink::default(); 256]);
        assert_eq!(lent.store, [0; lend::STORE]);
    }
}

/// "Starting with a memory size over 64 is refused as 11 and gives the fresh state with size
/// 0."
#[test]
fn a_start_that_is_refused_gives_the_fresh_state_with_size_0() {
    for size in [65, 256, usize::MAX] {
        let (lent, status) = Lent::started(size);
        assert_eq!((lent.state, status), (Lent::started(0).0.state, 11));
    }
}

#[test]
fn a_state_of_zeros_is_refused_9() {
    let mut lent = Lent::fresh();
    lent.state = State::zero();
    let reply = lent.request(&[0, 0x01], &mut [0; lend::ANSWER]);
    assert_eq!(reply.status, 9);
}

#[test]
fn links_tags_and_leaves_are_seen_at_their_places() {
    let (mut monitor, tag, two, thread) = two_parties();
    let office = Principal::OFFICE;
    assert_eq!(monitor.new_tag(thread), Ok(Tag(1)));
    assert_eq!(monitor.new_tag(thread), Ok(Tag(2)));
    assert_eq!(monitor.new_subtag(OFFICE, Tag(2)), Ok(Tag(3)));
    assert_eq!(monitor.grant(OFFICE, Tag(3), office, two), Ok(()));
    assert_eq!(monitor.grant(OFFICE, tag, office, two), Ok(()));

    let tables = &monitor.state().tables;
    assert_eq!((tables.principals, tables.links), (3, 1));
    assert_eq!((tables.tags, tables.grants), (4, 2));
    let rows = [[1, 0, 0], [2, 0, 0], [2, 0, 0], [1, 1, 2]];
    let rows = rows.map(|[root, subtag, supertag]| TagRow {
        root,
        subtag,
        supertag,
    });
    assert_eq!(tables.kinds[..4], rows);
    assert_eq!(tables.kinds[4..], [TagRow::default(); 60]);
    assert_eq!(monitor.links(), [PrincipalLink { from: 2, to: 1 }]);
    let grants = [[3, 1, 2], [0, 1, 2]];
    let grants = grants.map(|[tag, from, to]| TagLink { tag, from, to });
    assert_eq!(monitor.grants(), grants);
}

#[test]
fn threads_are_seen_at_their_places() {
    let (mut monitor, tag, two, thread) = two_parties();
    let other = monitor.new_tag(OFFICE).expect("room");
    assert_eq!(monitor.into_secrecy(thread, other), Ok(()));
    assert_eq!(monitor.into_integrity(OFFICE, tag), Ok(()));
    for p in [Principal::OFFICE, two, two, two] {
        assert_eq!(monitor.call(OFFICE, p), Ok(()));
    }
    assert_eq!(monitor.return_from_call(OFFICE), Ok(()));

    let threads = &monitor.state().tables.threads;
    let row = |calls, aside, secrecy, integrity| ThreadRow {
        live: 1,
        principal: 2,
        labels: LabelPair { secrecy, integrity },
        calls,
        aside,
    };
    let first = row(3, [1, 1, 2, 0, 0, 0, 0, 0], 0, 1);
    let second = row(0, [0; 8], 2, 0);
    assert_eq!(threads[..2], [first, second]);
    assert_eq!(threads[2..], [ThreadRow::default(); 14]);
}

#[test]
fn objects_and_messages_are_seen_at_their_places() {
    let mut lent = Lent::fresh();
    let mut answer = [0; lend::ANSWER];
    let new = |kind: ObjectKind| [&[0, 0x12, kind as u8][..], &[0; 16]].concat();
    let mut done = |frame: &[u8]| assert_eq!(lent.request(frame, &mut answer).status, 0);
    done(&new(ObjectKind::Cell));
    done(&new(ObjectKind::Queue));
    done(&new(ObjectKind::Lock));
    done(&[0, 0x15, 0, 3, 7, 8, 9]);
    done(&[0, 0x16, 1, 1, 5]);
    done(&[0, 0x16, 1, 2, 6, 4]);
    done(&[0, 0x18, 2]);

    let row = |kind, held, locked| ObjectRow {
        live: 1,
        kind,
        held,
        locked,
        ..ObjectRow::default()
    };
    let objects = lent.state.tables.objects;
    assert_eq!(objects[..3], [row(0, 0, 0), row(1, 2, 0), row(2, 0, 1)]);
    assert_eq!(objects[3..], [ObjectRow::default(); 61]);
    let mut store = vec![0; lend::STORE];
    store[..4].copy_from_slice(&[3, 7, 8, 9]);
    store[264..][..2].copy_from_slice(&[1, 5]);
    store[264 + 33..][..3].copy_from_slice(&[2, 6, 4]);
    assert_eq!(lent.store, store);
}

#[test]
fn the_memory_is_seen_at_its_places() {
    let (mut monitor, tag, two, thread) = two_parties();
    let sub = monitor.new_subtag(OFFICE, tag).expect("its own tag");
    monitor
        .grant(OFFICE, sub, Principal::OFFICE, two)
        .expect("its own tag");
    assert_eq!(monitor.authoritative(thread, sub), Ok(true));
    assert_eq!(monitor.authoritative(thread, sub), Ok(true));
    assert_eq!(monitor.authoritative(thread, tag), Ok(false));

    let mut pairs = [0; 64];
    pairs[..2].copy_from_slice(&[2 * 256 + 1, 256]);
    let memory = Memory {
        size: 8,
        held: 2,
        pairs,
        questions: 4,
        hits: 1,
    };
    assert_eq!(monitor.state().memory, memory);
    assert_eq!((monitor.questions(), monitor.hits()), (4, 1));
}
