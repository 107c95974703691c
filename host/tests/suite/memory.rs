//! The remembered answers never decide: neither their size nor clearing them between requests
//! changes an answer. 01, section "Remembered answers".

use crate::common::*;
use suvdorkhun::{Answer, Monitor};

fn answers(list: &[u8], size: usize, mut before: impl FnMut(usize, &mut Monitor)) -> Vec<Answer> {
    let mut monitor = Monitor::new(size).expect("not over 64");
    let frames = frames(list).into_iter().enumerate();
    let answer = |(n, frame): (usize, Vec<u8>)| {
        before(n, &mut monitor);
        monitor.request(&frame)
    };
    frames.map(answer).collect()
}

#[test]
fn neither_size_nor_clearing_changes_an_answer() {
    for (path, list, _) in examples() {
        let plain = answers(&list, MEMORY, |_, _| ());
        for size in [0, 1, 2, 64] {
            assert_eq!(
                answers(&list, size, |_, _| ()),
                plain,
                "{:?} {}",
                path,
                size
            );
        }
        let cleared = answers(&list, MEMORY, |_, monitor| monitor.clear());
        assert_eq!(cleared, plain, "{:?}", path);
        let at_times = |n, monitor: &mut Monitor| {
            if n % 3 == 0 {
                monitor.clear()
            }
        };
        assert_eq!(answers(&list, MEMORY, at_times), plain, "{:?}", path);
    }
}

#[test]
fn clearing_leaves_the_counters() {
    let (mut monitor, tag, _, _) = two_parties();
    for _ in 0..3 {
        assert_eq!(monitor.authoritative(OFFICE, tag), Ok(true));
    }
    assert_eq!((monitor.questions(), monitor.hits()), (3, 2));
    assert_eq!(monitor.state().memory.held, 1);
    let tables = monitor.state().tables;
    monitor.clear();
    assert_eq!((monitor.questions(), monitor.hits()), (3, 2));
    assert_eq!(monitor.state().memory.held, 0);
    assert_eq!(monitor.state().memory.pairs, [0; 64]);
    assert_eq!(monitor.state().tables, tables);
    assert_eq!(monitor.authoritative(OFFICE, tag), Ok(true));
    assert_eq!((monitor.questions(), monitor.hits()), (4, 2));
}

/// A refusal counts its question too, and a withdrawal counts at once.
#[test]
fn a_leave_withdrawn_counts_at_once() {
    let (mut monitor, tag, two, thread) = two_parties();
    let office = suvdorkhun::Principal::OFFICE;
    monitor
        .grant(OFFICE, tag, office, two)
        .expect("its own tag");
    assert_eq!(monitor.authoritative(thread, tag), Ok(true));
    assert_eq!(monitor.authoritative(thread, tag), Ok(true));
    monitor
        .ungrant(OFFICE, tag, office, two)
        .expect("its own link");
    assert_eq!(monitor.authoritative(thread, tag), Ok(false));
    assert_eq!((monitor.questions(), monitor.hits()), (3, 1));
}
