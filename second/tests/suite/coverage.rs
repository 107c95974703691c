//! The generator reaches what lines can reach from the fresh state, and nothing
//! that by document 01 they cannot.

use crate::common::*;
use second::answers::{status, DONE};
use second::coverage::{lines_of, row_of_line, Coverage, Row};
use second::generate::{generate, profile, PROFILES};
use second::lines::{answer_line, frame_of_line};
use second::state::State;
use second::things::*;
use std::collections::BTreeMap;

/// The statuses that each kind can be answered, by thought from document 01:
///
/// * 1: every kind, by a wrong length; kind 00 and unknown ones have no other.
/// * 2: every known kind, by a thread that is not live.
/// * 3: the kinds with an operand that names: not 01, 05, 0F, 11, 1A, 1B.
/// * 4: the kinds with a need: not 04, 09 to 0D, 10, 11.
/// * 5: where the column has it; but not 01 and 05, as no thread ever runs as the
///   public: a link from the public needs one who acts for it, and only itself does.
/// * 6: 02 and 07. 7: where the column has it. 8: 11, 17, 18.
/// * 9, 10 and 11: never on a line, as tables and buffer are the program's own.
const REACHABLE: &[(u8, &[u8])] = &[
    (0x00, &[1]),
    (0x01, &[0, 1, 2, 4, 7]),
    (0x02, &[0, 1, 2, 3, 4, 5, 6, 7]),
    (0x03, &[0, 1, 2, 3, 4, 5]),
    (0x04, &[0, 1, 2, 3]),
    (0x05, &[0, 1, 2, 4, 7]),
    (0x06, &[0, 1, 2, 3, 4, 5, 7]),
    (0x07, &[0, 1, 2, 3, 4, 5, 6, 7]),
    (0x08, &[0, 1, 2, 3, 4, 5]),
    (0x09, &[0, 1, 2, 3]),
    (0x0A, &[0, 1, 2, 3]),
    (0x0B, &[0, 1, 2, 3, 5]),
    (0x0C, &[0, 1, 2, 3, 5]),
    (0x0D, &[0, 1, 2, 3]),
    (0x0E, &[0, 1, 2, 3, 4, 5, 7]),
    (0x0F, &[0, 1, 2, 4]),
    (0x10, &[0, 1, 2, 3, 5, 7]),
    (0x11, &[0, 1, 2, 8]),
    (0x12, &[0, 1, 2, 3, 4, 7]),
    (0x13, &[0, 1, 2, 3, 4]),
    (0x14, &[0, 1, 2, 3, 4]),
    (0x15, &[0, 1, 2, 3, 4]),
    (0x16, &[0, 1, 2, 3, 4, 7]),
    (0x17, &[0, 1, 2, 3, 4, 8]),
    (0x18, &[0, 1, 2, 3, 4, 8]),
    (0x19, &[0, 1, 2, 3, 4]),
    (0x1A, &[0, 1, 2, 4]),
    (0x1B, &[0, 1, 2, 4]),
];

fn reachable(row: Row, status: u8) -> bool {
    let kind = match row {
        Row::Kind(kind) => kind,
        Row::Unknown => 0x00,
    };
    let (_, statuses) = REACHABLE[usize::from(kind)];
    statuses.contains(&status)
}

fn covered(count: u64, seed: u64) -> Coverage {
    let mut coverage = Coverage::default();
    lists(count, seed).for_each(|list| coverage.add(&list));
    coverage
}

#[test]
fn every_reachable_pair_is_reached_and_no_other() {
    let coverage = covered(150, 3000);
    let rows = (0..=0x1B).map(Row::Kind).chain([Row::Unknown]);
    for row in rows {
        for status in 0..=u8::MAX {
            let reached = coverage.count(row, status) > 0;
            let expected = reachable(row, status);
            assert_eq!(
                reached, expected,
                "kind {} status {}\n{}",
                row, status, coverage
            );
        }
    }
}

#[test]
fn every_table_is_filled_to_its_limit() {
    let deepest = covered(60, 3100).deepest;
    assert_eq!(deepest.principals, 64);
    assert_eq!(deepest.principal_links, 256);
    assert_eq!(deepest.tags, 64);
    assert_eq!(deepest.tag_links, 256);
    assert_eq!(deepest.threads, 16);
    assert_eq!(deepest.put_aside, 8);
    assert_eq!(deepest.objects, 64);
    assert_eq!(deepest.queue, 8);
    assert_eq!(deepest.pairs, 8);
    assert!(deepest.hits > 0);
}

/// A request of a list: the state before, the line, its status, the state after.
struct Step<'a> {
    before: &'a State,
    line: &'a [u8],
    frame: &'a [u8],
    status: u8,
    after: &'a State,
}

impl Step<'_> {
    fn done(&self, kind: u8) -> bool {
        self.status == DONE && self.frame.get(1) == Some(&kind)
    }

    /// Corners that a list can turn in the memory.
    fn corners_of_memory(&self) -> Vec<(&'static str, bool)> {
        let (old, new) = (&self.before.memory, &self.after.memory);
        let full = old.pairs.len() == LINE_MEMORY && new.pairs.len() == LINE_MEMORY;
        let gone = old.pairs.iter().any(|pair| !new.pairs.contains(pair));
        let emptied = !old.pairs.is_empty() && new.pairs.is_empty();
        let kept = !old.pairs.is_empty() && old == new;
        let links = self.before.authority == self.after.authority;
        vec![
            ("a hit", new.hits > old.hits),
            ("a pair falls off", full && gone),
            (
                "a revocation empties the memory",
                self.done(0x03) && emptied,
            ),
            ("an ungrant empties the memory", self.done(0x08) && emptied),
            ("an absent link keeps it", self.done(0x03) && links && kept),
            ("06 is refused 7 with a yes", self.status == 7 && old != new),
        ]
    }

    /// Corners that a list can turn elsewhere.
    fn corners_of_tables(&self) -> Vec<(&'static str, bool)> {
        let restored = self.done(0x07) && restores(self.before, self.after, self.frame[2]);
        let cut_off = self.status == 6 && cut_off_path(self.before, self.frame);
        vec![
            ("a link that was cut off counts again", restored),
            ("6 by a path that is cut off", cut_off),
            ("32 bytes put", self.done(0x16) && self.frame[3] == 32),
            (
                "an empty message written",
                self.done(0x15) && self.frame[3] == 0,
            ),
            (
                "72 digits",
                self.status == DONE && self.line.len() == MAX_DIGITS,
            ),
            ("no thread is live", self.after.threads.is_empty()),
        ]
    }
}

/// A grant has brought back a node that a recorded link named before.
fn restores(before: &State, after: &State, t: u8) -> bool {
    let (old, new) = (&before.authority, &after.authority);
    new.counted_nodes(Tag(t)).len() > old.counted_nodes(Tag(t)).len() + 1
}

/// The grant is refused for a path that does not start at a counted node.
fn cut_off_path(before: &State, frame: &[u8]) -> bool {
    frame[1] == 0x07
        && frame[3] != frame[4]
        && !before
            .authority
            .counted_nodes(Tag(frame[2]))
            .contains(&Principal(frame[4]))
}

#[test]
fn every_corner_is_turned() {
    let mut turned = BTreeMap::new();
    for list in lists(90, 3200) {
        let mut state = State::fresh(LINE_MEMORY);
        for line in lines_of(&list) {
            let before = state.clone();
            let step = Step {
                status: status(&answer_line(&mut state, line)),
                before: &before,
                line,
                frame: &frame_of_line(line).unwrap_or_default(),
                after: &state,
            };
            let corners = step.corners_of_memory();
            for (corner, now) in corners.into_iter().chain(step.corners_of_tables()) {
                *turned.entry(corner).or_insert(false) |= now;
            }
        }
    }
    assert!(turned.values().all(|turned| *turned), "{:?}", turned);
}

/// Sorts of lines that section "Lines" refuses, told from the bytes.
fn sorts_of_lines(line: &[u8]) -> Vec<(&'static str, bool)> {
    let digits = line.iter().all(|b| b"0123456789ABCDEF".contains(b));
    let lowercase = |b: &u8| (b'a'..=b'f').contains(b);
    vec![
        ("lowercase", line.iter().any(lowercase)),
        ("carriage return", line.ends_with(b"\r")),
        ("space", line.contains(&b' ')),
        ("NUL", line.contains(&0)),
        ("80 to FF", line.iter().any(|b| *b >= 0x80)),
        ("odd", digits && line.len() % 2 == 1 && line.len() < 72),
        ("empty", line.is_empty()),
        ("73 digits", digits && line.len() == 73),
        ("74 digits", digits && line.len() == 74),
        ("very long", digits && line.len() > 1000),
    ]
}

/// Sorts of frames that are refused 1.
fn sorts_of_frames(frame: &[u8]) -> Vec<(&'static str, bool)> {
    let kind = frame.get(1).copied();
    let message = frame.len() > 2 && (kind == Some(0x1A) || kind == Some(0x1B));
    let length = frame.get(2).map_or(0, |length| usize::from(*length));
    vec![
        ("one byte", frame.len() == 1),
        ("kind 00", kind == Some(0)),
        ("kind over 1B", kind > Some(0x1B)),
        ("too short", frame.len() == 2 && kind == Some(0x09)),
        ("too long", frame.len() == 4 && kind == Some(0x09)),
        ("33 bytes", message && length == 33 && frame.len() == 36),
        ("fewer bytes than told", message && length > frame.len() - 3),
        ("more bytes than told", message && length < frame.len() - 3),
        (
            "object kind over 2",
            frame.len() == 19 && kind == Some(0x12) && length > 2,
        ),
    ]
}

#[test]
fn every_sort_of_malformed_line_is_there_and_refused() {
    let mut met = BTreeMap::new();
    let profile = profile("lines").expect("a profile");
    for list in (0..40).map(|seed| generate(seed, profile)) {
        let mut state = State::fresh(LINE_MEMORY);
        for line in lines_of(&list) {
            let status = status(&answer_line(&mut state, line));
            let frame = frame_of_line(line).unwrap_or_default();
            let sorts = sorts_of_lines(line).into_iter();
            for (sort, is) in sorts.chain(sorts_of_frames(&frame)) {
                assert!(!is || status == 1, "{:?} {}", line, sort);
                *met.entry(sort).or_insert(false) |= is;
            }
        }
    }
    assert!(met.values().all(|met| *met), "{:?}", met);
}

#[test]
fn some_lists_end_without_a_line_feed_and_some_are_empty() {
    let all: Vec<Vec<u8>> = lists(150, 3300).collect();
    let unended = |list: &&Vec<u8>| !list.is_empty() && !list.ends_with(b"\n");
    assert!(all.iter().any(|list| list.is_empty()));
    assert!(all.iter().any(|list| unended(&list)));
    assert!(all.iter().any(|list| list.ends_with(b"\n")));
}

#[test]
fn a_seed_and_a_profile_fix_the_list() {
    for profile in PROFILES {
        let list = generate(5, profile);
        assert_eq!(list, generate(5, profile), "{}", profile.name);
        if profile.name != "short" {
            assert_ne!(list, generate(6, profile), "{}", profile.name);
        }
    }
}

#[test]
fn a_line_counts_to_the_row_of_its_kind() {
    assert_eq!(row_of_line(b"0001"), Row::Kind(1));
    assert_eq!(row_of_line(b"0000"), Row::Kind(0));
    assert_eq!(row_of_line(b"001C"), Row::Unknown);
    assert_eq!(row_of_line(b"00"), Row::Unknown);
    assert_eq!(row_of_line(b"00 1"), Row::Unknown);
}
