//! The check of 9 on whole tables, from fresh to full: the proved one, by a frame of no
//! bytes, and the one in plain Rust, on the same structs where they lie.

use crate::buffers::Buffers;
use crate::passes::refuses_no_bytes;
use crate::plain::rules::break_no_rule;
use crate::random::Random;
use crate::rounds::{by_turns, hidden, time, Work, SHORT};
use crate::sound::{sound, Sizes, FULL, NEARLY_EMPTY};
use bench::report::{Goal, Report, Row, Section, Told};
use second::state::State;
use second::things::LINE_MEMORY;
use std::io;

const SEED: u64 = 1;

/// The proved check takes at most so many times as long as plain Rust.
const GOAL: Goal = Goal::AtMost(3.0);

pub fn measure() -> io::Result<Report> {
    let random = &mut Random::new(SEED);
    let mut rows = Vec::new();
    for (name, state) in [
        ("fresh", State::fresh(LINE_MEMORY)),
        ("nearly empty", of(random, NEARLY_EMPTY)),
        ("full, 8 pairs", of(random, Sizes { pairs: 8, ..FULL })),
        ("full, 64 pairs", of(random, FULL)),
    ] {
        rows.extend(measured(name, Buffers::from(&state))?);
    }
    let section = Section {
        title: "The check of 9".to_string(),
        each: "check",
        told: Told::Nanoseconds,
        beside: "plain Rust",
        about: ABOUT.to_string(),
        rows,
    };
    Ok(Report {
        sections: vec![section],
        notes: vec![NOTE.to_string()],
        ..Report::default()
    })
}

/// Sound tables of just these sizes.
fn of(random: &mut Random, sizes: Sizes) -> State {
    let state = sound(random, sizes);
    let authority = &state.authority;
    let there = [
        authority.principal_links.len(),
        authority.tag_links.len(),
        state.memory.pairs.len(),
    ];
    assert_eq!(there, [sizes.links, sizes.tag_links, sizes.pairs]);
    state
}

/// Both say that the tables break no rule, each time.
fn measured(name: &str, mut lent: Buffers) -> io::Result<[Row; 2]> {
    let named = |by: &str| format!("{}, {}", name, by);
    let (proved, plain) = (named("proved"), named("plain Rust"));
    let there = lent.clone();
    let [proved_time, plain_time] = by_turns(
        [
            Work {
                title: &proved,
                pieces: 1,
                all: &mut || refuses_no_bytes(&mut lent),
            },
            Work {
                title: &plain,
                pieces: 1,
                all: &mut || break_no_rule(hidden(&there)),
            },
        ],
        SHORT,
    )?;
    let plain_time = time(plain_time);
    let proved = Row::new(&proved, time(proved_time)).proved();
    Ok([
        proved.beside(&plain_time).with_goal(Some(GOAL)),
        Row::new(&plain, plain_time),
    ])
}

const ABOUT: &str = "Nearly empty is 3 principals, 2 + 1 links, 1 tag, 1 thread, 2 objects and \
                     1 remembered pair. Full is all that there can be; the memory holds 8 pairs \
                     or 64.";

const NOTE: &str =
    "**The check of 9** is timed by a request of no bytes, which is refused 1 right behind it. \
     Plain Rust makes the check alone. Both clear rows of bits first, 32 KiB for the tag links (4 \
     KiB up to 8 tags), and walk for the truth of each remembered pair; plain Rust walks over the \
     rows that the tests of the two lists have filled.";
