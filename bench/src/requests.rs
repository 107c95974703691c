//! Single requests by groups of kinds, at nearly empty and at full tables: the proved
//! library, of it the check of 9 and the rest, and the same requests to the monitor in
//! plain Rust, which does not make that check.

mod groups;
mod plain_side;
mod tables;
#[cfg(test)]
mod tests;

use crate::passes::{Pass, Split};
use crate::random::Random;
use crate::rounds::{by_turns, time, SHORT};
use bench::report::{Goal, Report, Row, Section, Told};
use groups::{Group, GROUPS};
use plain_side::PlainSide;
use std::io;
use tables::{tables, Filled, Tables, FILLED};

const SEED: u64 = 1;

/// What is behind the check of 9 takes at most so many times as long as in plain Rust.
const GOAL: Goal = Goal::AtMost(5.0);

/// A section for each size of tables.
pub fn measure() -> io::Result<Report> {
    let mut report = Report::default();
    for filled in &FILLED {
        report.sections.push(section(filled)?);
    }
    report.notes = NOTES.map(String::from).to_vec();
    report.notes.push(times());
    Ok(report)
}

fn section(filled: &Filled) -> io::Result<Section> {
    let Filled { name, sizes, .. } = filled;
    let tables = tables(&mut Random::new(SEED), filled);
    let mut rows = Vec::new();
    for group in &GROUPS {
        rows.extend(measured(group, &tables)?);
    }
    Ok(Section {
        title: format!("Single requests, {} tables", name),
        each: "request",
        told: Told::Nanoseconds,
        beside: "plain Rust",
        about: format!(
            "Principals: {}; links: {} + {}; tags: {}; threads: {}; objects: {}; a memory of {}, \
             pairs held: {}.",
            sizes.principals,
            sizes.links,
            sizes.tag_links,
            sizes.tags,
            sizes.threads,
            sizes.objects,
            sizes.memory,
            sizes.pairs
        ),
        rows,
    })
}

fn measured(group: &Group, tables: &Tables) -> io::Result<Vec<Row>> {
    let pass = pass(group, tables)?;
    let plain = PlainSide::of(&pass)?;
    let [whole, check, alone, plain_whole, plain_check] = by_turns(
        [
            pass.work(&mut || pass.requests()),
            pass.work(&mut || pass.checks()),
            pass.work(&mut || pass.by(|frame, answer| plain.put(frame, answer))),
            pass.work(&mut || pass.by(|frame, answer| plain.put_checked(frame, answer))),
            pass.work(&mut || pass.as_often(|| plain.check())),
        ],
        SHORT,
    )?;
    let alone = time(alone);
    let behind = Split::of(plain_whole, plain_check).rest;
    let named = |what: &str| format!("{}, {}", group.name, what);
    let [whole, check, rest] = Split::of(whole, check).rows(group.name);
    Ok(vec![
        whole,
        check,
        rest.beside(&alone).with_goal(Some(GOAL)),
        Row::new(&named("plain Rust behind a check"), behind).beside(&alone),
        Row::new(&named("plain Rust"), alone),
    ])
}

fn pass(group: &Group, tables: &Tables) -> io::Result<Pass> {
    let frames = (group.frames)(tables);
    Pass::new(group.name.to_string(), tables.state.clone(), frames)
}

/// How this and the next two measures are taken.
fn times() -> String {
    format!(
        "**Times inside one process**, here and in the next two: the median and the best of {} \
         rounds of at least {} ms, all by turns. The ratio is that of the medians.",
        SHORT.rounds,
        SHORT.least.as_millis()
    )
}

const NOTES: [&str; 3] = [
    "**Single requests.** Each kind of a group once, in turn: the mean over the group. A list \
     leaves the tables as they were, so that each turn finds the same. *Authority*, 01 to 09: the \
     last link is taken out (03) and put back (02), the last tag link likewise (08, 07); does the \
     office act for the first of a chain that leads to it (04); and by a thread of the public, 01, \
     05 and 06, refused 5, and 09, answered no. *Labels*, 0A to 0D: a tag into S, out of it, into \
     I, out of it; the two questions are hits. *Threads*, 0E to 11: the last thread ends (0F), a \
     fork takes its number (0E), call (10) and return (11). *Objects*, 12 to 19: the last object \
     is deleted (13) and made again (12), a cell read and written, a message put and got, a lock \
     locked and unlocked. *Outside*, 1A and 1B: out and in. Messages have 32 bytes.",
    "**Of it, the check of 9.** *Whole* is `request` of the library for hosts, `suvdorkhun_c`. \
     *Check of 9* is the same with a frame of no bytes, which is refused 1 right behind the \
     check; the call itself is counted there. *Behind it* is the median of the difference, round \
     by round. Where the check takes long and the rest does not, it is no more exact than the \
     times of the check are steady. The removals of the authority group empty the memory, so that \
     the check has no remembered pairs to walk for.",
    "**Plain Rust** is here the whole monitor of `bench/src/plain/monitor.rs`: safe Rust, built \
     for release, the tables its own, no check of 9; a frame of bytes in, an answer of bytes out. \
     Nothing runs between its requests, so that all it needs stays in the nearest cache, while \
     the check of 9 goes over all tables before each proved request. *Plain Rust behind a check* \
     is what the same requests take when each has the check in plain Rust before it, that check \
     taken off likewise. All answers are held to the second program's before a time counts.",
];
