//! The authority question in the proved walk, in plain Rust and in other systems: the
//! same tables, the same questions. An answer that is not the second program's ends
//! the run, before any time of that system counts.

pub mod case;
mod others;
mod rounds;
mod systems;

use crate::benchmark::Program;
use bench::report::{Report, Row, Section, Told};
use case::{Case, SIZES};
use rounds::Rounds;
use std::fs;
use std::io;
use std::path::Path;
use systems::{notes, Way, PLAIN, PROVED, SYSTEMS};

/// How often each takes its rounds, so that what else the machine does meets all alike.
const TURNS: usize = 5;

/// Whether there is a system of that name.
pub fn is_system(name: &str) -> bool {
    SYSTEMS.iter().any(|system| system.name == name)
}

/// A section a size. The tables are put into `work`, where the programs read them.
pub fn measure(work: &Path, programs: &[Program]) -> io::Result<Report> {
    let mut report = Report::default();
    for size in SIZES {
        let case = Case::new(size);
        let file = work.join(format!("authority-{}-{}.txt", size.principals, size.links));
        fs::write(&file, case.text())?;
        let mut rounds = Rounds::default();
        for _ in 0..TURNS {
            rounds.turn(&case, &file, programs)?;
        }
        report.sections.push(section(&case, &rounds));
        report.facts = rounds.versions();
    }
    report.notes = notes(TURNS);
    Ok(report)
}

fn section(case: &Case, rounds: &Rounds) -> Section {
    let (principals, links) = (case.size.principals, case.size.links);
    Section {
        title: format!(
            "Is P authoritative for T? {} principals, {} links",
            principals, links
        ),
        each: "question",
        told: Told::Nanoseconds,
        beside: "the proved walk",
        about: format!(
            "{} principals beside the public, {} principal links, and {} tag links over {} tags, \
             every other one a subtag; links are drawn at random and make no cycle. Each principal \
             is asked about for each tag: {} questions, {} of them answered yes.",
            principals,
            links,
            links,
            case.size.tags,
            case.questions.len(),
            case.yes()
        ),
        rows: rows(rounds),
    }
}

/// A way without rounds was left out.
fn rows(rounds: &Rounds) -> Vec<Row> {
    let none = || "it is not on this machine".to_string();
    let time = |title| rounds.time(title).ok_or_else(none);
    let proved = time(PROVED);
    let row = |way: &Way| {
        let row = Row::new(way.title, time(way.title));
        row.beside(&proved).with_goal(way.goal)
    };
    let others = SYSTEMS.iter().flat_map(|system| system.ways);
    let mut rows = vec![Row::new(PROVED, proved.clone()).proved(), row(&PLAIN)];
    rows.extend(others.map(row));
    rows
}
