//! A million lines through the proved line program, the one in plain Rust and the second
//! program. All must print the same bytes, or the run ends.

use crate::benchmark::Program;
use crate::rounds::failed;
use bench::line_programs::{by_turns, long, Found, Long, LINES, ROUNDS, SEED};
use bench::report::{Measured, Report, Row, Section, Told};
use std::io;

/// A line program is named as in the arguments of `bench report`.
struct LineProgram {
    name: &'static str,
    title: &'static str,
    arguments: &'static [&'static str],
    proved: bool,
}

const PLAIN: LineProgram = LineProgram {
    name: "lines",
    title: "plain Rust",
    arguments: &["plain"],
    proved: false,
};

const LINE_PROGRAMS: [LineProgram; 3] = [
    LineProgram {
        name: "suvdorkhun",
        title: "proved line program",
        arguments: &[],
        proved: true,
    },
    PLAIN,
    LineProgram {
        name: "second",
        title: "second program",
        arguments: &[],
        proved: false,
    },
];

/// Whether there is a line program of that name.
pub fn is_program(name: &str) -> bool {
    LINE_PROGRAMS.iter().any(|program| program.name == name)
}

/// A program that is not given is left out. Without any there is nothing to tell.
pub fn measure(programs: &[Program]) -> io::Result<Report> {
    let given = LINE_PROGRAMS.iter().filter_map(|line_program| {
        let mut programs = programs.iter();
        let program = programs.find(|program| program.name == line_program.name)?;
        Some((line_program, words(line_program, program)))
    });
    let (given, commands): (Vec<&LineProgram>, Vec<Vec<String>>) = given.unzip();
    if given.is_empty() {
        return Ok(Report::default());
    }
    let long = long(LINES, SEED);
    let found = by_turns(&long, &commands)?.map_err(failed)?;
    Ok(Report {
        sections: vec![section(&long, &given, &found)],
        notes: vec![note()],
        ..Report::default()
    })
}

/// The command with its arguments.
fn words(line_program: &LineProgram, program: &Program) -> Vec<String> {
    let path = program.path.display().to_string();
    let arguments = line_program.arguments.iter().map(|word| word.to_string());
    [path].into_iter().chain(arguments).collect()
}

fn section(long: &Long, given: &[&LineProgram], found: &Found) -> Section {
    let time = |of: &LineProgram| -> Measured {
        let place = given.iter().position(|program| program.name == of.name);
        let none = || "it is not built".to_string();
        place.map(|place| found.times[place]).ok_or_else(none)
    };
    let plain = time(&PLAIN);
    let row = |program: &LineProgram| {
        let row = Row {
            proved: program.proved,
            ..Row::new(program.title, time(program))
        };
        match program.name == PLAIN.name {
            true => row,
            false => row.beside(&plain),
        }
    };
    Section {
        title: "A million lines".to_string(),
        each: "line",
        told: Told::SecondsFor(long.lines),
        beside: "plain Rust",
        about: format!("{}; answers: {}.", long, long.shares(&found.answers)),
        rows: LINE_PROGRAMS.iter().map(row).collect(),
    }
}

fn note() -> String {
    format!(
        "**A million lines**, from a file to a file: the median and the best of {} runs of each \
         program, by turns; the start and end of the process are counted. All print the same \
         bytes. The lines are the second program's lists of all profiles in turn, one behind the \
         other, without those by which thread 0 would take a tag into S, end or call; so the \
         tables are full for most of the list. Plain Rust makes no check of 9.",
        ROUNDS
    )
}
