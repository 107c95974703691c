//! The time that line programs take for one list: from a file to a file, by turns,
//! start and end of the process counted. All must print the same bytes.

use super::Long;
use crate::report::Time;
use second::compare::first_difference;
use std::fs::{self, File};
use std::io;
use std::path::PathBuf;
use std::process::{self, Command};
use std::time::{Duration, Instant};

/// How often each program takes its turn.
pub const ROUNDS: usize = 5;

/// A program and its arguments.
pub type Program = Vec<String>;

pub struct Found {
    /// The time of each program, nanoseconds a line.
    pub times: Vec<Time>,
    /// What all of them print.
    pub answers: Vec<u8>,
}

/// A directory of one's own for the list and the output.
struct Files {
    directory: PathBuf,
    list: PathBuf,
    output: PathBuf,
}

impl Files {
    fn new() -> io::Result<Files> {
        let directory = std::env::temp_dir().join(format!("lines-{}", process::id()));
        fs::create_dir(&directory)?;
        Ok(Files {
            list: directory.join("list"),
            output: directory.join("output"),
            directory,
        })
    }
}

/// The times, or words for the first difference between two programs; the list is left
/// where it is then.
pub fn by_turns(long: &Long, programs: &[Program]) -> io::Result<Result<Found, String>> {
    let files = Files::new()?;
    let found = measured(long, programs, &files);
    match found {
        Ok(Err(difference)) => {
            let left = files.list.display();
            Ok(Err(format!("{}\nlist left in: {}", difference, left)))
        }
        found => {
            fs::remove_dir_all(&files.directory)?;
            found
        }
    }
}

fn measured(long: &Long, programs: &[Program], files: &Files) -> io::Result<Result<Found, String>> {
    fs::write(&files.list, &long.text)?;
    let mut took = vec![Vec::new(); programs.len()];
    let mut answers = None;
    for _ in 0..ROUNDS {
        for (program, took) in programs.iter().zip(&mut took) {
            let each = turn(program, files)?.as_nanos() as f64 / long.lines as f64;
            took.push(each);
            let theirs = fs::read(&files.output)?;
            let first = answers.get_or_insert_with(|| theirs.clone());
            if *first != theirs {
                let programs = [&programs[0], program];
                return Ok(Err(difference(long, [first, &theirs], programs)));
            }
        }
    }
    Ok(Ok(Found {
        times: took.into_iter().filter_map(Time::of).collect(),
        answers: answers.unwrap_or_default(),
    }))
}

fn turn(program: &Program, files: &Files) -> io::Result<Duration> {
    let (list, output) = (File::open(&files.list)?, File::create(&files.output)?);
    let mut command = Command::new(&program[0]);
    command.args(&program[1..]).stdin(list).stdout(output);
    let told = |what: String| io::Error::new(io::ErrorKind::Other, what);
    let before = Instant::now();
    let ended = command
        .status()
        .map_err(|error| told(format!("cannot run {}: {}", program[0], error)))?;
    let took = before.elapsed();
    match ended.success() {
        true => Ok(took),
        false => Err(told(format!("{}: {}", program.join(" "), ended))),
    }
}

fn difference(long: &Long, [first, other]: [&[u8]; 2], programs: [&Program; 2]) -> String {
    let [ours, theirs] = programs.map(|program| program.join(" "));
    match first_difference(&long.text, first, other) {
        Some(found) => format!(
            "line {}: {}\n{}: {}\n{}: {}",
            found.line, found.request, ours, found.ours, theirs, found.theirs
        ),
        None => format!("{} and {} do not print the same", ours, theirs),
    }
}
