//! Runs generated lists through another line program and through this one, and
//! tells the first difference. Document 01: what is not proved is "run and
//! compared with a second program".

use crate::coverage::lines_of;
use crate::generate::{generate, nth, Profile};
use crate::lines::{run, LINE_FEED};
use crate::state::State;
use crate::things::LINE_MEMORY;
use std::io::{self, Read, Write};
use std::path::PathBuf;
use std::process::{Command, ExitStatus, Stdio};
use std::thread;

/// Where two programs parted: lines are counted from 1.
pub struct Difference {
    pub line: usize,
    pub request: String,
    pub ours: String,
    pub theirs: String,
}

/// What this program answers to a list.
pub fn ours(list: &[u8]) -> Vec<u8> {
    let mut output = Vec::new();
    let mut state = State::fresh(LINE_MEMORY);
    run(&mut state, list, &mut output).expect("a buffer takes all that is written");
    output
}

/// What the other program answers, and how it ended.
pub fn theirs(program: &[String], list: &[u8]) -> io::Result<(Vec<u8>, ExitStatus)> {
    let mut child = Command::new(&program[0])
        .args(&program[1..])
        .stdin(Stdio::piped())
        .stdout(Stdio::piped())
        .spawn()
        .map_err(|error| cannot_run(&program[0], error))?;
    let (stdin, stdout) = (child.stdin.take(), child.stdout.take());
    let mut output = Vec::new();
    thread::scope(|scope| {
        // A program that stops reading is told by what it answers, not here.
        scope.spawn(move || stdin.map(|mut stdin| stdin.write_all(list).ok()));
        stdout.map_or(Ok(0), |mut stdout| stdout.read_to_end(&mut output))
    })?;
    Ok((output, child.wait()?))
}

fn cannot_run(program: &str, error: io::Error) -> io::Error {
    io::Error::new(error.kind(), format!("cannot run {}: {}", program, error))
}

/// The first line in which two outputs differ.
pub fn first_difference(list: &[u8], ours: &[u8], theirs: &[u8]) -> Option<Difference> {
    let requests = lines_of(list);
    let ours: Vec<&[u8]> = ours.split(|byte| *byte == LINE_FEED).collect();
    let theirs: Vec<&[u8]> = theirs.split(|byte| *byte == LINE_FEED).collect();
    let lines = ours.len().max(theirs.len());
    let at = (0..lines).find(|n| ours.get(*n) != theirs.get(*n))?;
    let shown = |line: Option<&&[u8]>, missing: &str| match line {
        Some(line) => line.escape_ascii().to_string(),
        None => missing.to_string(),
    };
    Some(Difference {
        line: at + 1,
        request: shown(requests.get(at), "(none: after the last line)"),
        ours: shown(ours.get(at), "(nothing)"),
        theirs: shown(theirs.get(at), "(nothing)"),
    })
}

/// Compares so many lists and reports how it went; says whether all agreed.
pub fn compare(
    lists: u64,
    seed: u64,
    program: &[String],
    report: &mut impl Write,
) -> io::Result<bool> {
    for n in 0..lists {
        let (seed, profile) = nth(n, seed);
        let list = generate(seed, profile);
        let (theirs, ended) = theirs(program, &list)?;
        let difference = first_difference(&list, &ours(&list), &theirs);
        if ended.success() && difference.is_none() {
            continue;
        }
        writeln!(report, "list {} of {}", n + 1, lists)?;
        writeln!(report, "made by: generate {} {}", seed, profile.name)?;
        writeln!(
            report,
            "left in: {}",
            leave(&list, seed, profile)?.display()
        )?;
        if !ended.success() {
            writeln!(report, "the other program died: {}", ended)?;
        }
        if let Some(difference) = difference {
            show(report, &difference)?;
        }
        return Ok(false);
    }
    writeln!(report, "{} lists agree", lists)?;
    Ok(true)
}

fn show(report: &mut impl Write, difference: &Difference) -> io::Result<()> {
    writeln!(report, "line {}: {}", difference.line, difference.request)?;
    writeln!(report, "second: {}", difference.ours)?;
    writeln!(report, "other:  {}", difference.theirs)
}

/// Leaves the list in the directory for temporary files.
fn leave(list: &[u8], seed: u64, profile: &Profile) -> io::Result<PathBuf> {
    let name = format!("second-{}-{}.lines", profile.name, seed);
    let file = std::env::temp_dir().join(name);
    std::fs::write(&file, list)?;
    Ok(file)
}
