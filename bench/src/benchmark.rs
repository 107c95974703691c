//! The command `report`: everything that the benchmark measures, in one run, written as
//! a table and a picture. Each measure is a module that gives a part of the report.

use crate::rounds::failed;
use crate::{authority, line_lists, remembered, requests, whole_check};
use bench::report::markdown::markdown;
use bench::report::picture::picture;
use bench::report::Report;
use std::fs;
use std::io::{self, Write};
use std::path::{Path, PathBuf};

const TABLE: &str = "benchmark.md";
const PICTURE: &str = "benchmark.svg";

/// A program that is measured: it asks another system, or is a line program.
pub struct Program {
    pub name: String,
    pub path: PathBuf,
}

impl Program {
    /// None for a name that no measure knows.
    pub fn new(name: &str, path: &str) -> Option<Program> {
        let known = authority::is_system(name) || line_lists::is_program(name);
        known.then(|| Program {
            name: name.to_string(),
            path: path.into(),
        })
    }
}

/// `work` has the file `facts`, a fact a line. Both files are written into `docs`.
pub fn report(work: &Path, docs: &Path, programs: &[Program]) -> io::Result<()> {
    let mut report = Report {
        facts: facts(&work.join("facts"))?,
        ..Report::default()
    };
    report.add(authority::measure(work, programs)?);
    report.add(requests::measure()?);
    report.add(remembered::measure()?);
    report.add(whole_check::measure()?);
    report.add(line_lists::measure(programs)?);
    let table = markdown(&report, PICTURE);
    fs::write(docs.join(TABLE), &table)?;
    fs::write(docs.join(PICTURE), picture(&report))?;
    io::stdout().write_all(table.as_bytes())
}

fn facts(file: &Path) -> io::Result<Vec<String>> {
    let text = fs::read_to_string(file)
        .map_err(|error| failed(format!("cannot read {}: {}", file.display(), error)))?;
    Ok(text.lines().map(String::from).collect())
}
