//! The rounds of everything that answers a case, gathered over several turns. Answers
//! are held to the second program's before the rounds of that turn are taken.

use super::case::Case;
use super::others::{self, Told};
use super::systems::{System, PLAIN, PROVED, SYSTEMS};
use crate::benchmark::Program;
use crate::plain::PlainRust;
use crate::proved::Proved;
use crate::questions::{answer, Functions};
use crate::rounds::{by_turns, failed, hidden, steady, Work, A_TURN};
use bench::report::Time;
use std::collections::{BTreeMap, BTreeSet};
use std::io;
use std::path::Path;

#[derive(Default)]
pub struct Rounds {
    /// Nanoseconds a question, by the title of who answered.
    found: BTreeMap<&'static str, Vec<f64>>,
    versions: BTreeSet<String>,
}

impl Rounds {
    pub fn time(&self, title: &str) -> Option<Time> {
        Time::of(self.found.get(title)?.clone())
    }

    pub fn versions(self) -> Vec<String> {
        self.versions.into_iter().collect()
    }

    /// One turn of everything. A system without a program is passed over.
    pub fn turn(&mut self, case: &Case, file: &Path, programs: &[Program]) -> io::Result<()> {
        self.ours(case)?;
        for system in &SYSTEMS {
            let mut programs = programs.iter();
            if let Some(program) = programs.find(|program| program.name == system.name) {
                let told = others::run(&program.path, file)?;
                self.theirs(case, system, &told)?;
                self.versions.insert(told.version);
            }
        }
        Ok(())
    }

    /// The proved walk and plain Rust.
    fn ours(&mut self, case: &Case) -> io::Result<()> {
        hold(case, PROVED, &answers(&Proved, case))?;
        hold(case, PLAIN.title, &answers(&PlainRust, case))?;
        let (pieces, yes) = (case.questions.len(), case.yes());
        let works = [
            Work {
                title: PROVED,
                pieces,
                all: &mut || count(&Proved, case) == yes,
            },
            Work {
                title: PLAIN.title,
                pieces,
                all: &mut || count(&PlainRust, case) == yes,
            },
        ];
        let [proved, plain] = by_turns(works, A_TURN)?;
        self.add(PROVED, proved);
        self.add(PLAIN.title, plain);
        Ok(())
    }

    fn theirs(&mut self, case: &Case, system: &System, told: &Told) -> io::Result<()> {
        for way in system.ways {
            let found = told.way(way.key)?;
            hold(case, way.title, &found.answers)?;
            steady(way.title, found.steady())?;
            self.add(way.title, found.rounds());
        }
        Ok(())
    }

    fn add(&mut self, title: &'static str, rounds: Vec<f64>) {
        self.found.entry(title).or_default().extend(rounds);
    }
}

fn answers(functions: &dyn Functions, case: &Case) -> Vec<bool> {
    let put = |question| answer(functions, &case.tables, question);
    case.questions.iter().copied().map(put).collect()
}

/// All questions once: how many are answered yes.
fn count(functions: &dyn Functions, case: &Case) -> usize {
    let questions = case.questions.iter().copied();
    let yes = questions
        .filter(|question| answer(hidden(functions), hidden(&case.tables), hidden(*question)));
    yes.count()
}

/// All answers are the second program's, or the error tells the first that is not.
fn hold(case: &Case, title: &str, answers: &[bool]) -> io::Result<()> {
    if case.answers == answers {
        return Ok(());
    }
    let mut pairs = case.questions.iter().zip(&case.answers).zip(answers);
    let difference = match pairs.find(|((_, right), given)| right != given) {
        Some(((question, right), _)) => format!("{:?}: {} is right", question, right),
        None => format!("{} answers, not {}", answers.len(), case.answers.len()),
    };
    let words = "does not answer as the second program does";
    Err(failed(format!("{}: it {}\n{}", title, words, difference)))
}
