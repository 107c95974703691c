//! The programs that put the questions of a case to other systems: they are run, and
//! what they print is read. others/README.md says what that is.

use crate::rounds::{failed, A_TURN};
use std::collections::BTreeMap;
use std::io;
use std::path::Path;
use std::process::{Command, Stdio};

#[derive(Debug, Default, PartialEq)]
pub struct Told {
    pub version: String,
    ways: BTreeMap<String, Way>,
}

/// What was told of one way to ask.
#[derive(Debug, Default, PartialEq)]
pub struct Way {
    pub answers: Vec<bool>,
    rounds: Vec<Round>,
}

#[derive(Debug, PartialEq)]
struct Round {
    nanoseconds: f64,
    questions: usize,
    yes: usize,
}

impl Told {
    pub fn way(&self, key: &str) -> io::Result<&Way> {
        let none = || failed(format!("{}: nothing is told of {}", self.version, key));
        self.ways.get(key).ok_or_else(none)
    }

    /// What a program prints; none of it is left over.
    fn read(text: &str) -> Option<Told> {
        let mut told = Told::default();
        for line in text.lines() {
            let (kind, rest) = line.split_once(' ')?;
            match kind {
                "version" => told.version = rest.to_string(),
                "answers" => {
                    let (way, answers) = rest.split_once(' ')?;
                    told.way_mut(way).answers = digits(answers)?;
                }
                "round" => {
                    let (way, round) = rest.split_once(' ')?;
                    told.way_mut(way).rounds.push(Round::read(round)?);
                }
                _ => return None,
            }
        }
        Some(told)
    }

    fn way_mut(&mut self, key: &str) -> &mut Way {
        self.ways.entry(key.to_string()).or_default()
    }
}

impl Way {
    /// Nanoseconds a question, in each round.
    pub fn rounds(&self) -> Vec<f64> {
        let each = |round: &Round| round.nanoseconds / round.questions as f64;
        self.rounds.iter().map(each).collect()
    }

    /// Whether each round answered yes as often as the answers do.
    pub fn steady(&self) -> bool {
        let yes = self.answers.iter().filter(|yes| **yes).count();
        let as_often = |round: &Round| round.yes * self.answers.len() == yes * round.questions;
        self.rounds.iter().all(as_often)
    }
}

impl Round {
    fn read(words: &str) -> Option<Round> {
        let words: Vec<&str> = words.split(' ').collect();
        match words[..] {
            [nanoseconds, questions, yes] => Some(Round {
                nanoseconds: nanoseconds.parse().ok()?,
                questions: questions.parse().ok()?,
                yes: yes.parse().ok()?,
            }),
            _ => None,
        }
    }
}

fn digits(words: &str) -> Option<Vec<bool>> {
    let digit = |word| match word {
        '0' => Some(false),
        '1' => Some(true),
        _ => None,
    };
    words.chars().map(digit).collect()
}

pub fn run(program: &Path, file: &Path) -> io::Result<Told> {
    let name = program.display();
    let output = Command::new(program)
        .arg(file)
        .arg(A_TURN.rounds.to_string())
        .arg(A_TURN.least.as_millis().to_string())
        .stderr(Stdio::inherit())
        .output()
        .map_err(|error| failed(format!("cannot run {}: {}", name, error)))?;
    if !output.status.success() {
        return Err(failed(format!("{}: {}", name, output.status)));
    }
    let text = String::from_utf8_lossy(&output.stdout);
    Told::read(&text).ok_or_else(|| failed(format!("{} prints what cannot be read", name)))
}

#[cfg(test)]
mod tests {
    use super::*;

    const TEXT: &str =
        "version X 1.2\nanswers walk 011\nround walk 600 6 4\nround walk 300.5 3 2\n";

    #[test]
    fn a_program_is_read() {
        let told = Told::read(TEXT).expect("it can be read");
        assert_eq!(told.version, "X 1.2");
        let way = told.way("walk").expect("it is told");
        assert_eq!(way.answers, [false, true, true]);
        assert!(way.steady());
        assert_eq!(way.rounds(), [100.0, 300.5 / 3.0]);
        assert!(told.way("again").is_err());
    }

    #[test]
    fn other_words_are_not_read() {
        for line in [
            "walk",
            "answers walk 012",
            "round walk 6 6",
            "warning of sorts",
        ] {
            assert_eq!(Told::read(&format!("{}{}\n", TEXT, line)), None, "{}", line);
        }
    }

    #[test]
    fn a_round_with_other_answers_is_seen() {
        let told = Told::read(&format!("{}round walk 1 3 3\n", TEXT)).expect("it can be read");
        assert!(!told.way("walk").expect("it is told").steady());
    }
}
