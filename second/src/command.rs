//! What the commands of this repository share: their arguments, how they fail
//! and what they say then.

use std::fmt::Display;
use std::io;
use std::process::ExitCode;
use std::time::{SystemTime, UNIX_EPOCH};

pub enum Failure {
    /// Wrong arguments.
    Usage(String),
    Io(io::Error),
    /// Told already.
    Difference,
}

impl From<io::Error> for Failure {
    fn from(error: io::Error) -> Failure {
        Failure::Io(error)
    }
}

/// Runs a command on the program's arguments. Exit status: 0 if all went well, 1 if
/// a comparison found a difference or something failed, 2 for wrong arguments.
pub fn run(name: &str, command: fn(&[&str]) -> Result<(), Failure>) -> ExitCode {
    let arguments: Vec<String> = std::env::args_os()
        .skip(1)
        .map(|argument| argument.to_string_lossy().into_owned())
        .collect();
    let arguments: Vec<&str> = arguments.iter().map(String::as_str).collect();
    match command(&arguments) {
        Ok(()) => ExitCode::SUCCESS,
        Err(Failure::Difference) => ExitCode::from(1),
        Err(Failure::Io(error)) => {
            eprintln!("{}: {}", name, error);
            ExitCode::from(1)
        }
        Err(Failure::Usage(wrong)) => {
            eprintln!("{}: {}\nTry: {} --help", name, wrong, name);
            ExitCode::from(2)
        }
    }
}

pub fn wrong(words: impl Display) -> Failure {
    Failure::Usage(words.to_string())
}

pub fn number<T: std::str::FromStr>(argument: &str, name: &str) -> Result<T, Failure> {
    let not_a_number = |_| wrong(format!("{} is no number: {}", name, argument));
    argument.parse().map_err(not_a_number)
}

/// A seed from the clock.
pub fn clock() -> u64 {
    let since = SystemTime::now().duration_since(UNIX_EPOCH);
    since.map_or(0, |time| time.as_micros() as u64)
}
