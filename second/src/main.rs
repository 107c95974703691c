//! The commands of the second program. Without a command it is the line program
//! of document 01, section "Lines": standard input to standard output, M = 8.

use second::command::{clock, number, run, wrong, Failure};
use second::compare::compare;
use second::coverage::Coverage;
use second::generate::{generate, nth, profile, PROFILES};
use second::lines;
use second::monitor::start;
use second::things::{LINE_MEMORY, MAX_MEMORY};
use std::io::{self, BufWriter, Write};
use std::process::ExitCode;

const HELP: &str = "\
second: the monitor of document 01 in plain Rust, to compare another one with

second [run [--memory M]]      the line program, standard input to standard output;
                               M remembered answers at most (8 if not given)
second generate SEED [PROFILE] print one list of lines (profile mixed if not given)
second profiles                name the profiles
second coverage N [SEED]       run N lists and print how often each kind was
                               answered each status, and the most each table held
second compare N [SEED] -- PROGRAM [ARGUMENT..]
                               run N lists through PROGRAM, a line program, and
                               through this one; print the first difference
second --help                  print this

SEED is a number from 0 to 18446744073709551615. Where it may be left out it is
drawn from the clock and printed. Exit status: 0 if all went well, 1 if a
comparison found a difference or something failed, 2 for wrong arguments.
";

fn main() -> ExitCode {
    run("second", command)
}

fn command(arguments: &[&str]) -> Result<(), Failure> {
    match arguments {
        [] | ["run"] => run_lines(LINE_MEMORY),
        ["run", "--memory", size] => run_lines(number(size, "M")?),
        ["generate", seed] => print_list(number(seed, "SEED")?, PROFILES[0].name),
        ["generate", seed, name] => print_list(number(seed, "SEED")?, name),
        ["profiles"] => print_profiles(),
        ["coverage", lists] => print_coverage(number(lists, "N")?, told_clock()?),
        ["coverage", lists, seed] => print_coverage(number(lists, "N")?, number(seed, "SEED")?),
        ["compare", lists, "--", program @ ..] => {
            print_comparison(number(lists, "N")?, told_clock()?, program)
        }
        ["compare", lists, seed, "--", program @ ..] => {
            print_comparison(number(lists, "N")?, number(seed, "SEED")?, program)
        }
        ["compare", ..] => Err(wrong("compare wants: N [SEED] -- PROGRAM [ARGUMENT..]")),
        ["--help"] | ["-h"] | ["help"] => Ok(io::stdout().write_all(HELP.as_bytes())?),
        [first, ..] => Err(wrong(format!(
            "cannot make out the arguments from {}",
            first
        ))),
    }
}

/// A seed from the clock, told on the error stream so that it can be given again.
fn told_clock() -> Result<u64, Failure> {
    let seed = clock();
    writeln!(io::stderr(), "seed {}", seed)?;
    Ok(seed)
}

fn run_lines(memory_size: usize) -> Result<(), Failure> {
    let (mut state, started) = start(memory_size);
    if let Err(refusal) = started {
        let told = format!("a memory size over {} is refused as", MAX_MEMORY);
        eprintln!("second: {} {}; going on with size 0", told, refusal as u8);
    }
    let output = BufWriter::new(io::stdout().lock());
    Ok(lines::run(&mut state, io::stdin().lock(), output)?)
}

fn print_list(seed: u64, name: &str) -> Result<(), Failure> {
    let profile = profile(name).ok_or_else(|| wrong(format!("no such profile: {}", name)))?;
    Ok(io::stdout().write_all(&generate(seed, profile))?)
}

fn print_profiles() -> Result<(), Failure> {
    let mut output = io::stdout().lock();
    for profile in PROFILES {
        writeln!(output, "{:12} {}", profile.name, profile.about)?;
    }
    Ok(())
}

fn print_coverage(lists: u64, seed: u64) -> Result<(), Failure> {
    let mut coverage = Coverage::default();
    for n in 0..lists {
        let (seed, profile) = nth(n, seed);
        coverage.add(&generate(seed, profile));
    }
    Ok(write!(io::stdout(), "{}", coverage)?)
}

fn print_comparison(lists: u64, seed: u64, program: &[&str]) -> Result<(), Failure> {
    let program: Vec<String> = program.iter().map(|word| word.to_string()).collect();
    if program.is_empty() {
        return Err(wrong("compare wants a program after --"));
    }
    if compare(lists, seed, &program, &mut io::stdout())? {
        Ok(())
    } else {
        Err(Failure::Difference)
    }
}
