//! The commands: whether the proved functions answer as plain Rust and the second
//! program do, and how fast they are beside plain Rust.

mod agree;
mod authority;
mod benchmark;
mod boundary;
mod breaks;
mod calls;
mod cases;
mod damage;
mod frames;
mod fuzz;
mod graphs;
mod line_lists;
mod list_damage;
mod passes;
mod proved;
mod random;
mod reference;
mod remembered;
mod requests;
mod rounds;
mod sound;
mod statuses;
mod time;
mod whole_check;

use bench::{buffers, plain, questions};
use benchmark::Program;
use cases::{Length, Run};
use second::command::{clock, number, run, wrong, Failure};
use std::io::{self, Write};
use std::path::Path;
use std::process::ExitCode;

const HELP: &str = "\
bench: the proved functions beside plain Rust and the second program

bench agree N [SEED]   put the same questions on N seeded tables of links to the
                       proved functions, to plain Rust and to the reference, and
                       print the first difference
bench boundary N [SEED]
                       put a request to each of N seeded whole tables, sound and
                       damaged, through the proved library and the second program;
                       compare every byte that they leave, and print the first
                       difference
bench fuzz SECONDS [SEED]
                       the same on long lists of requests, with the tables changed in
                       between, until so many seconds have passed; 0 for one list
bench time             measure the proved functions on links and plain Rust at
                       their worst, and print a table of nanoseconds, ratios and
                       goals
bench report WORK DOCS [NAME=PROGRAM]..
                       measure the proved code beside plain Rust and other systems,
                       and write DOCS/benchmark.md and DOCS/benchmark.svg; WORK is a
                       directory with a file `facts`, a line for each thing to be
                       said of the run; NAME is sqlite, prolog or casbin, or of a line
                       program suvdorkhun, lines or second (bench/run does it all)
bench --help           print this

N is at least 1. SEED is a number from 0 to 18446744073709551615; where it is left
out it is drawn from the clock and printed. Exit status: 0 if all went well, 1 if
the answers differ or something failed, 2 for wrong arguments.
";

fn main() -> ExitCode {
    run("bench", command)
}

fn command(arguments: &[&str]) -> Result<(), Failure> {
    match arguments {
        ["agree", how_many @ ..] => compare("agree", agree::agree, cases(how_many)?),
        ["boundary", how_many @ ..] => compare("boundary", boundary::boundary, cases(how_many)?),
        ["fuzz", how_long @ ..] => compare("fuzz", fuzz::fuzz, seconds(how_long)?),
        ["report", work, docs, programs @ ..] => report(work, docs, programs),
        ["report", ..] => Err(wrong("report wants: WORK DOCS [NAME=PROGRAM]..")),
        ["time"] => Ok(time::time(&mut io::stdout())?),
        ["time", ..] => Err(wrong("time takes no arguments")),
        ["--help"] | ["-h"] | ["help"] => Ok(io::stdout().write_all(HELP.as_bytes())?),
        [] => Err(wrong("which command?")),
        [first, ..] => Err(wrong(format!("there is no command {}", first))),
    }
}

fn report(work: &str, docs: &str, words: &[&str]) -> Result<(), Failure> {
    let program = |word: &&str| {
        let named = word.split_once('=');
        let program = named.and_then(|(name, path)| Program::new(name, path));
        program.ok_or_else(|| wrong(format!("no measure wants {}", word)))
    };
    let programs: Vec<Program> = words.iter().map(program).collect::<Result<_, _>>()?;
    let (work, docs) = (Path::new(work), Path::new(docs));
    Ok(benchmark::report(work, docs, &programs)?)
}

/// A length and a seed.
type Asked = (Length, u64);

fn cases(arguments: &[&str]) -> Result<Asked, Failure> {
    let (cases, seed) = numbers(arguments, "N")?;
    if cases == 0 {
        return Err(wrong("N is at least 1"));
    }
    Ok((Length::Cases(cases), seed))
}

fn seconds(arguments: &[&str]) -> Result<Asked, Failure> {
    let (seconds, seed) = numbers(arguments, "SECONDS")?;
    Ok((Length::Seconds(seconds), seed))
}

fn numbers(arguments: &[&str], name: &str) -> Result<(u64, u64), Failure> {
    match arguments {
        [first] => Ok((number(first, name)?, clock())),
        [first, seed] => Ok((number(first, name)?, number(seed, "SEED")?)),
        _ => Err(wrong(format!("wanted: {} [SEED]", name))),
    }
}

type Comparison = fn(&Run, &mut dyn Write) -> io::Result<bool>;

fn compare(
    command: &'static str,
    comparison: Comparison,
    (length, seed): Asked,
) -> Result<(), Failure> {
    let run = Run {
        command,
        length,
        seed,
    };
    if comparison(&run, &mut io::stdout())? {
        Ok(())
    } else {
        Err(Failure::Difference)
    }
}
