//! The commands that need no proved function: the plain monitor as a line program,
//! and the time that line programs take for one long list.

use bench::line_programs::{by_turns, long, Found, Long, Program, LINES, SEED};
use bench::plain;
use second::command::{number, run, wrong, Failure};
use std::io::{self, Write};
use std::process::ExitCode;

const HELP: &str = "\
lines: line programs on one long list, side by side

lines plain            the plain monitor, standard input to standard output: the
                       rules of document 01 in plain Rust without the check of 9
lines time [N [SEED]] -- PROGRAM [ARGUMENT..] [-- PROGRAM [ARGUMENT..]]..
                       give each PROGRAM the same N lines (1000000 if not given, of
                       lists from seed SEED on, 1 if not given), five times by
                       turns; print a table of seconds, lines a second and ratios
                       to the first; all must answer alike, byte for byte
lines --help           print this

Making a million lines takes about half a minute. Exit status: 0 if all went well,
1 if the answers differ or something failed, 2 for wrong arguments.
";

fn main() -> ExitCode {
    run("lines", command)
}

fn command(arguments: &[&str]) -> Result<(), Failure> {
    match arguments {
        ["plain"] => Ok(plain::lines::run(
            &mut io::stdin().lock(),
            &mut io::stdout().lock(),
        )?),
        ["plain", ..] => Err(wrong("plain takes no arguments")),
        ["time", what @ ..] => time(what),
        ["--help"] | ["-h"] | ["help"] => Ok(io::stdout().write_all(HELP.as_bytes())?),
        [] => Err(wrong("which command?")),
        [first, ..] => Err(wrong(format!("there is no command {}", first))),
    }
}

/// "--" stands before each program.
fn time(arguments: &[&str]) -> Result<(), Failure> {
    let mut parts = arguments.split(|argument| *argument == "--");
    let (lines, seed) = match parts.next().unwrap_or_default() {
        [] => (LINES, SEED),
        [lines] => (number(lines, "N")?, SEED),
        [lines, seed] => (number(lines, "N")?, number(seed, "SEED")?),
        _ => return Err(wrong("time wants: [N [SEED]] -- PROGRAM [ARGUMENT..]")),
    };
    let words = |part: &[&str]| part.iter().map(|word| word.to_string()).collect();
    let programs: Vec<Program> = parts.map(words).collect();
    if lines == 0 {
        return Err(wrong("N is at least 1"));
    }
    if programs.is_empty() || programs.iter().any(|words| words.is_empty()) {
        return Err(wrong("time wants a program after each --"));
    }
    let long = long(lines, seed);
    let output = &mut io::stdout();
    match by_turns(&long, &programs)? {
        Ok(found) => Ok(tell(&long, &programs, &found, output)?),
        Err(difference) => {
            writeln!(output, "{}", difference)?;
            Err(Failure::Difference)
        }
    }
}

/// What was measured, and the times.
fn tell(
    long: &Long,
    programs: &[Program],
    found: &Found,
    output: &mut dyn Write,
) -> io::Result<()> {
    writeln!(output, "{}", long)?;
    writeln!(output, "answers: {}\n", long.shares(&found.answers))?;
    writeln!(
        output,
        "| program | best s | median s | lines a second | ratio |"
    )?;
    writeln!(output, "|---|--:|--:|--:|--:|")?;
    let mut first = None;
    for (program, time) in programs.iter().zip(&found.times) {
        let seconds = |each: f64| each * long.lines as f64 / 1e9;
        let median = seconds(time.median);
        let best = time.best.map_or(median, seconds);
        let ratio = median / *first.get_or_insert(median);
        let speed = long.lines as f64 / median;
        let name = program.join(" ");
        writeln!(
            output,
            "| {} | {:.4} | {:.4} | {:.0} | {:.2} |",
            name, best, median, speed, ratio
        )?;
    }
    writeln!(output, "\nall outputs are equal, byte for byte")
}
