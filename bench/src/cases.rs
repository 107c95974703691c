//! What the comparisons share: seeded cases one after the other, each with a seed of its
//! own by which it can be run alone; the first difference, printed; and what was seen on
//! the way, as a long run must have seen everything. The command with its seed is
//! printed first, in case the run breaks off.

use crate::random::Random;
use std::io::{self, Write};
use std::time::{Duration, Instant};

pub struct Run {
    pub command: &'static str,
    pub length: Length,
    pub seed: u64,
}

#[derive(Clone, Copy)]
pub enum Length {
    /// So many cases.
    Cases(u64),
    /// Cases until so many seconds have passed, one at least.
    Seconds(u64),
}

impl Length {
    fn number(self) -> u64 {
        match self {
            Length::Cases(number) | Length::Seconds(number) => number,
        }
    }

    /// The number with which one case is run.
    fn of_one(self) -> u64 {
        match self {
            Length::Cases(_) => 1,
            Length::Seconds(_) => 0,
        }
    }

    fn is_over(self, cases: u64, since: Instant) -> bool {
        match self {
            Length::Cases(number) => cases >= number,
            Length::Seconds(seconds) => {
                cases > 0 && since.elapsed() >= Duration::from_secs(seconds)
            }
        }
    }
}

/// What was seen in the cases of a run.
pub trait Tally: Default {
    /// A run of so many cases must have seen everything.
    const LONG_RUN: u64;

    fn print(&self, output: &mut dyn Write) -> io::Result<()>;

    /// In words, what should have been seen and was not.
    fn missed(&self) -> Vec<String>;
}

impl Run {
    /// Whether all cases agree, and a long run saw everything. A case that does not
    /// agree gives words for its difference.
    pub fn compare<T: Tally>(
        &self,
        output: &mut dyn Write,
        case: impl Fn(&mut Random, &mut T) -> Result<(), String>,
    ) -> io::Result<bool> {
        let (command, length) = (self.command, self.length);
        writeln!(
            output,
            "bench {} {} {}",
            command,
            length.number(),
            self.seed
        )?;
        let mut tally = T::default();
        let (mut cases, mut seed, since) = (0, self.seed, Instant::now());
        while !length.is_over(cases, since) {
            let mut random = Random::new(seed);
            let next_seed = random.draw();
            if let Err(difference) = case(&mut random, &mut tally) {
                writeln!(output, "a difference in case {}", cases)?;
                let one = length.of_one();
                writeln!(
                    output,
                    "to run it alone: bench {} {} {}",
                    command, one, seed
                )?;
                writeln!(output, "{}", difference)?;
                return Ok(false);
            }
            seed = next_seed;
            cases += 1;
        }
        writeln!(output, "all {} cases agree\n", cases)?;
        tally.print(output)?;
        Ok(cases < T::LONG_RUN || missed_nothing(&tally, output)?)
    }
}

fn missed_nothing(tally: &impl Tally, output: &mut dyn Write) -> io::Result<bool> {
    let missed = tally.missed();
    for words in &missed {
        writeln!(output, "{}", words)?;
    }
    Ok(missed.is_empty())
}
