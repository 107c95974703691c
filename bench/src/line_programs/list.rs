//! One long list: the second program's lists of all profiles in turn, one behind the
//! other. A list supposes fresh tables, and here only the first one finds them. So
//! thread 0 is kept as it starts, the office's and without secrecy: else all threads
//! soon have ended or hold tags that they cannot take out, and nothing is done any
//! more. The tables are full from the first thousands of lines on.

use second::coverage::lines_of;
use second::generate::{generate, nth};
use second::lines::LINE_FEED;
use std::fmt;

/// How many lines are measured, and the seed of the first list.
pub const LINES: usize = 1_000_000;
pub const SEED: u64 = 1;

/// How the lines begin that are left out: thread 0 takes a tag into S, ends, calls.
const LEFT_OUT: [&[u8]; 3] = [b"000A", b"000F", b"0010"];

pub struct Long {
    pub lines: usize,
    pub text: Vec<u8>,
    /// How many lists it is made of, and the seed of the first.
    pub lists: u64,
    pub seed: u64,
}

impl fmt::Display for Long {
    fn fmt(&self, f: &mut fmt::Formatter) -> fmt::Result {
        let (lines, bytes) = (self.lines, self.text.len());
        let last = self.seed.wrapping_add(self.lists - 1);
        write!(
            f,
            "{} lines, {} bytes, of {} lists, ",
            lines, bytes, self.lists
        )?;
        write!(f, "seeds {} to {}", self.seed, last)
    }
}

impl Long {
    /// In words, how often each status was answered.
    pub fn shares(&self, answers: &[u8]) -> String {
        let mut counts = [0; 256];
        for line in answers.split(|byte| *byte == LINE_FEED).take(self.lines) {
            let status = line.get(..2).and_then(|two| std::str::from_utf8(two).ok());
            let status = status.and_then(|two| usize::from_str_radix(two, 16).ok());
            counts[status.unwrap_or(255)] += 1;
        }
        let seen = counts.iter().enumerate().filter(|(_, count)| **count > 0);
        let shares = seen.map(|(status, count)| {
            let share = 100.0 * f64::from(*count) / self.lines as f64;
            format!("{:02X} {:.1}%", status, share)
        });
        shares.collect::<Vec<String>>().join(", ")
    }
}

/// Seeds count up from the given one. The last list is cut off.
pub fn long(lines: usize, seed: u64) -> Long {
    let mut long = Long {
        lines: 0,
        text: Vec::new(),
        lists: 0,
        seed,
    };
    while long.lines < lines {
        let (seed, profile) = nth(long.lists, seed);
        let list = generate(seed, profile);
        let kept = lines_of(&list).into_iter().filter(|line| !left_out(line));
        for line in kept.take(lines - long.lines) {
            long.text.extend(line);
            long.text.push(LINE_FEED);
            long.lines += 1;
        }
        long.lists += 1;
    }
    long
}

fn left_out(line: &[u8]) -> bool {
    LEFT_OUT.iter().any(|start| line.starts_with(start))
}
