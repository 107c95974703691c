//! How often each kind of request was answered each status.

use second::answers::{Refusal, DONE};
use second::kinds;
use std::io::{self, Write};

/// 0 for done, and the refusals that a request may get.
const STATUSES: usize = Refusal::ShortBuffer as usize + 1;
/// Row 0 is for frames without a kind that is known.
const ROWS: usize = kinds::LAST as usize + 1;

#[derive(Default)]
pub struct Statuses([[u64; STATUSES]; ROWS]);

impl Statuses {
    pub fn add(&mut self, frame: &[u8], status: u8) {
        let kind = frame.get(1).copied().filter(|kind| *kind <= kinds::LAST);
        self.0[usize::from(kind.unwrap_or(0))][usize::from(status)] += 1;
    }

    pub fn count(&self) -> u64 {
        self.0.iter().flatten().sum()
    }

    pub fn print(&self, output: &mut dyn Write) -> io::Result<()> {
        write!(output, "kind")?;
        for status in 0..STATUSES {
            write!(output, " {:>7}", status)?;
        }
        for (kind, row) in self.0.iter().enumerate() {
            match kind {
                0 => write!(output, "\nnone")?,
                _ => write!(output, "\n  {:02X}", kind)?,
            }
            print_row(row, output)?;
        }
        write!(output, "\n all")?;
        let all: Vec<u64> = (0..STATUSES).map(|status| self.of_status(status)).collect();
        print_row(&all, output)?;
        writeln!(output)
    }

    fn of_status(&self, status: usize) -> u64 {
        self.0.iter().map(|row| row[status]).sum()
    }

    /// Every status, and every kind done and refused as what it is, not 1.
    pub fn missed(&self) -> Vec<String> {
        let statuses = (0..STATUSES).filter(|status| self.of_status(*status) == 0);
        let mut missed: Vec<String> = statuses
            .map(|status| format!("no request was answered {}", status))
            .collect();
        for (kind, row) in self.0.iter().enumerate().skip(kinds::FIRST.into()) {
            let refused = Refusal::NotLive as usize..=Refusal::EmptyOrHeld as usize;
            if row[usize::from(DONE)] == 0 {
                missed.push(format!("kind {:02X} was never done", kind));
            }
            if row[refused].iter().sum::<u64>() == 0 {
                missed.push(format!("kind {:02X} was never refused 2 to 8", kind));
            }
        }
        missed
    }
}

fn print_row(row: &[u64], output: &mut dyn Write) -> io::Result<()> {
    row.iter()
        .try_for_each(|times| write!(output, " {:7}", times))
}
