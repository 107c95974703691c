//! What a long run must have seen: each status of a request, each kind done and refused,
//! both statuses of the start, and the clearing.

use crate::calls::Call;
use crate::cases::Tally;
use crate::statuses::Statuses;
use second::answers::{Refusal, DONE};
use std::collections::BTreeMap;
use std::io::{self, Write};

#[derive(Default)]
pub struct Seen {
    requests: Statuses,
    /// By status.
    starts: BTreeMap<u8, u64>,
    clearings: u64,
}

impl Seen {
    pub fn add(&mut self, call: &Call, status: u8) {
        match call {
            Call::Start { .. } => *self.starts.entry(status).or_default() += 1,
            Call::Clear => self.clearings += 1,
            Call::Request { frame, .. } => self.requests.add(frame, status),
        }
    }

    fn starts(&self, status: u8) -> u64 {
        self.starts.get(&status).copied().unwrap_or(0)
    }
}

impl Tally for Seen {
    const LONG_RUN: u64 = 200;

    fn print(&self, output: &mut dyn Write) -> io::Result<()> {
        let (started, refused) = (self.starts(DONE), self.starts(Refusal::MemorySize as u8));
        self.requests.print(output)?;
        writeln!(
            output,
            "\n{} requests, {} starts, {} starts refused 11, {} clearings",
            self.requests.count(),
            started,
            refused,
            self.clearings
        )
    }

    fn missed(&self) -> Vec<String> {
        let mut missed = self.requests.missed();
        for status in [DONE, Refusal::MemorySize as u8] {
            if self.starts(status) == 0 {
                missed.push(format!("no start was answered {}", status));
            }
        }
        if self.clearings == 0 {
            missed.push("the memory was never cleared".to_string());
        }
        missed
    }
}
