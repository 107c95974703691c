//! What a long run must have seen: each rule broken alone, and sound tables; each kind
//! done and refused, and each refusal; each length of the answer buffer, and the lengths
//! of lists that tell.

use crate::buffers::Buffers;
use crate::calls::After;
use crate::cases::Tally;
use crate::frames::LONGEST;
use crate::statuses::Statuses;
use second::answers::Refusal;
use second::rules::{all_rules, Rule};
use std::collections::BTreeMap;
use std::io::{self, Write};

/// Of a list. 256 places are right.
const LENGTHS: [usize; 4] = [0, 255, 256, 257];

#[derive(Default)]
pub struct Seen {
    /// How many tables broke each rule, alone and beside others, and how many none.
    broken: BTreeMap<Rule, [u64; 2]>,
    sound: u64,
    statuses: Statuses,
    /// By the number of places.
    links: BTreeMap<usize, u64>,
    grants: BTreeMap<usize, u64>,
    answers: BTreeMap<usize, u64>,
}

impl Seen {
    pub fn add(&mut self, frame: &[u8], broken: &[Rule], after: &After) {
        self.statuses.add(frame, after.status);
        *self.answers.entry(after.answer.len()).or_default() += 1;
        if after.status != Refusal::ShortBuffer as u8 {
            self.add_tables(broken, &after.lent);
        }
    }

    /// Only tables that were looked at count.
    fn add_tables(&mut self, broken: &[Rule], lent: &Buffers) {
        self.sound += u64::from(broken.is_empty());
        for rule in broken {
            let beside_others = usize::from(broken.len() > 1);
            self.broken.entry(*rule).or_default()[beside_others] += 1;
        }
        *self.links.entry(lent.links.len()).or_default() += 1;
        *self.grants.entry(lent.grants.len()).or_default() += 1;
    }

    fn alone(&self, rule: Rule) -> u64 {
        self.broken.get(&rule).map_or(0, |[alone, _]| *alone)
    }
}

impl Tally for Seen {
    const LONG_RUN: u64 = 10_000;

    fn print(&self, output: &mut dyn Write) -> io::Result<()> {
        let [rule, alone, beside] = ["rule broken", "alone", "beside others"];
        writeln!(output, "{:24} {:>8} {:>13}", rule, alone, beside)?;
        for (rule, [alone, beside]) in &self.broken {
            let name = format!("{:?}", rule);
            writeln!(output, "{:24} {:8} {:13}", name, alone, beside)?;
        }
        writeln!(output, "{:24} {:8}\n", "none", self.sound)?;
        self.statuses.print(output)?;
        writeln!(output)?;
        let lengths = [("links", &self.links), ("grants", &self.grants)];
        for (name, seen) in lengths {
            let told = LENGTHS.map(|n| format!("{} of {}", seen.get(&n).unwrap_or(&0), n));
            writeln!(
                output,
                "lists of {}: {}, of {} lengths",
                name,
                told.join(", "),
                seen.len()
            )?;
        }
        writeln!(output, "answer buffers of {} lengths", self.answers.len())
    }

    fn missed(&self) -> Vec<String> {
        let never = all_rules()
            .into_iter()
            .filter(|rule| self.alone(*rule) == 0);
        let mut missed: Vec<String> = never
            .map(|rule| format!("{:?} was never broken alone", rule))
            .collect();
        if self.sound == 0 {
            missed.push("no table was sound".to_string());
        }
        missed.extend(self.statuses.missed());
        missed.extend(missed_lengths("list of links", &self.links, &LENGTHS));
        missed.extend(missed_lengths("list of grants", &self.grants, &LENGTHS));
        let answers: Vec<usize> = (0..=LONGEST).collect();
        missed.extend(missed_lengths("answer buffer", &self.answers, &answers));
        missed
    }
}

fn missed_lengths(name: &str, seen: &BTreeMap<usize, u64>, lengths: &[usize]) -> Vec<String> {
    let missed = lengths.iter().filter(|length| !seen.contains_key(length));
    missed
        .map(|length| format!("no {} had {} places", name, length))
        .collect()
}
