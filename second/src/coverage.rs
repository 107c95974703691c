//! Which statuses each kind was answered, and how far the tables were filled.
//! The kinds are those of document 01, section "Requests"; the statuses those
//! of section "Refusal numbers".

use crate::answers::{status, Refusal, DONE};
use crate::kinds;
use crate::lines::{answer_line, frame_of_line, LINE_FEED};
use crate::state::{Contents, State};
use crate::things::LINE_MEMORY;
use std::collections::BTreeMap;
use std::fmt;

#[derive(Clone, Copy, Debug, PartialEq, Eq, PartialOrd, Ord)]
pub enum Row {
    /// 00 to 1B, as the frame's second byte says (00 is no kind).
    Kind(u8),
    /// A line without frame, a frame without kind, or a kind over 1B.
    Unknown,
}

impl fmt::Display for Row {
    fn fmt(&self, f: &mut fmt::Formatter) -> fmt::Result {
        match self {
            Row::Kind(kind) => write!(f, "{:02X}", kind),
            Row::Unknown => write!(f, "unknown"),
        }
    }
}

/// The most that any table held.
#[derive(Clone, Debug, Default, PartialEq, Eq)]
pub struct Deepest {
    pub principals: usize,
    pub principal_links: usize,
    pub tags: usize,
    pub tag_links: usize,
    pub threads: usize,
    pub put_aside: usize,
    pub objects: usize,
    pub queue: usize,
    pub pairs: usize,
    pub hits: u32,
}

#[derive(Clone, Debug, Default)]
pub struct Coverage {
    reached: BTreeMap<(Row, u8), u64>,
    pub deepest: Deepest,
}

/// The row to which a line counts.
pub fn row_of_line(line: &[u8]) -> Row {
    match frame_of_line(line).as_deref() {
        Ok([_, kind, ..]) if *kind <= kinds::LAST => Row::Kind(*kind),
        _ => Row::Unknown,
    }
}

/// The lines of a list, as the line program takes them.
pub fn lines_of(list: &[u8]) -> Vec<&[u8]> {
    let mut lines: Vec<&[u8]> = list.split(|byte| *byte == LINE_FEED).collect();
    // What follows the last LF counts only if it has a byte.
    if lines.last().map_or(false, |last| last.is_empty()) {
        lines.pop();
    }
    lines
}

impl Coverage {
    pub fn add(&mut self, list: &[u8]) {
        let mut state = State::fresh(LINE_MEMORY);
        for line in lines_of(list) {
            let answer = answer_line(&mut state, line);
            let pair = (row_of_line(line), status(&answer));
            *self.reached.entry(pair).or_insert(0) += 1;
            self.deepest.see(&state);
        }
    }

    pub fn count(&self, row: Row, status: u8) -> u64 {
        self.reached.get(&(row, status)).copied().unwrap_or(0)
    }
}

impl Deepest {
    fn see(&mut self, state: &State) {
        let deepen = |deepest: &mut usize, now: usize| *deepest = now.max(*deepest);
        deepen(&mut self.principals, state.authority.principals);
        deepen(
            &mut self.principal_links,
            state.authority.principal_links.len(),
        );
        deepen(&mut self.tags, state.authority.tags.len());
        deepen(&mut self.tag_links, state.authority.tag_links.len());
        deepen(&mut self.threads, state.threads.len());
        deepen(&mut self.objects, state.objects.len());
        deepen(&mut self.pairs, state.memory.pairs.len());
        for row in state.threads.values() {
            deepen(&mut self.put_aside, row.put_aside.len());
        }
        for row in state.objects.values() {
            if let Contents::Queue(messages) = &row.contents {
                deepen(&mut self.queue, messages.len());
            }
        }
        self.hits = self.hits.max(state.memory.hits);
    }
}

impl fmt::Display for Coverage {
    /// The table: a row a kind, a column a status, a dot for what was not reached.
    fn fmt(&self, f: &mut fmt::Formatter) -> fmt::Result {
        let statuses = DONE..=Refusal::MemorySize as u8;
        write!(f, "{:7}", "kind")?;
        for status in statuses.clone() {
            write!(f, "{:>7}", status)?;
        }
        let kinds = (0..=kinds::LAST).map(Row::Kind);
        for row in kinds.chain([Row::Unknown]) {
            write!(f, "\n{:7}", row.to_string())?;
            for status in statuses.clone() {
                match self.count(row, status) {
                    0 => write!(f, "{:>7}", ".")?,
                    count => write!(f, "{:>7}", count)?,
                }
            }
        }
        writeln!(f, "\n\n{:?}", self.deepest)
    }
}
