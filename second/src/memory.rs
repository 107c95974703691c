//! The remembered answers, and the counters of questions and hits.
//! Document 01, section "Remembered answers".

use crate::things::{Principal, Tag};

pub type Pair = (Principal, Tag);

#[derive(Clone, Debug, PartialEq, Eq)]
pub struct Memory {
    /// M, the most pairs held.
    pub size: usize,
    /// Latest first.
    pub pairs: Vec<Pair>,
    pub questions: u32,
    pub hits: u32,
}

impl Memory {
    pub fn new(size: usize) -> Memory {
        Memory {
            size,
            pairs: Vec::new(),
            questions: 0,
            hits: 0,
        }
    }

    /// One question. "If the pair is held it is a hit, and the yes is the
    /// memory's, with no walk; otherwise the walk answers."
    pub fn ask(&mut self, pair: Pair, walk: impl FnOnce() -> bool) -> bool {
        self.questions = self.questions.saturating_add(1);
        let held = self.pairs.contains(&pair);
        if held {
            self.hits = self.hits.saturating_add(1);
        }
        let yes = held || walk();
        if yes {
            self.bring_to_front(pair);
        }
        yes
    }

    /// "On yes the pair goes to the front and anything beyond M falls off".
    fn bring_to_front(&mut self, pair: Pair) {
        self.pairs.retain(|other| *other != pair);
        self.pairs.insert(0, pair);
        self.pairs.truncate(self.size);
    }

    /// A removal, or the host's clearing: the size and the counters stay.
    pub fn empty(&mut self) {
        self.pairs.clear();
    }
}
