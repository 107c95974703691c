//! The remembered answers. Document 01, section of that name; M = 8, the line
//! program's.

pub const SIZE: usize = 8;

/// A pair (P, T) is P * 256 + T.
pub fn pair(p: u8, t: u8) -> u16 {
    u16::from(p) << 8 | u16::from(t)
}

#[derive(Default)]
pub struct Memory {
    /// The latest is first.
    pub pairs: [u16; SIZE],
    pub held: usize,
    pub questions: u32,
    pub hits: u32,
}

impl Memory {
    /// One question: "If the pair is held it is a hit, and the yes is the memory's,
    /// with no walk; otherwise the walk answers."
    pub fn ask(&mut self, p: u8, t: u8, walk: impl FnOnce() -> bool) -> bool {
        let pair = pair(p, t);
        self.questions = self.questions.saturating_add(1);
        let mut held = self.pairs[..self.held].iter();
        match held.position(|there| *there == pair) {
            Some(place) => {
                self.hits = self.hits.saturating_add(1);
                self.move_to_front(pair, place);
                true
            }
            None => {
                let yes = walk();
                if yes {
                    let last = self.held.min(SIZE - 1);
                    self.move_to_front(pair, last);
                    self.held = last + 1;
                }
                yes
            }
        }
    }

    /// Those before the place move down by one, over what stands there.
    fn move_to_front(&mut self, pair: u16, place: usize) {
        self.pairs.copy_within(..place, 1);
        self.pairs[0] = pair;
    }

    /// "A removal that takes out a link empties the memory"
    pub fn empty(&mut self) {
        self.pairs = [0; SIZE];
        self.held = 0;
    }
}
