//! The four kinds of number, labels and messages, and every limit.
//! Document 01, section "Things and numbers" (and the limits named elsewhere).
//! Principals, tags, threads and objects are types of their own: "a principal
//! number is never accepted where a tag, thread or object number is meant".

use std::collections::BTreeSet;

#[derive(Clone, Copy, Debug, Default, PartialEq, Eq, PartialOrd, Ord)]
pub struct Principal(pub u8);

#[derive(Clone, Copy, Debug, Default, PartialEq, Eq, PartialOrd, Ord)]
pub struct Tag(pub u8);

#[derive(Clone, Copy, Debug, Default, PartialEq, Eq, PartialOrd, Ord)]
pub struct Thread(pub u8);

#[derive(Clone, Copy, Debug, Default, PartialEq, Eq, PartialOrd, Ord)]
pub struct Object(pub u8);

/// "Number 0 is the public, 1 is the office."
pub const PUBLIC: Principal = Principal(0);
pub const OFFICE: Principal = Principal(1);

/// The office's thread, the only one live at the start.
pub const FIRST_THREAD: Thread = Thread(0);

pub const MAX_PRINCIPALS: usize = 64;
/// The public and the office are there from the start and never removed.
pub const MIN_PRINCIPALS: usize = 2;
pub const MAX_TAGS: usize = 64;
pub const MAX_THREADS: usize = 16;
pub const MAX_OBJECTS: usize = 64;
/// "256 places each", of principal links and of tag links.
pub const MAX_LINKS: usize = 256;
/// "up to 8 principals put aside by calls".
pub const MAX_PUT_ASIDE: usize = 8;
/// "A queue holds at most 8".
pub const MAX_QUEUE: usize = 8;
/// "A message is 0 to 32 bytes."
pub const MAX_MESSAGE: usize = 32;
/// "a memory size over 64" is refused.
pub const MAX_MEMORY: usize = 64;
/// "the answer buffer has fewer than 34 bytes": 10.
pub const MIN_BUFFER: usize = 34;
/// "Labels are 8 bytes".
pub const LABEL_BYTES: usize = 8;
/// A line of "over 72 digits" is refused.
pub const MAX_DIGITS: usize = 72;
/// "The line program has M = 8".
pub const LINE_MEMORY: usize = 8;

pub type Message = Vec<u8>;

/// "Label: a set of tags, one 64-bit number per label; tag n has weight 2^n."
#[derive(Clone, Debug, Default, PartialEq, Eq)]
pub struct Label(BTreeSet<Tag>);

impl Label {
    pub fn from_bits(bits: u64) -> Label {
        let weighs = |n: &u8| bits & (1 << n) != 0;
        Label((0..MAX_TAGS as u8).filter(weighs).map(Tag).collect())
    }

    pub fn bits(&self) -> u64 {
        self.0.iter().map(|t| 1 << t.0).sum()
    }

    pub fn is_empty(&self) -> bool {
        self.0.is_empty()
    }

    pub fn holds(&self, t: Tag) -> bool {
        self.0.contains(&t)
    }

    pub fn within(&self, other: &Label) -> bool {
        self.0.is_subset(&other.0)
    }

    pub fn add(&mut self, t: Tag) {
        self.0.insert(t);
    }

    pub fn remove(&mut self, t: Tag) {
        self.0.remove(&t);
    }

    pub fn tags(&self) -> impl Iterator<Item = Tag> + '_ {
        self.0.iter().copied()
    }
}
