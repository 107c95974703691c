//! The four kinds of number, labels and the kinds of object. 01, section "Things and
//! numbers": "A principal number is never accepted where a tag, thread or object number is
//! meant; the code keeps the four kinds apart." A number need not be made: a request that
//! names nothing is refused 3, one of a thread that is not live 2.

use std::fmt;

/// The number of a principal.
#[derive(Clone, Copy, Debug, PartialEq, Eq, PartialOrd, Ord, Hash)]
pub struct Principal(pub u8);

/// The number of a tag.
#[derive(Clone, Copy, Debug, PartialEq, Eq, PartialOrd, Ord, Hash)]
pub struct Tag(pub u8);

/// The number of a thread.
#[derive(Clone, Copy, Debug, PartialEq, Eq, PartialOrd, Ord, Hash)]
pub struct Thread(pub u8);

/// The number of an object.
#[derive(Clone, Copy, Debug, PartialEq, Eq, PartialOrd, Ord, Hash)]
pub struct Object(pub u8);

impl Principal {
    /// "Number 0 is the public".
    pub const PUBLIC: Principal = Principal(0);
    /// "1 is the office."
    pub const OFFICE: Principal = Principal(1);
}

impl Thread {
    /// The office's thread, the only one that is live at the start.
    pub const FIRST: Thread = Thread(0);
}

impl fmt::Display for Principal {
    fn fmt(&self, f: &mut fmt::Formatter) -> fmt::Result {
        write!(f, "principal {}", self.0)
    }
}

impl fmt::Display for Tag {
    fn fmt(&self, f: &mut fmt::Formatter) -> fmt::Result {
        write!(f, "tag {}", self.0)
    }
}

impl fmt::Display for Thread {
    fn fmt(&self, f: &mut fmt::Formatter) -> fmt::Result {
        write!(f, "thread {}", self.0)
    }
}

impl fmt::Display for Object {
    fn fmt(&self, f: &mut fmt::Formatter) -> fmt::Result {
        write!(f, "object {}", self.0)
    }
}

/// "of kind 0 cell, 1 queue, 2 lock"
#[derive(Clone, Copy, Debug, PartialEq, Eq, Hash)]
pub enum ObjectKind {
    /// One message, empty at first.
    Cell = 0,
    /// "A queue holds at most 8, first in first out."
    Queue = 1,
    /// Held or not; unlocked at first.
    Lock = 2,
}

/// "Label: a set of tags, one 64-bit number per label; tag n has weight 2^n."
///
/// ```
/// use suvdorkhun::{Label, Tag};
///
/// let label = Label::from([Tag(0), Tag(2)]);
/// assert_eq!(label.bits(), 5);
/// assert!(label.has(Tag(2)) && !label.has(Tag(1)));
/// assert!(label.without(Tag(0)).without(Tag(2)).is_empty());
/// ```
#[derive(Clone, Copy, Debug, Default, PartialEq, Eq, Hash)]
pub struct Label(u64);

impl Label {
    /// No tag at all.
    pub const EMPTY: Label = Label(0);

    /// The label of this number.
    pub fn from_bits(bits: u64) -> Label {
        Label(bits)
    }

    /// The label's number.
    pub fn bits(self) -> u64 {
        self.0
    }

    /// Whether no tag is in it.
    pub fn is_empty(self) -> bool {
        self == Label::EMPTY
    }

    /// Whether the tag is in it.
    pub fn has(self, t: Tag) -> bool {
        self.0 & weight(t) != 0
    }

    /// The same with the tag in it.
    pub fn with(self, t: Tag) -> Label {
        Label(self.0 | weight(t))
    }

    /// The same with the tag out of it.
    pub fn without(self, t: Tag) -> Label {
        Label(self.0 & !weight(t))
    }
}

/// A number of 64 or more is no tag's and in no label.
fn weight(t: Tag) -> u64 {
    1u64.checked_shl(t.0.into()).unwrap_or(0)
}

impl From<Tag> for Label {
    fn from(t: Tag) -> Label {
        Label::EMPTY.with(t)
    }
}

impl<const N: usize> From<[Tag; N]> for Label {
    fn from(tags: [Tag; N]) -> Label {
        tags.into_iter().collect()
    }
}

impl FromIterator<Tag> for Label {
    fn from_iter<I: IntoIterator<Item = Tag>>(tags: I) -> Label {
        tags.into_iter().fold(Label::EMPTY, Label::with)
    }
}
