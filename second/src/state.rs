//! The tables as clean values, in which unused places do not exist.
//! Document 01, sections "Things and numbers" and its "Fresh".
//! A thread or object is live when its number stands in the map.

use crate::authority::Authority;
use crate::memory::Memory;
use crate::things::*;
use std::collections::{BTreeMap, VecDeque};

#[derive(Clone, Debug, Default, PartialEq, Eq)]
pub struct ThreadRow {
    pub principal: Principal,
    pub secrecy: Label,
    pub integrity: Label,
    /// The last one put aside stands last.
    pub put_aside: Vec<Principal>,
}

#[derive(Clone, Copy, Debug, PartialEq, Eq)]
pub enum ObjectKind {
    Cell = 0,
    Queue = 1,
    Lock = 2,
}

impl ObjectKind {
    pub const ALL: [ObjectKind; 3] = [ObjectKind::Cell, ObjectKind::Queue, ObjectKind::Lock];

    pub fn from_number(number: u8) -> Option<ObjectKind> {
        ObjectKind::ALL.get(usize::from(number)).copied()
    }
}

#[derive(Clone, Debug, PartialEq, Eq)]
pub enum Contents {
    Cell(Message),
    /// First in first out: the first message is at the front.
    Queue(VecDeque<Message>),
    Lock {
        held: bool,
    },
}

impl Contents {
    /// "empty or unlocked"
    pub fn new(kind: ObjectKind) -> Contents {
        match kind {
            ObjectKind::Cell => Contents::Cell(Message::new()),
            ObjectKind::Queue => Contents::Queue(VecDeque::new()),
            ObjectKind::Lock => Contents::Lock { held: false },
        }
    }

    pub fn kind(&self) -> ObjectKind {
        match self {
            Contents::Cell(_) => ObjectKind::Cell,
            Contents::Queue(_) => ObjectKind::Queue,
            Contents::Lock { .. } => ObjectKind::Lock,
        }
    }
}

#[derive(Clone, Debug, PartialEq, Eq)]
pub struct ObjectRow {
    pub secrecy: Label,
    pub integrity: Label,
    pub contents: Contents,
}

#[derive(Clone, Debug, PartialEq, Eq)]
pub struct State {
    pub authority: Authority,
    pub threads: BTreeMap<Thread, ThreadRow>,
    pub objects: BTreeMap<Object, ObjectRow>,
    pub memory: Memory,
}

impl State {
    /// "Fresh: principals 0 and 1, no links, tags or objects; thread 0 live,
    /// principal 1, empty labels."
    pub fn fresh(memory_size: usize) -> State {
        let office = ThreadRow {
            principal: OFFICE,
            ..ThreadRow::default()
        };
        State {
            authority: Authority::fresh(),
            threads: BTreeMap::from([(FIRST_THREAD, office)]),
            objects: BTreeMap::new(),
            memory: Memory::new(memory_size),
        }
    }

    /// "New threads and objects take the lowest free number, freed ones included".
    pub fn free_thread(&self) -> Option<Thread> {
        let mut numbers = (0..MAX_THREADS as u8).map(Thread);
        numbers.find(|t| !self.threads.contains_key(t))
    }

    pub fn free_object(&self) -> Option<Object> {
        let mut numbers = (0..MAX_OBJECTS as u8).map(Object);
        numbers.find(|o| !self.objects.contains_key(o))
    }

    pub fn object_kind(&self, o: Object) -> Option<ObjectKind> {
        self.objects.get(&o).map(|row| row.contents.kind())
    }
}
