//! The tables as the caller lends them: places, used and unused, beside counts.
//! Document 01, section "Things and numbers". A place here can hold any value,
//! broken ones too; `rules` tells which values break a rule. Clean tables become
//! places, and places that break no rule (but the truth of pairs) clean tables.

use crate::authority::{Authority, Link, TagLink, TagRow};
use crate::memory::{Memory, Pair};
use crate::rules::{broken_but_truth, Rule};
use crate::state::{Contents, ObjectKind, ObjectRow, State, ThreadRow};
use crate::things::*;
use std::collections::VecDeque;

/// A message's place: its length byte, then room for the longest.
pub const MESSAGE_PLACE: usize = 1 + MAX_MESSAGE;
/// As many message places for each object as a queue may need.
pub const OBJECT_MESSAGES: usize = MAX_QUEUE * MESSAGE_PLACE;
pub const MESSAGE_STORE: usize = MAX_OBJECTS * OBJECT_MESSAGES;

#[derive(Clone, Copy, Debug, Default, PartialEq, Eq)]
pub struct TagPlace {
    pub root: Principal,
    /// 1 for a subtag, 0 for a supertag.
    pub subtag: u8,
    pub supertag: Tag,
}

#[derive(Clone, Copy, Debug, Default, PartialEq, Eq)]
pub struct ThreadPlace {
    pub live: u8,
    pub principal: Principal,
    pub secrecy: u64,
    pub integrity: u64,
    pub put_aside_count: usize,
    pub put_aside: [Principal; MAX_PUT_ASIDE],
}

#[derive(Clone, Copy, Debug, Default, PartialEq, Eq)]
pub struct ObjectPlace {
    pub live: u8,
    pub kind: u8,
    pub secrecy: u64,
    pub integrity: u64,
    /// How many messages a queue holds. A cell's one message is not counted.
    pub held: usize,
    pub locked: u8,
}

#[derive(Clone, Debug, PartialEq, Eq)]
pub struct MemoryPlaces {
    pub size: usize,
    pub held: usize,
    pub pairs: [Pair; MAX_MEMORY],
    pub questions: u32,
    pub hits: u32,
}

#[derive(Clone, Debug, PartialEq, Eq)]
pub struct Places {
    pub principal_count: usize,
    pub principal_link_count: usize,
    pub principal_links: Vec<Link>,
    pub tag_count: usize,
    pub tags: [TagPlace; MAX_TAGS],
    pub tag_link_count: usize,
    pub tag_links: Vec<TagLink>,
    pub threads: [ThreadPlace; MAX_THREADS],
    pub objects: [ObjectPlace; MAX_OBJECTS],
    /// Message places object by object, in each from the first to the last.
    pub messages: Vec<u8>,
    pub memory: MemoryPlaces,
}

/// The first `count` places, as far as they exist.
pub fn used<T>(places: &[T], count: usize) -> &[T] {
    &places[..count.min(places.len())]
}

pub fn unused<T>(places: &[T], count: usize) -> &[T] {
    &places[count.min(places.len())..]
}

impl From<&State> for Places {
    /// "Unused places are zero."
    fn from(state: &State) -> Places {
        let authority = &state.authority;
        let mut places = Places {
            principal_count: authority.principals,
            principal_link_count: authority.principal_links.len(),
            principal_links: filled(&authority.principal_links),
            tag_count: authority.tags.len(),
            tags: [TagPlace::default(); MAX_TAGS],
            tag_link_count: authority.tag_links.len(),
            tag_links: filled(&authority.tag_links),
            threads: [ThreadPlace::default(); MAX_THREADS],
            objects: [ObjectPlace::default(); MAX_OBJECTS],
            messages: vec![0; MESSAGE_STORE],
            memory: memory_places(&state.memory),
        };
        for (place, row) in places.tags.iter_mut().zip(&authority.tags) {
            *place = tag_place(row);
        }
        for (t, row) in &state.threads {
            places.threads[usize::from(t.0)] = thread_place(row);
        }
        for (o, row) in &state.objects {
            places.put_object(*o, row);
        }
        places
    }
}

fn filled<T: Copy + Default>(links: &[T]) -> Vec<T> {
    let mut places = links.to_vec();
    places.resize(MAX_LINKS, T::default());
    places
}

fn memory_places(memory: &Memory) -> MemoryPlaces {
    let mut pairs = [Pair::default(); MAX_MEMORY];
    pairs[..memory.pairs.len()].copy_from_slice(&memory.pairs);
    MemoryPlaces {
        size: memory.size,
        held: memory.pairs.len(),
        pairs,
        questions: memory.questions,
        hits: memory.hits,
    }
}

fn tag_place(row: &TagRow) -> TagPlace {
    TagPlace {
        root: row.root,
        subtag: u8::from(row.supertag.is_some()),
        supertag: row.supertag.unwrap_or_default(),
    }
}

fn thread_place(row: &ThreadRow) -> ThreadPlace {
    let mut put_aside = [Principal::default(); MAX_PUT_ASIDE];
    put_aside[..row.put_aside.len()].copy_from_slice(&row.put_aside);
    ThreadPlace {
        live: 1,
        principal: row.principal,
        secrecy: row.secrecy.bits(),
        integrity: row.integrity.bits(),
        put_aside_count: row.put_aside.len(),
        put_aside,
    }
}

impl Places {
    fn put_object(&mut self, o: Object, row: &ObjectRow) {
        let place = &mut self.objects[usize::from(o.0)];
        *place = ObjectPlace {
            live: 1,
            kind: row.contents.kind() as u8,
            secrecy: row.secrecy.bits(),
            integrity: row.integrity.bits(),
            held: 0,
            locked: 0,
        };
        match &row.contents {
            Contents::Cell(message) => self.put_message(o, 0, message),
            Contents::Queue(messages) => {
                place.held = messages.len();
                for (n, message) in messages.iter().enumerate() {
                    self.put_message(o, n, message);
                }
            }
            Contents::Lock { held } => place.locked = u8::from(*held),
        }
    }

    fn put_message(&mut self, o: Object, n: usize, message: &[u8]) {
        let at = usize::from(o.0) * OBJECT_MESSAGES + n * MESSAGE_PLACE;
        self.messages[at] = message.len() as u8;
        self.messages[at + 1..at + 1 + message.len()].copy_from_slice(message);
    }

    /// The clean tables, for places that break no rule but the truth of pairs.
    pub fn state(&self) -> Result<State, Rule> {
        if let Some(rule) = broken_but_truth(self) {
            return Err(rule);
        }
        let threads = (0..).map(Thread).zip(&self.threads);
        let objects = (0..).map(Object).zip(&self.objects);
        Ok(State {
            authority: self.authority(),
            threads: threads
                .filter(|(_, place)| place.live == 1)
                .map(|(t, place)| (t, thread_row(place)))
                .collect(),
            objects: objects
                .filter(|(_, place)| place.live == 1)
                .map(|(o, place)| (o, self.object_row(o, place)))
                .collect(),
            memory: Memory {
                size: self.memory.size,
                pairs: used(&self.memory.pairs, self.memory.held).to_vec(),
                questions: self.memory.questions,
                hits: self.memory.hits,
            },
        })
    }

    /// Principals, tags and links as the used places give them, broken or not.
    pub fn authority(&self) -> Authority {
        Authority {
            principals: self.principal_count,
            principal_links: used(&self.principal_links, self.principal_link_count).to_vec(),
            tags: used(&self.tags, self.tag_count)
                .iter()
                .map(tag_row)
                .collect(),
            tag_links: used(&self.tag_links, self.tag_link_count).to_vec(),
        }
    }

    fn object_row(&self, o: Object, place: &ObjectPlace) -> ObjectRow {
        let mut contents = Contents::new(ObjectKind::ALL[usize::from(place.kind)]);
        match &mut contents {
            Contents::Cell(message) => *message = self.message(o, 0),
            Contents::Queue(messages) => {
                *messages = (0..place.held)
                    .map(|n| self.message(o, n))
                    .collect::<VecDeque<_>>()
            }
            Contents::Lock { held } => *held = place.locked == 1,
        }
        ObjectRow {
            secrecy: Label::from_bits(place.secrecy),
            integrity: Label::from_bits(place.integrity),
            contents,
        }
    }

    fn message(&self, o: Object, n: usize) -> Message {
        let at = usize::from(o.0) * OBJECT_MESSAGES + n * MESSAGE_PLACE;
        let length = usize::from(self.messages[at]);
        self.messages[at + 1..at + 1 + length].to_vec()
    }
}

fn tag_row(place: &TagPlace) -> TagRow {
    TagRow {
        root: place.root,
        supertag: (place.subtag != 0).then_some(place.supertag),
    }
}

fn thread_row(place: &ThreadPlace) -> ThreadRow {
    ThreadRow {
        principal: place.principal,
        secrecy: Label::from_bits(place.secrecy),
        integrity: Label::from_bits(place.integrity),
        put_aside: used(&place.put_aside, place.put_aside_count).to_vec(),
    }
}
