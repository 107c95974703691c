//! Buffers to and from the second program's places, which are the same fields. A
//! remembered pair of 65536 or more, which a place cannot hold, becomes one of principal
//! 255: neither names anything in tables within the limits, and neither is zero.

use super::raw::{self, LabelPair, PrincipalLink};
use super::Buffers;
use second::authority::{Link, TagLink};
use second::memory::Pair;
use second::places::*;
use second::state::State;
use second::things::{Principal, Tag};

impl From<&State> for Buffers {
    fn from(state: &State) -> Buffers {
        Buffers::from(&Places::from(state))
    }
}

impl From<&Places> for Buffers {
    fn from(places: &Places) -> Buffers {
        let state = raw::State {
            tables: tables(places),
            memory: memory(&places.memory),
        };
        Buffers {
            state,
            links: places.principal_links.iter().map(link).collect(),
            grants: places.tag_links.iter().map(grant).collect(),
            store: places.messages.clone(),
        }
    }
}

impl Buffers {
    pub fn places(&self) -> Places {
        let tables = &self.state.tables;
        Places {
            principal_count: tables.principals as usize,
            principal_link_count: tables.links,
            principal_links: self.links.iter().map(link_place).collect(),
            tag_count: tables.tags as usize,
            tags: tables.kinds.map(tag_place),
            tag_link_count: tables.grants,
            tag_links: self.grants.iter().map(tag_link_place).collect(),
            threads: tables.threads.map(thread_place),
            objects: tables.objects.map(object_place),
            messages: self.store.clone(),
            memory: memory_places(&self.state.memory),
        }
    }
}

fn tables(places: &Places) -> raw::Tables {
    raw::Tables {
        principals: word(places.principal_count),
        links: places.principal_link_count,
        tags: word(places.tag_count),
        grants: places.tag_link_count,
        threads: places.threads.map(thread),
        kinds: places.tags.map(tag),
        objects: places.objects.map(object),
    }
}

fn word(count: usize) -> u32 {
    u32::try_from(count).expect("a count of 32 bits")
}

fn link(place: &Link) -> PrincipalLink {
    PrincipalLink {
        from: place.from.0,
        to: place.to.0,
    }
}

fn link_place(link: &PrincipalLink) -> Link {
    Link {
        from: Principal(link.from),
        to: Principal(link.to),
    }
}

fn grant(place: &TagLink) -> raw::TagLink {
    let PrincipalLink { from, to } = link(&place.link);
    let tag = place.tag.0;
    raw::TagLink { tag, from, to }
}

fn tag_link_place(grant: &raw::TagLink) -> TagLink {
    let raw::TagLink { tag, from, to } = *grant;
    TagLink {
        tag: Tag(tag),
        link: link_place(&PrincipalLink { from, to }),
    }
}

fn thread(place: ThreadPlace) -> raw::ThreadRow {
    raw::ThreadRow {
        live: place.live,
        principal: place.principal.0,
        labels: LabelPair {
            secrecy: place.secrecy,
            integrity: place.integrity,
        },
        calls: place.put_aside_count,
        aside: place.put_aside.map(|p| p.0),
    }
}

fn thread_place(row: raw::ThreadRow) -> ThreadPlace {
    ThreadPlace {
        live: row.live,
        principal: Principal(row.principal),
        secrecy: row.labels.secrecy,
        integrity: row.labels.integrity,
        put_aside_count: row.calls,
        put_aside: row.aside.map(Principal),
    }
}

fn tag(place: TagPlace) -> raw::TagRow {
    raw::TagRow {
        root: place.root.0,
        subtag: place.subtag,
        supertag: place.supertag.0,
    }
}

fn tag_place(row: raw::TagRow) -> TagPlace {
    TagPlace {
        root: Principal(row.root),
        subtag: row.subtag,
        supertag: Tag(row.supertag),
    }
}

fn object(place: ObjectPlace) -> raw::ObjectRow {
    raw::ObjectRow {
        live: place.live,
        kind: place.kind,
        held: place.held,
        locked: place.locked,
        labels: LabelPair {
            secrecy: place.secrecy,
            integrity: place.integrity,
        },
    }
}

fn object_place(row: raw::ObjectRow) -> ObjectPlace {
    ObjectPlace {
        live: row.live,
        kind: row.kind,
        secrecy: row.labels.secrecy,
        integrity: row.labels.integrity,
        held: row.held,
        locked: row.locked,
    }
}

fn memory(places: &MemoryPlaces) -> raw::Memory {
    raw::Memory {
        size: places.size,
        held: places.held,
        pairs: places.pairs.map(pair),
        questions: places.questions,
        hits: places.hits,
    }
}

fn memory_places(memory: &raw::Memory) -> MemoryPlaces {
    MemoryPlaces {
        size: memory.size,
        held: memory.held,
        pairs: memory.pairs.map(pair_place),
        questions: memory.questions,
        hits: memory.hits,
    }
}

fn pair((p, t): Pair) -> u32 {
    u32::from(p.0) * 256 + u32::from(t.0)
}

fn pair_place(number: u32) -> Pair {
    let principal = u8::try_from(number / 256).unwrap_or(u8::MAX);
    (Principal(principal), Tag(number as u8))
}
