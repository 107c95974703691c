//! Tables on which every kind of request can be made without changing them for good.
//! Thread 0 is the office's, thread 1 the public's, and the last one was forked by thread
//! 0. A path leads from every principal but the public to the office, past the last link
//! too; the office is authoritative for tag 0, to which the last tag link belongs.
//! Objects 0, 1 and 2 are a cell, a queue with room and a lock that is free, and the last
//! is an empty cell: none of them has a label.

use crate::graphs::{any_order, graph, shared_out, Shape};
use crate::random::Random;
use crate::sound::{object, tag_link, Sizes, FULL, NEARLY_EMPTY};
use second::authority::{Authority, Link, TagLink, TagRow};
use second::memory::{Memory, Pair};
use second::state::{Contents, ObjectRow, State, ThreadRow};
use second::things::*;
use std::collections::BTreeMap;

/// How far tables are filled.
pub struct Filled {
    pub name: &'static str,
    pub sizes: Sizes,
    /// The messages in queue 1.
    pub queued: usize,
}

/// The memory is that of the line program.
pub const FILLED: [Filled; 2] = [
    Filled {
        name: "nearly empty",
        sizes: Sizes {
            principals: 4,
            links: 3,
            threads: 3,
            objects: 4,
            ..NEARLY_EMPTY
        },
        queued: 0,
    },
    Filled {
        name: "full",
        sizes: Sizes {
            memory: LINE_MEMORY,
            pairs: LINE_MEMORY,
            ..FULL
        },
        queued: MAX_QUEUE - 1,
    },
];

pub const OFFICES: Thread = Thread(0);
pub const PUBLICS: Thread = Thread(1);
pub const TAG: Tag = Tag(0);
pub const CELL: Object = Object(0);
pub const QUEUE: Object = Object(1);
pub const LOCK: Object = Object(2);
pub const MESSAGE: [u8; MAX_MESSAGE] = [0x41; MAX_MESSAGE];

pub struct Tables {
    pub state: State,
    /// From whom the path to the office is the longest.
    pub head: Principal,
    pub link: Link,
    /// Of tag 0.
    pub tag_link: TagLink,
    pub thread: Thread,
    pub object: Object,
}

pub fn tables(random: &mut Random, filled: &Filled) -> Tables {
    let Filled { sizes, queued, .. } = *filled;
    let mut order = any_order(random, u32::from(OFFICE.0) + 1, sizes.principals);
    order.push(OFFICE.0.into());
    let head = Principal(order[0] as u8);
    let authority = authority(random, sizes, &order);
    let last = |count: usize| count as u8 - 1;
    Tables {
        head,
        link: authority.principal_links[sizes.links - 1],
        tag_link: authority.tag_links[sizes.tag_links - 1],
        thread: Thread(last(sizes.threads)),
        object: Object(last(sizes.objects)),
        state: State {
            threads: threads(sizes, head),
            objects: objects(random, sizes, queued),
            memory: memory(sizes, &authority),
            authority,
        },
    }
}

/// The links of the chain come first, and those of tag 0 last.
fn authority(random: &mut Random, sizes: Sizes, order: &[u32]) -> Authority {
    let links = graph(random, Shape::Chain, 0, order, sizes.links);
    let ends = (OFFICE.0.into(), sizes.principals);
    let mut tag_links = shared_out(random, sizes.shape, sizes.tags, ends, sizes.tag_links);
    tag_links.reverse();
    let tag_links: Vec<TagLink> = tag_links.into_iter().map(tag_link).collect();
    let mut tags: Vec<TagRow> = (0..sizes.tags as u8)
        .map(|t| tag(random, sizes, t))
        .collect();
    tags[usize::from(TAG.0)].root = tag_links[sizes.tag_links - 1].link.from;
    Authority {
        principals: sizes.principals as usize,
        principal_links: links.into_iter().map(|l| tag_link(l).link).collect(),
        tags,
        tag_links,
    }
}

/// Every other tag is a subtag of the one before it. Any principal is a root.
fn tag(random: &mut Random, sizes: Sizes, t: u8) -> TagRow {
    TagRow {
        root: Principal(1 + random.below(sizes.principals - 1) as u8),
        supertag: (t % 2 == 1).then(|| Tag(t - 1)),
    }
}

/// All but the first two and the last have put aside as many as they can.
fn threads(sizes: Sizes, head: Principal) -> BTreeMap<Thread, ThreadRow> {
    let last = sizes.threads - 1;
    let row = |t: usize| ThreadRow {
        principal: [OFFICE, PUBLIC].get(t).copied().unwrap_or(head),
        put_aside: match t {
            t if 1 < t && t < last => vec![head; MAX_PUT_ASIDE],
            _ => Vec::new(),
        },
        ..ThreadRow::default()
    };
    (0..sizes.threads)
        .map(|t| (Thread(t as u8), row(t)))
        .collect()
}

fn objects(random: &mut Random, sizes: Sizes, queued: usize) -> BTreeMap<Object, ObjectRow> {
    let numbers = (0..sizes.objects as u8).map(Object);
    let mut objects: BTreeMap<Object, ObjectRow> =
        numbers.map(|o| (o, object(random, sizes))).collect();
    let cell = |message: &[u8]| Contents::Cell(message.to_vec());
    let last = Object(sizes.objects as u8 - 1);
    let queue = (0..queued).map(|_| MESSAGE.to_vec()).collect();
    for (o, contents) in [
        (CELL, cell(&MESSAGE)),
        (QUEUE, Contents::Queue(queue)),
        (LOCK, Contents::Lock { held: false }),
        (last, cell(&[])),
    ] {
        let row = ObjectRow {
            secrecy: Label::default(),
            integrity: Label::default(),
            contents,
        };
        objects.insert(o, row);
    }
    objects
}

fn memory(sizes: Sizes, authority: &Authority) -> Memory {
    let tags = (0..sizes.tags as u8).map(Tag);
    let all = tags.flat_map(|t| (0..sizes.principals as u8).map(move |p| (Principal(p), t)));
    let pairs: Vec<Pair> = all
        .filter(|(p, t)| authority.authoritative(*p, *t))
        .take(sizes.pairs)
        .collect();
    Memory {
        size: sizes.memory,
        pairs,
        questions: u32::MAX,
        hits: u32::MAX,
    }
}
