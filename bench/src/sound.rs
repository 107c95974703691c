//! Seeded clean tables of all sizes, from fresh to full, that break no rule of 9. The
//! remembered pairs are true because each was found by going along the links.

mod sizes;

pub use sizes::{Sizes, FULL, NEARLY_EMPTY};

use crate::graphs::{any_order, graph, parts, shared_out};
use crate::random::Random;
use second::authority::{Authority, Link, TagLink, TagRow};
use second::memory::{Memory, Pair};
use second::state::{Contents, ObjectRow, State, ThreadRow};
use second::things::*;
use sizes::{amount, any_sizes, small_sizes};
use std::collections::BTreeMap;

pub fn any_sound(random: &mut Random) -> State {
    let any = any_sizes(random);
    let Sizes { shape, first, .. } = any;
    let full = Sizes {
        shape,
        first,
        ..FULL
    };
    match random.below(8) {
        0 => State::fresh(any.memory),
        1 => sound(random, NEARLY_EMPTY),
        2 | 3 => {
            let small = small_sizes(random, any);
            sound(random, small)
        }
        4 | 5 => sound(random, full),
        _ => sound(random, any),
    }
}

pub fn sound(random: &mut Random, sizes: Sizes) -> State {
    let authority = authority(random, sizes);
    State {
        threads: numbered(random, MAX_THREADS, sizes.threads, |random, t| {
            (Thread(t), thread(random, sizes))
        }),
        objects: numbered(random, MAX_OBJECTS, sizes.objects, |random, o| {
            (Object(o), object(random, sizes))
        }),
        memory: memory(random, sizes, &authority),
        authority,
    }
}

fn authority(random: &mut Random, sizes: Sizes) -> Authority {
    let ends = (sizes.first, sizes.principals);
    let order = any_order(random, ends.0, ends.1);
    let mut links = graph(random, sizes.shape, 0, &order, sizes.links);
    let mut tag_links = shared_out(random, sizes.shape, sizes.tags, ends, sizes.tag_links);
    random.shuffle(&mut links);
    random.shuffle(&mut tag_links);
    Authority {
        principals: sizes.principals as usize,
        principal_links: links.into_iter().map(|l| tag_link(l).link).collect(),
        tags: tags(random, sizes),
        tag_links: tag_links.into_iter().map(tag_link).collect(),
    }
}

pub fn tag_link(number: u32) -> TagLink {
    let (tag, from, to) = parts(number);
    TagLink {
        tag: Tag(tag as u8),
        link: Link {
            from: Principal(from as u8),
            to: Principal(to as u8),
        },
    }
}

/// Half of the tags are subtags of earlier supertags.
fn tags(random: &mut Random, sizes: Sizes) -> Vec<TagRow> {
    let mut tags: Vec<TagRow> = Vec::new();
    for _ in 0..sizes.tags {
        let numbered = (0..).map(Tag).zip(&tags);
        let supertags = numbered.filter(|(_, row)| row.supertag.is_none());
        let supertag = random.some(supertags.map(|(t, _)| t));
        tags.push(TagRow {
            root: Principal(1 + random.below(sizes.principals - 1) as u8),
            supertag: supertag.filter(|_| random.one_in(2)),
        });
    }
    tags
}

/// So many rows under any different numbers.
fn numbered<K: Ord, V>(
    random: &mut Random,
    most: usize,
    count: usize,
    mut row: impl FnMut(&mut Random, u8) -> (K, V),
) -> BTreeMap<K, V> {
    let mut numbers: Vec<u8> = (0..most as u8).collect();
    random.shuffle(&mut numbers);
    numbers[..count].iter().map(|n| row(random, *n)).collect()
}

fn thread(random: &mut Random, sizes: Sizes) -> ThreadRow {
    let calls = amount(random, MAX_PUT_ASIDE);
    let mut principal = || Principal(random.below(sizes.principals) as u8);
    ThreadRow {
        principal: principal(),
        put_aside: (0..calls).map(|_| principal()).collect(),
        secrecy: label(random, sizes),
        integrity: label(random, sizes),
    }
}

fn label(random: &mut Random, sizes: Sizes) -> Label {
    let made = match sizes.tags {
        0 => 0,
        tags => u64::MAX >> (64 - tags),
    };
    let any = random.draw();
    Label::from_bits(random.pick(&[0, 0, any, u64::MAX]) & made)
}

pub fn object(random: &mut Random, sizes: Sizes) -> ObjectRow {
    let contents = match random.below(3) {
        0 => Contents::Cell(message(random)),
        1 => {
            let held = amount(random, MAX_QUEUE);
            Contents::Queue((0..held).map(|_| message(random)).collect())
        }
        _ => Contents::Lock {
            held: random.one_in(2),
        },
    };
    ObjectRow {
        secrecy: label(random, sizes),
        integrity: label(random, sizes),
        contents,
    }
}

fn message(random: &mut Random) -> Message {
    let length = amount(random, MAX_MESSAGE);
    (0..length).map(|_| random.draw() as u8).collect()
}

fn memory(random: &mut Random, sizes: Sizes, authority: &Authority) -> Memory {
    let any = random.draw() as u32;
    let questions = random.pick(&[0, any, u32::MAX]);
    let hits = random.draw() % (u64::from(questions) + 1);
    Memory {
        size: sizes.memory,
        pairs: true_pairs(random, authority, sizes.pairs),
        questions,
        hits: random.pick(&[0, hits as u32, questions]),
    }
}

/// Different pairs, at most so many.
fn true_pairs(random: &mut Random, authority: &Authority, count: usize) -> Vec<Pair> {
    let mut pairs = Vec::new();
    for _ in 0..count * 8 {
        match true_pair(random, authority) {
            Some(pair) if !pairs.contains(&pair) && pairs.len() < count => pairs.push(pair),
            _ => {}
        }
    }
    pairs
}

/// From the root of a tag or of its supertag along its links to a counted node, and
/// from there along principal links to one who acts for it.
fn true_pair(random: &mut Random, authority: &Authority) -> Option<Pair> {
    let tag = random.some((0..authority.tags.len() as u8).map(Tag))?;
    let above = authority.supertag(tag).unwrap_or(tag);
    let of = random.pick(&[tag, above]);
    let root = authority.tags[usize::from(of.0)].root;
    let node = along(random, &authority.links_of(of), root);
    Some((along(random, &authority.principal_links, node), tag))
}

/// Some steps along the links.
fn along(random: &mut Random, links: &[Link], start: Principal) -> Principal {
    let mut p = start;
    while !random.one_in(4) {
        match random.some(links.iter().filter(|l| l.from == p)) {
            Some(link) => p = link.to,
            None => break,
        }
    }
    p
}
