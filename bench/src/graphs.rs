//! Seeded tables of links: sound lists of given sizes and shapes, which make no
//! cycle, some of them damaged then.

use crate::list_damage::{Made, DAMAGES};
use crate::questions::{List, Tables};
use crate::random::Random;
use std::collections::BTreeSet;

pub const PUBLIC: u32 = 0;
pub const PLACES: usize = 256;

pub fn number(tag: u32, from: u32, to: u32) -> u32 {
    (tag * 256 + from) * 256 + to
}

/// The three parts of a link's number: tag, near end, far end.
pub fn parts(link: u32) -> (u32, u32, u32) {
    (link / 65536, link / 256 % 256, link % 256)
}

#[derive(Clone, Copy)]
pub enum Shape {
    /// Each principal leads to the next.
    Chain,
    /// All before one principal lead to it, and it leads to all after it.
    Star,
    Scattered,
}

pub fn any_shape(random: &mut Random) -> Shape {
    random.pick(&[Shape::Chain, Shape::Star, Shape::Scattered])
}

/// The principals from `first` up to but not including `end`, in any order but
/// with the public in front, because no link leads to it.
pub fn any_order(random: &mut Random, first: u32, end: u32) -> Vec<u32> {
    let mut order: Vec<u32> = (first..end).collect();
    random.shuffle(&mut order);
    order.sort_by_key(|p| *p != PUBLIC);
    order
}

/// The lowest and the highest by turns: stripping a chain in this order takes the
/// most passes.
pub fn zigzag_order(first: u32, end: u32) -> Vec<u32> {
    let rising = first..end;
    let falling = (first..end).rev();
    let by_turns = rising.zip(falling).flat_map(|(low, high)| [low, high]);
    by_turns.take((end - first) as usize).collect()
}

/// So many different links of a tag, as far as there are, each from a principal to
/// a later one of the order. (Principal links have the numbers of tag 0.)
pub fn graph(random: &mut Random, shape: Shape, tag: u32, order: &[u32], count: usize) -> Vec<u32> {
    let pairs = order.len() * (order.len() - 1) / 2;
    let mut links = backbone(random, shape, tag, order);
    links.truncate(count);
    let mut there: BTreeSet<u32> = links.iter().copied().collect();
    while links.len() < count.min(pairs) {
        let (i, j) = (random.index(order), random.index(order));
        let link = number(tag, order[i], order[j]);
        if i < j && there.insert(link) {
            links.push(link);
        }
    }
    links
}

fn backbone(random: &mut Random, shape: Shape, tag: u32, order: &[u32]) -> Vec<u32> {
    match shape {
        Shape::Chain => order
            .windows(2)
            .map(|two| number(tag, two[0], two[1]))
            .collect(),
        Shape::Star => star(tag, order, random.index(order)),
        Shape::Scattered => Vec::new(),
    }
}

fn star(tag: u32, order: &[u32], middle: usize) -> Vec<u32> {
    let hub = order[middle];
    let before = order[..middle].iter().map(|p| number(tag, *p, hub));
    let after = order[middle + 1..].iter().map(|q| number(tag, hub, *q));
    before.chain(after).collect()
}

/// So many links, shared out evenly among the tags, between the principals from
/// `first` up to but not including `end`.
pub fn shared_out(
    random: &mut Random,
    shape: Shape,
    tags: u32,
    (first, end): (u32, u32),
    count: usize,
) -> Vec<u32> {
    let mut links = Vec::new();
    for tag in 0..tags {
        let left = count - links.len();
        let share = left / (tags - tag) as usize;
        let order = any_order(random, first, end);
        links.extend(graph(random, shape, tag, &order, share));
    }
    links
}

/// The links in any order, in a list of 256 places; "unused places are zero".
pub fn list(random: &mut Random, links: Vec<u32>) -> List {
    let count = links.len();
    let mut places = links;
    random.shuffle(&mut places);
    places.resize(PLACES, 0);
    List { places, count }
}

/// Principals made, and links in each list.
const FULL: (u32, usize) = (64, 256);
const SIZES: &[(u32, usize)] = &[(64, 63), (63, 100), (10, 20), (4, 6), (3, 2), (2, 0)];

/// Tables of any size and shape, each list of them damaged in one case of two.
pub fn tables(random: &mut Random) -> Tables {
    let (principals, count) = match random.below(4) {
        0 => FULL,
        1 => (2 + random.below(63), random.below(257) as usize),
        _ => random.pick(SIZES),
    };
    let tags = match random.below(4) {
        0 => 1 + random.below(64),
        _ => random.pick(&[1, 8, 64]),
    };
    let shape = any_shape(random);
    let order = any_order(random, 0, principals);
    let links = graph(random, shape, 0, &order, count);
    let tag_links = shared_out(random, shape, tags, (0, principals), count);
    let mut tables = Tables {
        principals,
        tags,
        links: list(random, links),
        tag_links: list(random, tag_links),
    };
    damage_some(random, &mut tables);
    tables
}

fn damage_some(random: &mut Random, tables: &mut Tables) {
    let (tags, principals) = (tables.tags, tables.principals);
    if random.one_in(2) {
        let made = Made {
            principals,
            tags: 1,
        };
        random.pick(DAMAGES)(random, &mut tables.links, made);
    }
    if random.one_in(2) {
        let made = Made { principals, tags };
        random.pick(DAMAGES)(random, &mut tables.tag_links, made);
    }
    if random.one_in(16) {
        tables.principals = random.pick(&[0, 1, principals - 1, 65, 256, u32::MAX]);
    }
    if random.one_in(16) {
        tables.tags = random.pick(&[0, tags - 1, 65, 256, u32::MAX]);
    }
}
