//! How large tables are made.

use crate::graphs::{any_shape, Shape};
use crate::random::Random;
use second::things::*;

/// How much of everything there is. There are at least 2 principals; links and pairs
/// are so many as far as there are different ones.
#[derive(Clone, Copy)]
pub struct Sizes {
    pub principals: u32,
    pub links: usize,
    pub tags: u32,
    pub tag_links: usize,
    /// Of each graph.
    pub shape: Shape,
    /// The first principal that links leave: 0 or 1.
    pub first: u32,
    pub threads: usize,
    pub objects: usize,
    pub memory: usize,
    pub pairs: usize,
}

pub const FULL: Sizes = Sizes {
    principals: 64,
    links: 256,
    tags: 64,
    tag_links: 256,
    shape: Shape::Scattered,
    first: 0,
    threads: 16,
    objects: 64,
    memory: 64,
    pairs: 64,
};

pub const NEARLY_EMPTY: Sizes = Sizes {
    principals: 3,
    links: 2,
    tags: 1,
    tag_links: 1,
    shape: Shape::Chain,
    first: 0,
    threads: 1,
    objects: 2,
    memory: 8,
    pairs: 1,
};

/// So few principals and links that many a caller has authority.
pub fn small_sizes(random: &mut Random, any: Sizes) -> Sizes {
    Sizes {
        principals: 3 + random.below(6),
        links: random.below(6) as usize,
        tags: 1 + random.below(4),
        tag_links: random.below(8) as usize,
        threads: 1 + random.below(MAX_THREADS as u32) as usize,
        ..any
    }
}

pub fn any_sizes(random: &mut Random) -> Sizes {
    let memory = amount(random, MAX_MEMORY);
    // Without a thread every request is refused.
    let least = random.pick(&[0, 1, 1, 1]);
    Sizes {
        principals: amount(random, MAX_PRINCIPALS - MIN_PRINCIPALS) as u32 + 2,
        links: amount(random, MAX_LINKS),
        tags: amount(random, MAX_TAGS) as u32,
        tag_links: amount(random, MAX_LINKS),
        shape: any_shape(random),
        first: random.below(2),
        threads: amount(random, MAX_THREADS).max(least),
        objects: amount(random, MAX_OBJECTS),
        memory,
        pairs: amount(random, memory),
    }
}

/// None, a few, the most there may be, or any number between.
pub fn amount(random: &mut Random, most: usize) -> usize {
    let few = random.below(4) as usize;
    let any = random.below(most as u32 + 1) as usize;
    random.pick(&[0, few.min(most), most, any])
}
