//! The same algorithms in plain safe Rust, written for speed: what the proved
//! functions are measured against. Walks and whole lists go by rows of 64 bits.

pub mod lines;
pub mod monitor;
mod rows;
#[cfg(feature = "proved")]
pub mod rules;
mod walk;

use crate::questions::{Functions, Lent, Rooted, Tables};
use rows::{links_hold, no_links};
use walk::{has, led_to_from, only};

const LINKS: usize = 256;
const PRINCIPALS: usize = 64;
const TAGS: usize = 64;
const FEW_TAGS: usize = 8;

pub struct PlainRust;

impl Functions for PlainRust {
    fn acts_for(&self, links: Lent, p: u8, q: u8) -> bool {
        leads(links, 0, q, p)
    }

    fn closes_cycle(&self, links: Lent, tag: u8, p: u8, q: u8) -> bool {
        leads(links, first(tag), q, p)
    }

    fn authoritative(&self, tables: &Tables, own: Rooted, p: u8) -> bool {
        acts_for_some(tables, own, p)
    }

    fn authoritative_sub(&self, tables: &Tables, own: Rooted, above: Rooted, p: u8) -> bool {
        acts_for_some(tables, own, p) || acts_for_some(tables, above, p)
    }

    fn principal_links_hold(&self, links: Lent, principals: u32) -> bool {
        links_hold(&mut no_links::<1>(), links, 1, principals)
    }

    fn tag_links_hold(&self, tag_links: Lent, tags: u32, principals: u32) -> bool {
        if tags as usize <= FEW_TAGS {
            return links_hold(&mut no_links::<FEW_TAGS>(), tag_links, tags, principals);
        }
        links_hold(&mut no_links::<TAGS>(), tag_links, tags, principals)
    }
}

/// Where the numbers of a tag's links start.
fn first(tag: u8) -> u32 {
    u32::from(tag) << 16
}

/// One walk from the root over the tag's links, and one from all that it reached.
fn acts_for_some(tables: &Tables, own: Rooted, p: u8) -> bool {
    let (links, tag_links) = (tables.links.lent(), tables.tag_links.lent());
    let nodes = led_to_from(tag_links.used(), first(own.tag), only(own.root));
    has(led_to_from(links.used(), 0, nodes), p)
}

fn leads(links: Lent, first: u32, from: u8, to: u8) -> bool {
    from == to || has(led_to_from(links.used(), first, only(from)), to)
}
