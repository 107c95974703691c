//! Principals, tags and their links: who may do what. Document 01, section of that
//! name. A link is a number: P * 256 + Q for a principal link (P, Q), and
//! (T * 256 + P) * 256 + Q for a link (T, P, Q) of a tag.

use super::super::walk::{has, led_to_from, only};
use super::super::{first, LINKS, PRINCIPALS, TAGS};

pub const PUBLIC: u8 = 0;
pub const OFFICE: u8 = 1;

/// "a list of link records .. in order of acceptance. A removal closes the gap."
pub struct Links {
    places: [u32; LINKS],
    count: usize,
}

impl Links {
    fn none() -> Links {
        Links {
            places: [0; LINKS],
            count: 0,
        }
    }

    fn used(&self) -> &[u32] {
        &self.places[..self.count]
    }

    pub fn full(&self) -> bool {
        self.count == LINKS
    }

    pub fn has(&self, link: u32) -> bool {
        self.used().contains(&link)
    }

    /// There is room.
    pub fn append(&mut self, link: u32) {
        self.places[self.count] = link;
        self.count += 1;
    }

    /// Whether the link was there.
    pub fn remove(&mut self, link: u32) -> bool {
        let place = self.used().iter().position(|there| *there == link);
        if let Some(place) = place {
            self.places.copy_within(place + 1..self.count, place);
            self.count -= 1;
            self.places[self.count] = 0;
        }
        place.is_some()
    }

    /// Whether a path of zero or more links of one graph leads there.
    fn leads(&self, first: u32, from: u8, to: u8) -> bool {
        from == to || has(led_to_from(self.used(), first, only(from)), to)
    }
}

pub fn link(p: u8, q: u8) -> u32 {
    u32::from(p) << 8 | u32::from(q)
}

pub fn tag_link(t: u8, p: u8, q: u8) -> u32 {
    first(t) | link(p, q)
}

#[derive(Clone, Copy, Default)]
struct Tag {
    root: u8,
    supertag: Option<u8>,
}

pub struct Authority {
    principals: u8,
    pub links: Links,
    tags: [Tag; TAGS],
    made_tags: u8,
    pub tag_links: Links,
}

impl Authority {
    pub fn fresh() -> Authority {
        Authority {
            principals: OFFICE + 1,
            links: Links::none(),
            tags: [Tag::default(); TAGS],
            made_tags: 0,
            tag_links: Links::none(),
        }
    }

    pub fn made_principal(&self, p: u8) -> bool {
        p < self.principals
    }

    pub fn made_tag(&self, t: u8) -> bool {
        t < self.made_tags
    }

    pub fn all_tags_made(&self, label: u64) -> bool {
        let unmade = u64::MAX.checked_shl(self.made_tags.into()).unwrap_or(0);
        label & unmade == 0
    }

    pub fn principals_full(&self) -> bool {
        usize::from(self.principals) == PRINCIPALS
    }

    pub fn tags_full(&self) -> bool {
        usize::from(self.made_tags) == TAGS
    }

    /// The next number. There is room for it.
    pub fn make_principal(&mut self) -> u8 {
        let p = self.principals;
        self.principals += 1;
        p
    }

    /// The next number. There is room for it.
    pub fn make_tag(&mut self, root: u8, supertag: Option<u8>) -> u8 {
        let t = self.made_tags;
        self.tags[usize::from(t)] = Tag { root, supertag };
        self.made_tags += 1;
        t
    }

    pub fn is_supertag(&self, t: u8) -> bool {
        self.tags[usize::from(t)].supertag.is_none()
    }

    pub fn acts_for(&self, p: u8, q: u8) -> bool {
        self.links.leads(0, q, p)
    }

    /// "P = Q or a path Q to P"
    pub fn closes_cycle(&self, p: u8, q: u8) -> bool {
        self.links.leads(0, q, p)
    }

    /// "P = Q or a recorded path of T from Q to P"
    pub fn closes_tag_cycle(&self, t: u8, p: u8, q: u8) -> bool {
        self.tag_links.leads(first(t), q, p)
    }

    /// The set of counted nodes of a tag's own graph.
    pub fn counted_nodes(&self, t: u8) -> u64 {
        let root = self.tags[usize::from(t)].root;
        led_to_from(self.tag_links.used(), first(t), only(root))
    }

    /// One walk a graph, and one from all that they reached.
    pub fn authoritative(&self, p: u8, t: u8) -> bool {
        let above = self.tags[usize::from(t)].supertag;
        let own = self.counted_nodes(t);
        let nodes = above.map_or(own, |above| own | self.counted_nodes(above));
        has(nodes, p) || has(led_to_from(self.links.used(), 0, nodes), p)
    }
}
