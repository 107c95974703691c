//! The proved functions on links, from the static library of the crate `links_c`.
//! Nothing checks these declarations against their sources, so they are kept few. Each
//! function takes every value: no contract of them has a `requires`.

use crate::questions::{Functions, Lent, Rooted, Tables};

/// A lent list has a line of its own.
#[rustfmt::skip]
mod c {
    #[link(name = "links_c", kind = "static")]
    extern "C" {
        pub fn links_acts_for(
            links: *const u32, places: usize, n: usize,
            p: u8, q: u8,
        ) -> bool;

        pub fn links_closes_cycle(
            links: *const u32, places: usize, n: usize,
            tag: u8, p: u8, q: u8,
        ) -> bool;

        pub fn links_authoritative(
            links: *const u32, places: usize, n: usize,
            tag_links: *const u32, tag_places: usize, m: usize,
            tag: u8, root: u8, p: u8,
        ) -> bool;

        pub fn links_authoritative_sub(
            links: *const u32, places: usize, n: usize,
            tag_links: *const u32, tag_places: usize, m: usize,
            tag: u8, root: u8, supertag: u8, super_root: u8, p: u8,
        ) -> bool;

        pub fn links_principal_links_hold(
            links: *const u32, places: usize, n: usize,
            principals: u32,
        ) -> bool;

        pub fn links_tag_links_hold(
            links: *const u32, places: usize, n: usize,
            tags: u32, principals: u32,
        ) -> bool;
    }
}

pub struct Proved;

// Each call below is sound because a pointer and a length come from one slice, and
// the function only reads within it.
impl Functions for Proved {
    fn acts_for(&self, links: Lent, p: u8, q: u8) -> bool {
        let (at, places, n) = passed(links);
        unsafe { c::links_acts_for(at, places, n, p, q) }
    }

    fn closes_cycle(&self, links: Lent, tag: u8, p: u8, q: u8) -> bool {
        let (at, places, n) = passed(links);
        unsafe { c::links_closes_cycle(at, places, n, tag, p, q) }
    }

    fn authoritative(&self, tables: &Tables, own: Rooted, p: u8) -> bool {
        let (at, places, n) = passed(tables.links.lent());
        let (tag_at, tag_places, m) = passed(tables.tag_links.lent());
        let Rooted { tag, root } = own;
        unsafe { c::links_authoritative(at, places, n, tag_at, tag_places, m, tag, root, p) }
    }

    fn authoritative_sub(&self, tables: &Tables, own: Rooted, above: Rooted, p: u8) -> bool {
        let (at, places, n) = passed(tables.links.lent());
        let (tag_at, tag_places, m) = passed(tables.tag_links.lent());
        let (t, r, u, s) = (own.tag, own.root, above.tag, above.root);
        unsafe { c::links_authoritative_sub(at, places, n, tag_at, tag_places, m, t, r, u, s, p) }
    }

    fn principal_links_hold(&self, links: Lent, principals: u32) -> bool {
        let (at, places, n) = passed(links);
        unsafe { c::links_principal_links_hold(at, places, n, principals) }
    }

    fn tag_links_hold(&self, tag_links: Lent, tags: u32, principals: u32) -> bool {
        let (at, places, n) = passed(tag_links);
        unsafe { c::links_tag_links_hold(at, places, n, tags, principals) }
    }
}

/// A list as it passes to C: a pointer, a length and the count.
fn passed(list: Lent) -> (*const u32, usize, usize) {
    (list.places.as_ptr(), list.places.len(), list.count)
}
