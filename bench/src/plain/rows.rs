//! The rules of 9 that speak of a whole list of links, through rows of bits: a mark
//! met again is a doubled link; principals that lead to none that is left are taken
//! away, up and down by turns, and what is left goes round.

use super::walk::Graph;
use super::{LINKS, PRINCIPALS};
use crate::questions::Lent;

/// A link in any form: its tag, 0 for a principal link, its near end and its far end.
pub trait Link: Copy {
    fn parts(self) -> [u32; 3];
}

impl Link for u32 {
    #[inline(always)]
    fn parts(self) -> [u32; 3] {
        [self >> 16, self >> 8 & 255, self & 255]
    }
}

struct Empty<const MOST: usize>;

impl<const MOST: usize> Empty<MOST> {
    /// A constant, so that all its rows are cleared at once.
    const GRAPHS: [Graph; MOST] = [[0; PRINCIPALS]; MOST];
}

#[inline(always)]
pub fn no_links<const MOST: usize>() -> [Graph; MOST] {
    Empty::<MOST>::GRAPHS
}

/// Whether a list breaks no rule. If so, its links fill the graphs, one for each of
/// `MOST` tags, which were empty.
pub fn links_hold<const MOST: usize>(
    graphs: &mut [Graph; MOST],
    list: Lent<impl Link>,
    tags: u32,
    principals: u32,
) -> bool {
    in_limits(list, principals)
        && tags as usize <= MOST
        && all_made(list.used(), tags, principals)
        && sound(graphs, list.used(), tags)
}

fn in_limits(list: Lent<impl Link>, principals: u32) -> bool {
    list.places.len() == LINKS && list.count <= LINKS && principals as usize <= PRINCIPALS
}

/// Every end and tag is made, and no link leads to the public.
fn all_made(links: &[impl Link], tags: u32, principals: u32) -> bool {
    links.iter().fold(true, |ok, link| {
        let [tag, from, to] = link.parts();
        ok & (tag < tags) & (from < principals) & (to < principals) & (to != 0)
    })
}

/// No link stands twice and none is in a cycle. Every number is made.
fn sound<const MOST: usize>(graphs: &mut [Graph; MOST], links: &[impl Link], tags: u32) -> bool {
    let mut starts = [0; MOST];
    let mut single = true;
    for link in links {
        let [tag, from, to] = link.parts();
        let (tag, from) = (tag as usize % MOST, from as usize % PRINCIPALS);
        let row = &mut graphs[tag][from];
        let far = 1 << (to & 63);
        single &= *row & far == 0;
        *row |= far;
        starts[tag] |= 1 << from;
    }
    let mut graphs = graphs.iter().zip(&starts).take(tags as usize);
    single && graphs.all(|(rows, starts)| no_cycle(rows, *starts))
}

/// Strips those who lead to none that is left, up and down by turns; what stays goes round.
fn no_cycle(rows: &Graph, starts: u64) -> bool {
    let mut alive = starts;
    while alive != 0 {
        let left = sweep_down(rows, sweep_up(rows, alive));
        if left == alive {
            return false;
        }
        alive = left;
    }
    true
}

fn sweep_up(rows: &Graph, alive: u64) -> u64 {
    let mut left = alive;
    let mut rest = alive;
    while rest != 0 {
        let p = rest.trailing_zeros();
        rest &= rest - 1;
        left = without_end(rows, left, p);
    }
    left
}

fn sweep_down(rows: &Graph, alive: u64) -> u64 {
    let mut left = alive;
    let mut rest = alive;
    while rest != 0 {
        let p = 63 - rest.leading_zeros();
        rest ^= 1 << p;
        left = without_end(rows, left, p);
    }
    left
}

/// The set without p, if p leads to none of it.
fn without_end(rows: &Graph, set: u64, p: u32) -> u64 {
    let ends = rows[p as usize % PRINCIPALS] & set == 0;
    set & !(u64::from(ends) << p)
}
