//! The check of 9 on whole tables, where they lie in the lent buffers, table by table.
//! The truth of remembered pairs is walked over the rows that the links have filled
//! before.

mod store;

use super::rows::{links_hold, no_links, Link};
use super::walk::{has, only, visit_each, Graph};
use super::{FEW_TAGS, PRINCIPALS, TAGS};
use crate::buffers::raw::*;
use crate::buffers::Buffers;
use crate::questions::Lent;
use store::store_holds;

const PUT_ASIDE: usize = 8;
const QUEUED: usize = 8;
const MEMORY: usize = 64;

const CELL: u8 = 0;
const QUEUE: u8 = 1;
const LOCK: u8 = 2;

/// What is made, within the limits.
#[derive(Clone, Copy)]
struct Made {
    principals: u32,
    tags: u32,
    /// The label of all tags that are not made.
    no_tags: u64,
}

pub fn break_no_rule(lent: &Buffers) -> bool {
    let State { tables, memory } = &lent.state;
    let made = match made(tables) {
        Some(made) => made,
        None => return false,
    };
    tables.threads.iter().all(|row| thread_holds(row, made))
        && tags_hold(&tables.kinds, made)
        && tables.objects.iter().all(|row| object_holds(row, made))
        && memory.hits <= memory.questions
        && pairs_hold(memory, made)
        && unused_zero(lent.lent_links())
        && unused_zero(lent.lent_grants())
        && store_holds(&tables.objects, &lent.store)
        && if made.tags as usize <= FEW_TAGS {
            leaves_hold::<FEW_TAGS>(lent, made)
        } else {
            leaves_hold::<TAGS>(lent, made)
        }
}

fn made(tables: &Tables) -> Option<Made> {
    let (principals, tags) = (tables.principals, tables.tags);
    let in_limits = (2..=PRINCIPALS as u32).contains(&principals) && tags as usize <= TAGS;
    let no_tags = u64::MAX.checked_shl(tags).unwrap_or(0);
    in_limits.then_some(Made {
        principals,
        tags,
        no_tags,
    })
}

fn thread_holds(row: &ThreadRow, made: Made) -> bool {
    if row.live == 0 {
        return *row == ThreadRow::default();
    }
    // A place past the calls holds no principal but 0.
    let aside_hold = row.aside.iter().enumerate().fold(true, |ok, (n, p)| {
        let end = if n < row.calls { made.principals } else { 1 };
        ok & (u32::from(*p) < end)
    });
    row.live == 1
        && u32::from(row.principal) < made.principals
        && labels_hold(&row.labels, made)
        && row.calls <= PUT_ASIDE
        && aside_hold
}

fn labels_hold(labels: &LabelPair, made: Made) -> bool {
    (labels.secrecy | labels.integrity) & made.no_tags == 0
}

/// Goes over the tags with the set of those before that are supertags.
fn tags_hold(rows: &[TagRow], made: Made) -> bool {
    let mut supertags = 0u64;
    rows.iter().zip(0..).all(|(row, t)| {
        if t >= made.tags {
            return *row == TagRow::default();
        }
        let rank_holds = match (row.subtag, row.supertag) {
            (0, 0) => {
                supertags |= 1 << t;
                true
            }
            (1, above) => has(supertags, above),
            _ => false,
        };
        rank_holds && row.root != 0 && u32::from(row.root) < made.principals
    })
}

fn object_holds(row: &ObjectRow, made: Made) -> bool {
    if row.live == 0 {
        return *row == ObjectRow::default();
    }
    let contents_hold = match row.kind {
        CELL => row.held == 0 && row.locked == 0,
        QUEUE => row.held <= QUEUED && row.locked == 0,
        LOCK => row.held == 0 && row.locked <= 1,
        _ => false,
    };
    row.live == 1 && contents_hold && labels_hold(&row.labels, made)
}

/// Over-size, made numbers, doubled pairs and unused places.
fn pairs_hold(memory: &Memory, made: Made) -> bool {
    if memory.size > MEMORY || memory.held > memory.size {
        return false;
    }
    let (used, unused) = memory.pairs.split_at(memory.held);
    let mut rows = [0u64; PRINCIPALS];
    let used_hold = used.iter().all(|pair| {
        let (p, t) = halves(*pair);
        let row = &mut rows[p as usize % PRINCIPALS];
        let single = !has(*row, t);
        *row |= only(t);
        single && p < made.principals && u32::from(t) < made.tags
    });
    used_hold && unused.iter().fold(0, |all, pair| all | pair) == 0
}

/// The principal and the tag of a pair.
fn halves(pair: u32) -> (u32, u8) {
    (pair / 256, pair as u8)
}

fn unused_zero<T: Default + PartialEq>(list: Lent<T>) -> bool {
    let unused = list.places.get(list.count..).unwrap_or_default();
    unused
        .iter()
        .fold(true, |zero, place| zero & (*place == T::default()))
}

impl Link for PrincipalLink {
    #[inline(always)]
    fn parts(self) -> [u32; 3] {
        [0, self.from.into(), self.to.into()]
    }
}

impl Link for TagLink {
    #[inline(always)]
    fn parts(self) -> [u32; 3] {
        [self.tag.into(), self.from.into(), self.to.into()]
    }
}

/// Both lists of links, and then the truth of pairs, of which there are not too many.
fn leaves_hold<const MOST: usize>(lent: &Buffers, made: Made) -> bool {
    let State { tables, memory } = &lent.state;
    let Made {
        principals, tags, ..
    } = made;
    let mut links = no_links::<1>();
    let mut grants = no_links::<MOST>();
    links_hold(&mut links, lent.lent_links(), 1, principals)
        && links_hold(&mut grants, lent.lent_grants(), tags, principals)
        && memory.pairs[..memory.held].iter().all(|pair| {
            let (p, t) = halves(*pair);
            let nodes = nodes_of_lineage(&grants, &tables.kinds, t);
            has(visit_each(&links[0], nodes, 0), p as u8)
        })
}

/// The counted nodes of a tag, and, for a subtag, of its supertag.
fn nodes_of_lineage(grants: &[Graph], rows: &[TagRow], t: u8) -> u64 {
    let row = rows[usize::from(t)];
    let own = counted_nodes(grants, t, row.root);
    match row.subtag {
        0 => own,
        _ => own | counted_nodes(grants, row.supertag, rows[usize::from(row.supertag)].root),
    }
}

fn counted_nodes(grants: &[Graph], t: u8, root: u8) -> u64 {
    visit_each(&grants[usize::from(t)], only(root), 0)
}
