//! The walk over a graph's rows of bits: bit q of row p says that a link leads from
//! p to q. Two functions, each resting on the other; a principal met twice is walked
//! once. A number of 64 or more names no principal and leads nowhere.

use super::PRINCIPALS;

pub type Graph = [u64; PRINCIPALS];

/// The bits of a link that is counted from its graph's first and whose ends are
/// below 64.
const ENDS: u32 = 63 << 8 | 63;

/// The links of one graph, gathered into rows. Their numbers are counted from `first`.
fn gather(links: &[u32], first: u32) -> Graph {
    let mut rows = [0; PRINCIPALS];
    for &link in links {
        let ends = link.wrapping_sub(first);
        if ends & !ENDS == 0 {
            rows[(ends >> 8) as usize % PRINCIPALS] |= 1 << (ends & 63);
        }
    }
    rows
}

/// What a graph's links lead to from any principal of a set.
pub fn led_to_from(links: &[u32], first: u32, starts: u64) -> u64 {
    visit_each(&gather(links, first), starts, 0)
}

/// Adds to `seen` the principal p and what is reached from it.
#[inline(always)]
fn visit(rows: &Graph, p: u32, seen: u64) -> u64 {
    let p = p as usize % PRINCIPALS;
    visit_each(rows, rows[p], seen | 1 << p)
}

/// Adds to `seen` each principal of a set that is not seen yet, and what is reached
/// from it, the lowest first.
pub fn visit_each(rows: &Graph, set: u64, mut seen: u64) -> u64 {
    let mut left = set & !seen;
    while left != 0 {
        seen = visit(rows, left.trailing_zeros(), seen);
        left &= !seen;
    }
    seen
}

/// The set of one principal, empty if the number names none.
pub fn only(p: u8) -> u64 {
    1u64.checked_shl(p.into()).unwrap_or(0)
}

pub fn has(set: u64, p: u8) -> bool {
    set & only(p) != 0
}
