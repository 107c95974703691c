//! Breaks of the remembered answers.

use super::*;
use crate::buffers::raw::Memory;
use second::authority::Link;
use second::places::{used, MemoryPlaces};

pub const WAYS: &[Ways] = &[
    (Rule::MemoryOver64, &[too_large]),
    (
        Rule::MemoryOverSize,
        &[smaller_size, smaller_size, too_many_held],
    ),
    (
        Rule::UnmadeInPair,
        &[pair_of_unmade_principal, pair_of_unmade_tag],
    ),
    (Rule::DoubledPair, &[doubled_pair]),
    (
        Rule::UntruePair,
        &[pair_of_the_public, untrue_pair, withdrawn_pair],
    ),
    (Rule::UnusedPair, &[unused_pair]),
    (Rule::HitsAboveQuestions, &[more_hits]),
];

fn too_large(random: &mut Random, p: &mut Places) -> Option<()> {
    p.memory.size = random.pick(&[65, 256, 1 << 32, usize::MAX]);
    Some(())
}

fn smaller_size(random: &mut Random, p: &mut Places) -> Option<()> {
    p.memory.size = random.some(0..pairs(p).len())?;
    Some(())
}

fn too_many_held(random: &mut Random, p: &mut Places) -> Option<()> {
    let more = p.memory.size.checked_add(1)?;
    p.memory.held = random.pick(&[more, more.max(1 << 32), usize::MAX]);
    Some(())
}

fn pair_of_unmade_principal(random: &mut Random, p: &mut Places) -> Option<()> {
    let unmade = some_unmade_principal(random, p)?;
    let tag = random.some(0..p.tag_count.min(MAX_TAGS) as u8).map(Tag);
    put(random, p, (unmade, tag.unwrap_or_default()), None)
}

fn pair_of_unmade_tag(random: &mut Random, p: &mut Places) -> Option<()> {
    let unmade = some_unmade_tag(random, p)?;
    put(random, p, (OFFICE, unmade), None)
}

fn doubled_pair(random: &mut Random, p: &mut Places) -> Option<()> {
    let place = random.some(0..pairs(p).len())?;
    put(random, p, p.memory.pairs[place], Some(place))
}

fn pair_of_the_public(random: &mut Random, p: &mut Places) -> Option<()> {
    let tag = random.some(0..p.tag_count.min(MAX_TAGS) as u8)?;
    put(random, p, (PUBLIC, Tag(tag)), None)
}

fn untrue_pair(random: &mut Random, p: &mut Places) -> Option<()> {
    let authority = p.authority();
    let tag = Tag(random.some(0..authority.tags.len() as u8)?);
    let q = Principal(random.some(1..p.principal_count.min(MAX_PRINCIPALS) as u8)?);
    when(!authority.authoritative(q, tag))?;
    put(random, p, (q, tag), None)
}

/// "Keeping a remembered yes after a withdrawal upstream of it": a pair stays, but all
/// links to its principal are taken away.
fn withdrawn_pair(random: &mut Random, p: &mut Places) -> Option<()> {
    let authority = p.authority();
    let root = |t: Tag| authority.tags.get(usize::from(t.0)).map(|row| row.root);
    let by_links = pairs(p).iter().filter(|(q, t)| {
        let lineage = [Some(*t), authority.supertag(*t)];
        !lineage.iter().any(|t| t.and_then(root) == Some(*q))
    });
    let (q, _) = *random.some(by_links)?;
    let stays = |link: &Link| link.to != q;
    keep(&mut p.principal_links, &mut p.principal_link_count, stays);
    keep(&mut p.tag_links, &mut p.tag_link_count, |l| stays(&l.link));
    Some(())
}

/// Keeps some of the places in use, and closes the gaps.
fn keep<T: Clone + Default>(places: &mut Vec<T>, count: &mut usize, stays: impl Fn(&T) -> bool) {
    let all = places.len();
    places.truncate(*count);
    places.retain(stays);
    *count = places.len();
    places.resize(all, T::default());
}

fn unused_pair(random: &mut Random, p: &mut Places) -> Option<()> {
    let unused = p.memory.pairs.iter_mut().skip(p.memory.held);
    let any = (Principal(u8::MAX), Tag(u8::MAX));
    *random.some(unused)? = random.pick(&[(OFFICE, Tag(0)), (PUBLIC, Tag(1)), any]);
    Some(())
}

fn more_hits(random: &mut Random, p: &mut Places) -> Option<()> {
    let more = p.memory.questions.checked_add(1)?;
    p.memory.hits = random.pick(&[more, u32::MAX]);
    Some(())
}

/// A principal of 256 or more.
pub const OF_BUFFERS: &[(Rule, OfBuffers)] = &[
    (Rule::UnmadeInPair, wide_pair),
    (Rule::UnusedPair, wide_unused_pair),
];

fn wide_pair(random: &mut Random, lent: &mut Buffers) -> Option<()> {
    let Memory { held, pairs, .. } = &mut lent.state.memory;
    widen(random, pairs.iter_mut().take(*held))
}

fn wide_unused_pair(random: &mut Random, lent: &mut Buffers) -> Option<()> {
    let Memory { held, pairs, .. } = &mut lent.state.memory;
    widen(random, pairs.iter_mut().skip(*held))
}

fn widen<'a>(random: &mut Random, pairs: impl Iterator<Item = &'a mut u32>) -> Option<()> {
    *random.some(pairs)? |= 65536 << random.below(16);
    Some(())
}

fn pairs(p: &Places) -> &[Pair] {
    used(&p.memory.pairs, p.memory.held)
}

/// Puts a pair in any place in use that is not to be kept, or in the next.
fn put(random: &mut Random, p: &mut Places, pair: Pair, keep: Option<usize>) -> Option<()> {
    let MemoryPlaces {
        size, held, pairs, ..
    } = &mut p.memory;
    let room = (*held).min(MAX_MEMORY - 1) + 1;
    let places = (0..room.min(*size)).filter(|n| Some(*n) != keep);
    let place = random.some(places)?;
    pairs[place] = pair;
    *held = (*held).max(place + 1);
    Some(())
}
