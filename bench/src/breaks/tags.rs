//! Breaks of the counts of principals and tags, and of the rows of tags.

use super::*;
use second::places::{TagPlace, ThreadPlace};

pub const WAYS: &[Ways] = &[
    (Rule::PrincipalLimit, &[too_many_principals]),
    (Rule::UnderTwoPrincipals, &[too_few_principals]),
    (Rule::TagLimit, &[one_more_tag, one_more_tag, too_many_tags]),
    (Rule::UnmadeRoot, &[unmade_root]),
    (Rule::PublicRoot, &[public_root]),
    (Rule::UnmadeSupertag, &[unmade_supertag]),
    (Rule::SubtagOfSubtag, &[subtag_of_subtag]),
    (
        Rule::SubtagOfLater,
        &[
            subtag_of_later,
            subtag_of_later,
            subtag_of_later,
            subtag_of_itself,
        ],
    ),
    (Rule::UnusedTag, &[unused_tag]),
    (Rule::UnusedSupertag, &[supertag_of_a_supertag]),
    (Rule::FlagLimit, &[subtag_flag]),
];

fn too_many_principals(random: &mut Random, p: &mut Places) -> Option<()> {
    p.principal_count = random.pick(&[65, 255, 256, 257, u32::MAX as usize]);
    Some(())
}

/// Where nothing names a principal, but for threads: all end, or become one of the
/// public.
fn too_few_principals(random: &mut Random, p: &mut Places) -> Option<()> {
    let counts = [
        p.principal_link_count,
        p.tag_count,
        p.tag_link_count,
        p.memory.held,
    ];
    when(counts == [0; 4])?;
    p.principal_count = random.pick(&[0, 1]);
    p.threads = [ThreadPlace::default(); MAX_THREADS];
    p.threads[0].live = random.pick(&[0, p.principal_count as u8]);
    Some(())
}

/// Where no place is unused, nothing else is wrong then.
fn one_more_tag(_: &mut Random, p: &mut Places) -> Option<()> {
    when(p.tag_count == MAX_TAGS)?;
    p.tag_count += 1;
    Some(())
}

fn too_many_tags(random: &mut Random, p: &mut Places) -> Option<()> {
    p.tag_count = random.pick(&[65, 256, u32::MAX as usize]);
    Some(())
}

fn unmade_root(random: &mut Random, p: &mut Places) -> Option<()> {
    let unmade = some_unmade_principal(random, p)?;
    rooted_at(random, p, unmade)
}

fn public_root(random: &mut Random, p: &mut Places) -> Option<()> {
    rooted_at(random, p, PUBLIC)
}

fn rooted_at(random: &mut Random, p: &mut Places, root: Principal) -> Option<()> {
    let made = p.tags.iter_mut().take(p.tag_count);
    random.some(made)?.root = root;
    clear(p);
    Some(())
}

fn unmade_supertag(random: &mut Random, p: &mut Places) -> Option<()> {
    let supertag = some_unmade_tag(random, p)?;
    let tag = random.some(childless(p))?;
    put_under(p, tag, supertag)
}

fn subtag_of_subtag(random: &mut Random, p: &mut Places) -> Option<()> {
    let subtags = made_tags(p).filter(|t| row(p, *t).subtag == 1);
    let supertag = random.some(subtags)?;
    let tag = random.some(childless(p).filter(|t| *t > supertag))?;
    put_under(p, tag, supertag)
}

fn subtag_of_later(random: &mut Random, p: &mut Places) -> Option<()> {
    let supertags = made_tags(p).filter(|t| row(p, *t).subtag == 0);
    let supertag = random.some(supertags)?;
    let tag = random.some(childless(p).filter(|t| *t < supertag))?;
    put_under(p, tag, supertag)
}

/// Under both words: it is a subtag of a subtag, too.
fn subtag_of_itself(random: &mut Random, p: &mut Places) -> Option<()> {
    let tag = random.some(childless(p))?;
    put_under(p, tag, tag)
}

fn unused_tag(random: &mut Random, p: &mut Places) -> Option<()> {
    let unused = p.tags.iter_mut().skip(p.tag_count);
    let place = random.some(unused)?;
    match random.below(3) {
        0 => place.root = random.pick(&[OFFICE, Principal(u8::MAX)]),
        1 => place.subtag = random.pick(&[1, 2, u8::MAX]),
        _ => place.supertag = random.pick(&[Tag(1), Tag(u8::MAX)]),
    }
    Some(())
}

fn supertag_of_a_supertag(random: &mut Random, p: &mut Places) -> Option<()> {
    let place = some_of_rank(random, p, 0)?;
    place.supertag = random.pick(&[Tag(1), Tag(63), Tag(64), Tag(u8::MAX)]);
    Some(())
}

fn subtag_flag(random: &mut Random, p: &mut Places) -> Option<()> {
    some_of_rank(random, p, 1)?.subtag = random.pick(&[2, 128, u8::MAX]);
    Some(())
}

/// Some made tag with this flag.
fn some_of_rank<'a>(
    random: &mut Random,
    p: &'a mut Places,
    subtag: u8,
) -> Option<&'a mut TagPlace> {
    let made = p.tags.iter_mut().take(p.tag_count);
    random.some(made.filter(|place| place.subtag == subtag))
}

fn made_tags(p: &Places) -> impl Iterator<Item = Tag> {
    (0..p.tag_count.min(MAX_TAGS) as u8).map(Tag)
}

fn row(p: &Places, t: Tag) -> &TagPlace {
    &p.tags[usize::from(t.0)]
}

/// The made tags that have no subtags.
fn childless(p: &Places) -> impl Iterator<Item = Tag> + '_ {
    let names =
        move |t: Tag| made_tags(p).any(|u| row(p, u).subtag == 1 && row(p, u).supertag == t);
    made_tags(p).filter(move |t| !names(*t))
}

fn put_under(p: &mut Places, t: Tag, supertag: Tag) -> Option<()> {
    let place = &mut p.tags[usize::from(t.0)];
    place.subtag = 1;
    place.supertag = supertag;
    clear(p);
    Some(())
}
