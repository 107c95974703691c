//! Breaks of the two lists: the damages of `list_damage`, done to the records.

use super::*;
use crate::graphs::number;
use crate::list_damage::*;
use crate::questions::List;
use crate::sound::tag_link;
use second::authority::{Link, TagLink};

/// A rule on principal links, the same on tag links, and what breaks them.
pub const OF_BOTH: &[(Rule, Rule, &[Damage])] = &[
    (
        Rule::PrincipalLinkLimit,
        Rule::TagLinkLimit,
        &[count_over_full, count_over_full, count_over_length],
    ),
    (
        Rule::PrincipalLinkPlaces,
        Rule::TagLinkPlaces,
        &[other_number_of_places],
    ),
    (
        Rule::UnmadeInPrincipalLink,
        Rule::UnmadeInTagLink,
        &[unmade_end],
    ),
    (Rule::PrincipalCycle, Rule::TagCycle, &[cycle, self_link]),
    (Rule::DoubledPrincipalLink, Rule::DoubledTagLink, &[doubled]),
    (
        Rule::PrincipalLinkToPublic,
        Rule::TagLinkToPublic,
        &[to_the_public],
    ),
    (
        Rule::UnusedPrincipalLink,
        Rule::UnusedTagLink,
        &[unused_place],
    ),
];

pub const OF_GRANTS: (Rule, Damage) = (Rule::UnmadeInTagLink, unmade_tag);

pub fn damage_links(random: &mut Random, p: &mut Places, damage: Damage) -> Option<()> {
    let mut list = List {
        places: p.principal_links.iter().map(number_of_link).collect(),
        count: p.principal_link_count,
    };
    damage(random, &mut list, made(p, 1))?;
    let record = |number: &u32| (*number < 1 << 16).then(|| tag_link(*number).link);
    p.principal_links = list.places.iter().map(record).collect::<Option<_>>()?;
    p.principal_link_count = list.count;
    Some(())
}

pub fn damage_grants(random: &mut Random, p: &mut Places, damage: Damage) -> Option<()> {
    let mut list = List {
        places: p.tag_links.iter().map(number_of_tag_link).collect(),
        count: p.tag_link_count,
    };
    damage(random, &mut list, made(p, p.tag_count.min(MAX_TAGS)))?;
    let record = |number: &u32| (*number < 1 << 24).then(|| tag_link(*number));
    p.tag_links = list.places.iter().map(record).collect::<Option<_>>()?;
    p.tag_link_count = list.count;
    Some(())
}

fn made(p: &Places, tags: usize) -> Made {
    let principals = p.principal_count.clamp(MIN_PRINCIPALS, MAX_PRINCIPALS);
    Made {
        principals: principals as u32,
        tags: tags as u32,
    }
}

fn number_of_link(link: &Link) -> u32 {
    number(0, link.from.0.into(), link.to.0.into())
}

fn number_of_tag_link(grant: &TagLink) -> u32 {
    number(grant.tag.0.into(), 0, 0) + number_of_link(&grant.link)
}
