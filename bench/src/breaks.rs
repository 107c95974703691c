//! The rules of 9 broken one at a time, each in several ways. The rules have the names
//! that the second program gives them. Where a break might make remembered pairs untrue
//! as well, they are forgotten.

mod lists;
mod memory;
mod objects;
mod tags;
mod threads;

use crate::buffers::Buffers;
use crate::list_damage::Damage;
use crate::random::Random;
use second::entry::clear;
use second::memory::Pair;
use second::places::Places;
use second::rules::Rule;
use second::things::*;

#[derive(Clone, Copy)]
pub enum Break {
    Links(Damage),
    Grants(Damage),
    Places(OfPlaces),
    /// For what the second program's places cannot hold.
    Buffers(OfBuffers),
}

/// None, here and below, if there is nothing to break.
type OfPlaces = fn(&mut Random, &mut Places) -> Option<()>;

type OfBuffers = fn(&mut Random, &mut Buffers) -> Option<()>;

/// A rule and what breaks it. A way stands more than once if the other seldom breaks
/// the rule alone.
type Ways = (Rule, &'static [OfPlaces]);

/// Some way to break some rule, every rule about as often.
pub fn any_break(random: &mut Random) -> (Rule, Break) {
    let (on_links, on_grants, damages) = random.pick(lists::OF_BOTH);
    let (on_tags, of_tags) = lists::OF_GRANTS;
    let of_places = [tags::WAYS, threads::WAYS, objects::WAYS, memory::WAYS];
    let (rule, ways) = random.pick(&of_places.concat());
    let (on_buffers, of_buffers) = random.pick(memory::OF_BUFFERS);
    match random.below(24) {
        0..=3 => (on_links, Break::Links(random.pick(damages))),
        4..=7 => (on_grants, Break::Grants(random.pick(damages))),
        8 => (on_tags, Break::Grants(of_tags)),
        9 => (on_buffers, Break::Buffers(of_buffers)),
        _ => (rule, Break::Places(random.pick(ways))),
    }
}

impl Break {
    pub fn apply(self, random: &mut Random, lent: &mut Buffers) -> Option<()> {
        if let Break::Buffers(change) = self {
            return change(random, lent);
        }
        let mut places = lent.places();
        match self {
            Break::Links(damage) => lists::damage_links(random, &mut places, damage)?,
            Break::Grants(damage) => lists::damage_grants(random, &mut places, damage)?,
            Break::Places(change) => change(random, &mut places)?,
            Break::Buffers(_) => {}
        }
        *lent = Buffers::from(&places);
        Some(())
    }
}

/// The first principal number that is not made, the last, or any between.
fn some_unmade_principal(random: &mut Random, p: &Places) -> Option<Principal> {
    let unmade = (0..=u8::MAX).filter(|n| usize::from(*n) >= p.principal_count);
    random.some(unmade).map(Principal)
}

fn some_unmade_tag(random: &mut Random, p: &Places) -> Option<Tag> {
    let unmade = (0..=u8::MAX).filter(|n| usize::from(*n) >= p.tag_count);
    random.some(unmade).map(Tag)
}

/// The label of one tag that is not made.
fn some_unmade_label(random: &mut Random, p: &Places) -> Option<u64> {
    let unmade = random.some((0..MAX_TAGS).filter(|n| *n >= p.tag_count))?;
    Some(1 << unmade)
}

fn when(condition: bool) -> Option<()> {
    condition.then_some(())
}
