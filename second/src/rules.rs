//! The rules of refusal 9, each under a name, judged on lent places.
//! Document 01, section "Refusal numbers", the line of 9. The truth of remembered
//! pairs stands apart, as the step behind the check is defined without it.
//! Every rule can be judged on any places, whatever the other rules say of them.

use crate::authority::{Link, TagLink};
use crate::memory::Pair;
use crate::places::*;
use crate::state::ObjectKind;
use crate::things::*;
use std::collections::BTreeSet;

#[derive(Clone, Copy, Debug, PartialEq, Eq, PartialOrd, Ord)]
pub enum Rule {
    // "a limit"
    PrincipalLimit,
    PrincipalLinkLimit,
    TagLimit,
    TagLinkLimit,
    PutAsideLimit,
    QueueLimit,
    MessageLimit,
    ObjectKindLimit,
    FlagLimit,
    // "or a lent list of other than 256 places", and the message store likewise
    PrincipalLinkPlaces,
    TagLinkPlaces,
    MessageStorePlaces,
    // "under 2 principals"
    UnderTwoPrincipals,
    // "an unmade number"
    UnmadeInPrincipalLink,
    UnmadeInTagLink,
    UnmadeRoot,
    UnmadeSupertag,
    UnmadeThreadPrincipal,
    UnmadePutAside,
    UnmadeInThreadLabel,
    UnmadeInObjectLabel,
    UnmadeInPair,
    // "a cycle"
    PrincipalCycle,
    TagCycle,
    // "a doubled link"
    DoubledPrincipalLink,
    DoubledTagLink,
    // "a link to the public; a public root"
    PrincipalLinkToPublic,
    TagLinkToPublic,
    PublicRoot,
    // "a subtag of a subtag or of a later tag"
    SubtagOfSubtag,
    SubtagOfLater,
    // "nonzero unused place"
    UnusedPrincipalLink,
    UnusedTag,
    UnusedSupertag,
    UnusedTagLink,
    UnusedThread,
    UnusedPutAside,
    UnusedObject,
    UnusedObjectField,
    UnusedMessage,
    UnusedMessageBytes,
    UnusedPair,
    // "over 64 or over-size memory; a remembered pair doubled or untrue"
    MemoryOver64,
    MemoryOverSize,
    DoubledPair,
    UntruePair,
    // "hits above questions"
    HitsAboveQuestions,
}

/// Whether the places break the rule.
type Judge = fn(&Places) -> bool;

/// All rules but the truth of remembered pairs.
static RULES: &[(Rule, Judge)] = &[
    (Rule::PrincipalLimit, |p| p.principal_count > MAX_PRINCIPALS),
    (Rule::PrincipalLinkLimit, |p| {
        p.principal_link_count > MAX_LINKS
    }),
    (Rule::TagLimit, |p| p.tag_count > MAX_TAGS),
    (Rule::TagLinkLimit, |p| p.tag_link_count > MAX_LINKS),
    (Rule::PutAsideLimit, |p| {
        p.live_threads().any(|t| t.put_aside_count > MAX_PUT_ASIDE)
    }),
    (Rule::QueueLimit, |p| {
        p.live_objects()
            .any(|o| is(o, ObjectKind::Queue) && o.held > MAX_QUEUE)
    }),
    (Rule::MessageLimit, |p| {
        p.used_messages().any(|m| length(m) > MAX_MESSAGE)
    }),
    (Rule::ObjectKindLimit, |p| {
        p.live_objects()
            .any(|o| ObjectKind::from_number(o.kind).is_none())
    }),
    (Rule::FlagLimit, flag_limit),
    (Rule::PrincipalLinkPlaces, |p| {
        p.principal_links.len() != MAX_LINKS
    }),
    (Rule::TagLinkPlaces, |p| p.tag_links.len() != MAX_LINKS),
    (Rule::MessageStorePlaces, |p| {
        p.messages.len() != MESSAGE_STORE
    }),
    (Rule::UnderTwoPrincipals, |p| {
        p.principal_count < MIN_PRINCIPALS
    }),
    (Rule::UnmadeInPrincipalLink, |p| {
        p.links().iter().any(|l| p.unmade_end(l))
    }),
    (Rule::UnmadeInTagLink, |p| {
        let unmade = |l: &TagLink| p.unmade_tag(l.tag) || p.unmade_end(&l.link);
        p.links_of_tags().iter().any(unmade)
    }),
    (Rule::UnmadeRoot, |p| {
        p.made_tags().iter().any(|t| p.unmade_principal(t.root))
    }),
    (Rule::UnmadeSupertag, |p| {
        p.subtags().any(|(_, t)| p.unmade_tag(t.supertag))
    }),
    (Rule::UnmadeThreadPrincipal, |p| {
        p.live_threads().any(|t| p.unmade_principal(t.principal))
    }),
    (Rule::UnmadePutAside, |p| {
        let mut aside = p.live_threads().flat_map(put_aside);
        aside.any(|q| p.unmade_principal(q))
    }),
    (Rule::UnmadeInThreadLabel, |p| {
        p.live_threads()
            .any(|t| p.unmade_bit(t.secrecy | t.integrity))
    }),
    (Rule::UnmadeInObjectLabel, |p| {
        p.live_objects()
            .any(|o| p.unmade_bit(o.secrecy | o.integrity))
    }),
    (Rule::UnmadeInPair, |p| {
        p.pairs().iter().any(|pair| p.unmade_pair(*pair))
    }),
    (Rule::PrincipalCycle, |p| has_cycle(p.links())),
    (Rule::TagCycle, tag_cycle),
    (Rule::DoubledPrincipalLink, |p| doubled(p.links())),
    (Rule::DoubledTagLink, |p| doubled(p.links_of_tags())),
    (Rule::PrincipalLinkToPublic, |p| {
        p.links().iter().any(|l| l.to == PUBLIC)
    }),
    (Rule::TagLinkToPublic, |p| {
        p.links_of_tags().iter().any(|l| l.link.to == PUBLIC)
    }),
    (Rule::PublicRoot, |p| {
        p.made_tags().iter().any(|t| t.root == PUBLIC)
    }),
    (Rule::SubtagOfSubtag, |p| {
        let subtags: BTreeSet<Tag> = p.subtags().map(|(t, _)| t).collect();
        p.subtags().any(|(_, t)| subtags.contains(&t.supertag))
    }),
    (Rule::SubtagOfLater, |p| {
        let made = |t: Tag| !p.unmade_tag(t);
        p.subtags()
            .any(|(t, place)| place.supertag >= t && made(place.supertag))
    }),
    (Rule::UnusedPrincipalLink, |p| {
        nonzero(unused(&p.principal_links, p.principal_link_count))
    }),
    (Rule::UnusedTag, |p| nonzero(unused(&p.tags, p.tag_count))),
    (Rule::UnusedSupertag, |p| {
        let mut supertags = p.made_tags().iter().filter(|t| t.subtag == 0);
        supertags.any(|t| t.supertag != Tag::default())
    }),
    (Rule::UnusedTagLink, |p| {
        nonzero(unused(&p.tag_links, p.tag_link_count))
    }),
    (Rule::UnusedThread, |p| {
        let mut dead = p.threads.iter().filter(|t| t.live == 0);
        dead.any(|t| *t != ThreadPlace::default())
    }),
    (Rule::UnusedPutAside, |p| {
        p.live_threads()
            .any(|t| nonzero(unused(&t.put_aside, t.put_aside_count)))
    }),
    (Rule::UnusedObject, |p| {
        let mut freed = p.objects.iter().filter(|o| o.live == 0);
        freed.any(|o| *o != ObjectPlace::default())
    }),
    (Rule::UnusedObjectField, unused_object_field),
    (Rule::UnusedMessage, |p| {
        p.message_places().any(|(used, m)| !used && nonzero(m))
    }),
    (Rule::UnusedMessageBytes, |p| {
        p.used_messages()
            .any(|m| nonzero(unused(&m[1..], length(m))))
    }),
    (Rule::UnusedPair, |p| {
        nonzero(unused(&p.memory.pairs, p.memory.held))
    }),
    (Rule::MemoryOver64, |p| p.memory.size > MAX_MEMORY),
    (Rule::MemoryOverSize, |p| p.memory.held > p.memory.size),
    (Rule::DoubledPair, |p| doubled(p.pairs())),
    (Rule::HitsAboveQuestions, |p| {
        p.memory.hits > p.memory.questions
    }),
];

/// "a remembered pair untrue", judged by the tables' own links.
static TRUTH: (Rule, Judge) = (Rule::UntruePair, |p| {
    let authority = p.authority();
    let made = p.pairs().iter().filter(|pair| !p.unmade_pair(**pair));
    let mut made = made.map(|(q, t)| authority.authoritative(*q, *t));
    made.any(|yes| !yes)
});

/// Every rule, the truth of pairs last.
fn rules() -> impl Iterator<Item = &'static (Rule, Judge)> {
    RULES.iter().chain(std::iter::once(&TRUTH))
}

pub fn all_rules() -> Vec<Rule> {
    rules().map(|(rule, _)| *rule).collect()
}

/// A broken rule: refusal 9 is given exactly when there is one.
pub fn broken(places: &Places) -> Option<Rule> {
    let found = rules().find(|(_, breaks)| breaks(places));
    found.map(|(rule, _)| *rule)
}

/// A broken rule other than the truth of remembered pairs.
pub fn broken_but_truth(places: &Places) -> Option<Rule> {
    let found = RULES.iter().find(|(_, breaks)| breaks(places));
    found.map(|(rule, _)| *rule)
}

/// Every broken rule.
pub fn all_broken(places: &Places) -> Vec<Rule> {
    let found = rules().filter(|(_, breaks)| breaks(places));
    found.map(|(rule, _)| *rule).collect()
}

/// A flag is 0 or 1: live, locked, and the mark of a subtag.
fn flag_limit(p: &Places) -> bool {
    let threads = p.threads.iter().map(|t| t.live);
    let objects = p.objects.iter().map(|o| o.live);
    let locked = p.live_objects().map(|o| o.locked);
    let subtags = p.made_tags().iter().map(|t| t.subtag);
    let mut flags = threads.chain(objects).chain(locked).chain(subtags);
    flags.any(|flag| flag > 1)
}

/// Of "one tag's recorded links", those cut off too.
fn tag_cycle(p: &Places) -> bool {
    let authority = p.authority();
    let tags: BTreeSet<Tag> = p.links_of_tags().iter().map(|l| l.tag).collect();
    tags.into_iter().any(|t| has_cycle(&authority.links_of(t)))
}

/// Only a queue counts its messages, and only a lock is locked.
fn unused_object_field(p: &Places) -> bool {
    p.live_objects().any(|o| {
        let counts = !is(o, ObjectKind::Queue) && o.held != 0;
        let locked = !is(o, ObjectKind::Lock) && o.locked != 0;
        counts || locked
    })
}

/// Links that lead to a principal which no link leaves are in no cycle. When all
/// such are taken away, again and again, what remains has a cycle.
fn has_cycle(links: &[Link]) -> bool {
    let mut remaining = links.to_vec();
    loop {
        let left: BTreeSet<Principal> = remaining.iter().map(|l| l.from).collect();
        let before = remaining.len();
        remaining.retain(|l| left.contains(&l.to));
        if remaining.len() == before {
            return before > 0;
        }
    }
}

fn doubled<T: Copy + Ord>(places: &[T]) -> bool {
    let different: BTreeSet<T> = places.iter().copied().collect();
    different.len() < places.len()
}

fn nonzero<T: Default + PartialEq>(places: &[T]) -> bool {
    places.iter().any(|place| *place != T::default())
}

fn is(o: &ObjectPlace, kind: ObjectKind) -> bool {
    o.kind == kind as u8
}

fn put_aside(t: &ThreadPlace) -> impl Iterator<Item = Principal> + '_ {
    used(&t.put_aside, t.put_aside_count).iter().copied()
}

/// The length byte of a message place.
fn length(message_place: &[u8]) -> usize {
    usize::from(message_place[0])
}

impl Places {
    fn links(&self) -> &[Link] {
        used(&self.principal_links, self.principal_link_count)
    }

    fn links_of_tags(&self) -> &[TagLink] {
        used(&self.tag_links, self.tag_link_count)
    }

    fn made_tags(&self) -> &[TagPlace] {
        used(&self.tags, self.tag_count)
    }

    fn subtags(&self) -> impl Iterator<Item = (Tag, &TagPlace)> {
        let tags = (0..).map(Tag).zip(self.made_tags());
        tags.filter(|(_, place)| place.subtag != 0)
    }

    fn pairs(&self) -> &[Pair] {
        used(&self.memory.pairs, self.memory.held)
    }

    fn live_threads(&self) -> impl Iterator<Item = &ThreadPlace> {
        self.threads.iter().filter(|t| t.live != 0)
    }

    fn live_objects(&self) -> impl Iterator<Item = &ObjectPlace> {
        self.objects.iter().filter(|o| o.live != 0)
    }

    fn unmade_principal(&self, p: Principal) -> bool {
        usize::from(p.0) >= self.principal_count
    }

    fn unmade_tag(&self, t: Tag) -> bool {
        usize::from(t.0) >= self.tag_count
    }

    fn unmade_end(&self, link: &Link) -> bool {
        self.unmade_principal(link.from) || self.unmade_principal(link.to)
    }

    fn unmade_bit(&self, bits: u64) -> bool {
        Label::from_bits(bits).tags().any(|t| self.unmade_tag(t))
    }

    fn unmade_pair(&self, (p, t): Pair) -> bool {
        self.unmade_principal(p) || self.unmade_tag(t)
    }

    /// Every whole message place, and whether it is used: a cell uses its first,
    /// a queue as many as it holds, a lock and a freed object none.
    fn message_places(&self) -> impl Iterator<Item = (bool, &[u8])> {
        let owners = self.objects.iter().flat_map(|o| {
            let messages = match ObjectKind::from_number(o.kind) {
                Some(ObjectKind::Cell) => o.live.min(1).into(),
                Some(ObjectKind::Queue) => o.held,
                _ => 0,
            };
            (0..MAX_QUEUE).map(move |n| n < messages)
        });
        owners.zip(self.messages.chunks_exact(MESSAGE_PLACE))
    }

    fn used_messages(&self) -> impl Iterator<Item = &[u8]> {
        let places = self.message_places();
        places.filter(|(used, _)| *used).map(|(_, place)| place)
    }
}
