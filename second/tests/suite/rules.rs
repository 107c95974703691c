//! Each rule of 9 broken singly, from tables that otherwise hold: readings C1 to
//! C16. A break says None where the tables give it nothing to break.

use crate::common::*;
use second::answers::Refusal;
use second::authority::{Link, TagLink};
use second::entry::entry;
use second::generate::random::Random;
use second::places::*;
use second::rules::{all_broken, all_rules, broken, broken_but_truth, Rule};
use second::state::{ObjectKind, State};
use second::things::*;

type Break = fn(&mut Places) -> Option<()>;

fn add_link(p: &mut Places, from: u8, to: u8) -> Option<()> {
    let place = p.principal_links.get_mut(p.principal_link_count)?;
    *place = Link {
        from: Principal(from),
        to: Principal(to),
    };
    p.principal_link_count += 1;
    Some(())
}

fn add_tag_link(p: &mut Places, t: u8, from: u8, to: u8) -> Option<()> {
    let place = p.tag_links.get_mut(p.tag_link_count)?;
    *place = TagLink {
        tag: Tag(t),
        link: Link {
            from: Principal(from),
            to: Principal(to),
        },
    };
    p.tag_link_count += 1;
    Some(())
}

fn add_tag(p: &mut Places, root: u8, subtag: u8, supertag: u8) -> Option<()> {
    let place = p.tags.get_mut(p.tag_count)?;
    *place = TagPlace {
        root: Principal(root),
        subtag,
        supertag: Tag(supertag),
    };
    p.tag_count += 1;
    Some(())
}

fn add_pair(p: &mut Places, q: u8, t: u8) -> Option<()> {
    when(p.memory.held < p.memory.size)?;
    p.memory.pairs[p.memory.held] = (Principal(q), Tag(t));
    p.memory.held += 1;
    Some(())
}

fn when(condition: bool) -> Option<()> {
    condition.then_some(())
}

fn set<T>(place: &mut T, value: T) -> Option<()> {
    *place = value;
    Some(())
}

/// A count that is at its limit.
fn full_count(count: &mut usize, limit: usize) -> Option<&mut usize> {
    (*count == limit).then_some(count)
}

/// The last place, if it is unused.
fn last<T>(places: &mut [T], count: usize) -> Option<&mut T> {
    places[count..].last_mut()
}

/// Lends another number of places; none that is used may be lost.
fn lend<T: Copy + Default>(places: &mut Vec<T>, count: usize, length: usize) -> Option<()> {
    when(count <= length)?;
    places.resize(length, T::default());
    Some(())
}

/// A made tag that is a subtag, or is not.
fn tag(p: &mut Places, subtag: u8) -> Option<&mut TagPlace> {
    let mut tags = p.tags[..p.tag_count].iter_mut();
    tags.find(|t| t.subtag == subtag)
}

fn unmade_principal(p: &Places) -> u8 {
    p.principal_count as u8
}

fn unmade_tag(p: &Places) -> u8 {
    p.tag_count as u8
}

fn first_link(p: &Places) -> Option<(u8, u8)> {
    let link = used(&p.principal_links, p.principal_link_count).first()?;
    Some((link.from.0, link.to.0))
}

fn first_tag_link(p: &Places) -> Option<(u8, u8, u8)> {
    let place = used(&p.tag_links, p.tag_link_count).first()?;
    Some((place.tag.0, place.link.from.0, place.link.to.0))
}

fn thread(p: &mut Places, live: u8) -> Option<&mut ThreadPlace> {
    p.threads.iter_mut().find(|t| t.live == live)
}

fn freed(p: &mut Places) -> Option<&mut ObjectPlace> {
    p.objects.iter_mut().find(|o| o.live == 0)
}

fn number_of(p: &Places, kind: ObjectKind) -> Option<usize> {
    let is = |o: &ObjectPlace| o.live == 1 && o.kind == kind as u8;
    p.objects.iter().position(is)
}

fn object(p: &mut Places, kind: ObjectKind) -> Option<&mut ObjectPlace> {
    let number = number_of(p, kind)?;
    Some(&mut p.objects[number])
}

/// Message place `n` of an object.
fn message(p: &mut Places, o: usize, n: usize) -> &mut [u8] {
    let at = o * OBJECT_MESSAGES + n * MESSAGE_PLACE;
    &mut p.messages[at..at + MESSAGE_PLACE]
}

/// The first message of a queue that holds one.
fn queued(p: &mut Places) -> Option<&mut [u8]> {
    let o = p.objects.iter().position(|o| o.held > 0)?;
    Some(message(p, o, 0))
}

fn cell_message(p: &mut Places) -> Option<&mut [u8]> {
    let o = number_of(p, ObjectKind::Cell)?;
    Some(message(p, o, 0))
}

/// A live object of the kind whose messages are empty.
fn of_no_kind(p: &mut Places, kind: ObjectKind, number: u8) -> Option<()> {
    let o = number_of(p, kind)?;
    let messages = &p.messages[o * OBJECT_MESSAGES..(o + 1) * OBJECT_MESSAGES];
    when(messages.iter().all(|byte| *byte == 0))?;
    when(p.objects[o].held == 0 && p.objects[o].locked == 0)?;
    p.objects[o].kind = number;
    Some(())
}

/// Nothing but principals is there.
fn bare(p: &Places) -> bool {
    let links = p.principal_link_count + p.tag_link_count;
    let dead = p.threads.iter().all(|t| t.live == 0);
    dead && links + p.tag_count + p.memory.held == 0
}

const LIMITS: &[(Rule, &[Break])] = &[
    (
        Rule::PrincipalLimit,
        &[
            |p| set(&mut p.principal_count, 65),
            |p| set(&mut p.principal_count, usize::MAX),
        ],
    ),
    (
        Rule::PrincipalLinkLimit,
        &[
            |p| set(full_count(&mut p.principal_link_count, 256)?, 257),
            |p| set(full_count(&mut p.principal_link_count, 256)?, usize::MAX),
        ],
    ),
    (
        Rule::TagLimit,
        &[
            |p| set(full_count(&mut p.tag_count, 64)?, 65),
            |p| set(full_count(&mut p.tag_count, 64)?, usize::MAX),
        ],
    ),
    (
        Rule::TagLinkLimit,
        &[
            |p| set(full_count(&mut p.tag_link_count, 256)?, 257),
            |p| set(full_count(&mut p.tag_link_count, 256)?, usize::MAX),
        ],
    ),
    (
        Rule::PutAsideLimit,
        &[
            |p| set(&mut thread(p, 1)?.put_aside_count, 9),
            |p| set(&mut thread(p, 1)?.put_aside_count, usize::MAX),
        ],
    ),
    (
        Rule::QueueLimit,
        &[
            |p| set(&mut object(p, ObjectKind::Queue)?.held, 9),
            |p| set(&mut object(p, ObjectKind::Queue)?.held, usize::MAX),
        ],
    ),
    (
        Rule::MessageLimit,
        &[
            |p| set(&mut cell_message(p)?[0], 33),
            |p| set(&mut queued(p)?[0], 33),
            |p| set(&mut queued(p)?[0], 255),
        ],
    ),
    (
        Rule::ObjectKindLimit,
        &[
            |p| of_no_kind(p, ObjectKind::Cell, 3),
            |p| of_no_kind(p, ObjectKind::Queue, 4),
            |p| of_no_kind(p, ObjectKind::Lock, 255),
        ],
    ),
    (
        Rule::FlagLimit,
        &[
            |p| set(&mut thread(p, 1)?.live, 2),
            |p| set(&mut thread(p, 0)?.live, 255),
            |p| set(&mut object(p, ObjectKind::Cell)?.live, 2),
            |p| set(&mut freed(p)?.live, 255),
            |p| set(&mut object(p, ObjectKind::Lock)?.locked, 2),
            |p| set(&mut tag(p, 1)?.subtag, 2),
        ],
    ),
    (
        Rule::PrincipalLinkPlaces,
        &[
            |p| lend(&mut p.principal_links, p.principal_link_count, 257),
            |p| lend(&mut p.principal_links, p.principal_link_count, 255),
            |p| lend(&mut p.principal_links, p.principal_link_count, 0),
        ],
    ),
    (
        Rule::TagLinkPlaces,
        &[
            |p| lend(&mut p.tag_links, p.tag_link_count, 257),
            |p| lend(&mut p.tag_links, p.tag_link_count, 255),
            |p| lend(&mut p.tag_links, p.tag_link_count, 0),
        ],
    ),
    (
        Rule::MessageStorePlaces,
        &[
            |p| lend(&mut p.messages, 0, MESSAGE_STORE + 1),
            |p| lend(&mut p.messages, 0, MESSAGE_STORE + OBJECT_MESSAGES),
            |p| lend(&mut p.messages, 0, MESSAGE_STORE - 1),
            |p| lend(&mut p.messages, 0, 0),
        ],
    ),
    (
        Rule::UnderTwoPrincipals,
        &[
            |p| when(bare(p)).and(set(&mut p.principal_count, 1)),
            |p| when(bare(p)).and(set(&mut p.principal_count, 0)),
        ],
    ),
];

const UNMADE: &[(Rule, &[Break])] = &[
    (
        Rule::UnmadeInPrincipalLink,
        &[
            |p| add_link(p, unmade_principal(p), 1),
            |p| add_link(p, 1, unmade_principal(p)),
            |p| add_link(p, 1, 255),
        ],
    ),
    (
        Rule::UnmadeInTagLink,
        &[
            |p| when(p.tag_count > 0).and(add_tag_link(p, 0, unmade_principal(p), 1)),
            |p| when(p.tag_count > 0).and(add_tag_link(p, 0, 1, unmade_principal(p))),
            |p| when(p.principal_count > 2).and(add_tag_link(p, unmade_tag(p), 1, 2)),
            |p| when(p.principal_count > 2).and(add_tag_link(p, 255, 1, 2)),
        ],
    ),
    (
        Rule::UnmadeRoot,
        &[
            |p| add_tag(p, unmade_principal(p), 0, 0),
            |p| add_tag(p, 255, 0, 0),
        ],
    ),
    (
        Rule::UnmadeSupertag,
        &[
            |p| add_tag(p, 1, 1, unmade_tag(p) + 1),
            |p| add_tag(p, 1, 1, 255),
        ],
    ),
    (
        Rule::UnmadeThreadPrincipal,
        &[
            |p| {
                let unmade = unmade_principal(p);
                set(&mut thread(p, 1)?.principal, Principal(unmade))
            },
            |p| set(&mut thread(p, 1)?.principal, Principal(255)),
        ],
    ),
    (
        Rule::UnmadePutAside,
        &[|p| {
            let unmade = unmade_principal(p);
            let t = thread(p, 1).filter(|t| t.put_aside_count < 8)?;
            t.put_aside[t.put_aside_count] = Principal(unmade);
            t.put_aside_count += 1;
            Some(())
        }],
    ),
    (
        Rule::UnmadeInThreadLabel,
        &[
            |p| {
                let unmade = 1u64.checked_shl(p.tag_count as u32)?;
                set(&mut thread(p, 1)?.secrecy, unmade)
            },
            |p| {
                when(p.tag_count < 64)?;
                set(&mut thread(p, 1)?.integrity, 1 << 63)
            },
        ],
    ),
    (
        Rule::UnmadeInObjectLabel,
        &[
            |p| {
                let unmade = 1u64.checked_shl(p.tag_count as u32)?;
                set(&mut object(p, ObjectKind::Cell)?.integrity, unmade)
            },
            |p| {
                when(p.tag_count < 64)?;
                set(&mut object(p, ObjectKind::Lock)?.secrecy, 1 << 63)
            },
        ],
    ),
    (
        Rule::UnmadeInPair,
        &[
            |p| add_pair(p, unmade_principal(p), 0),
            |p| add_pair(p, 1, unmade_tag(p)),
            |p| add_pair(p, 255, 255),
        ],
    ),
];

const GRAPHS: &[(Rule, &[Break])] = &[
    (
        Rule::PrincipalCycle,
        &[
            |p| add_link(p, 1, 1),
            |p| first_link(p).and_then(|(from, to)| add_link(p, to, from)),
            |p| {
                // A cycle of three that nothing else leads to or from.
                let new = unmade_principal(p);
                when(new <= 61)?;
                p.principal_count += 3;
                add_link(p, new, new + 1)?;
                add_link(p, new + 1, new + 2)?;
                add_link(p, new + 2, new)
            },
        ],
    ),
    (
        Rule::TagCycle,
        &[
            |p| when(p.tag_count > 0).and(add_tag_link(p, 0, 1, 1)),
            |p| first_tag_link(p).and_then(|(t, from, to)| add_tag_link(p, t, to, from)),
            |p| {
                // Cut off from every root.
                let new = unmade_principal(p);
                when(new <= 62 && p.tag_count > 0)?;
                p.principal_count += 2;
                add_tag_link(p, 0, new, new + 1)?;
                add_tag_link(p, 0, new + 1, new)
            },
        ],
    ),
    (
        Rule::DoubledPrincipalLink,
        &[|p| first_link(p).and_then(|(from, to)| add_link(p, from, to))],
    ),
    (
        Rule::DoubledTagLink,
        &[|p| first_tag_link(p).and_then(|(t, from, to)| add_tag_link(p, t, from, to))],
    ),
    (
        Rule::PrincipalLinkToPublic,
        &[|p| {
            let links = used(&p.principal_links, p.principal_link_count);
            when(links.iter().all(|l| l.from != PUBLIC))?;
            add_link(p, 1, 0)
        }],
    ),
    (
        Rule::TagLinkToPublic,
        &[|p| when(p.tag_count > 0).and(add_tag_link(p, 0, 1, 0))],
    ),
    (Rule::PublicRoot, &[|p| add_tag(p, 0, 0, 0)]),
    (
        Rule::SubtagOfSubtag,
        &[|p| {
            let subtag = p.tags.iter().position(|t| t.subtag == 1)?;
            add_tag(p, 1, 1, subtag as u8)
        }],
    ),
    (
        Rule::SubtagOfLater,
        &[|p| {
            let later = p.tag_count as u8 + 1;
            add_tag(p, 1, 1, later)?;
            add_tag(p, 1, 0, 0)
        }],
    ),
];

const UNUSED: &[(Rule, &[Break])] = &[
    (
        Rule::UnusedPrincipalLink,
        &[
            |p| {
                set(
                    &mut last(&mut p.principal_links, p.principal_link_count)?.from,
                    OFFICE,
                )
            },
            |p| {
                set(
                    &mut last(&mut p.principal_links, p.principal_link_count)?.to,
                    OFFICE,
                )
            },
            |p| {
                set(
                    &mut p.principal_links.get_mut(p.principal_link_count)?.to,
                    OFFICE,
                )
            },
        ],
    ),
    (
        Rule::UnusedTag,
        &[
            |p| set(&mut last(&mut p.tags, p.tag_count)?.root, OFFICE),
            |p| set(&mut last(&mut p.tags, p.tag_count)?.subtag, 1),
            |p| set(&mut last(&mut p.tags, p.tag_count)?.supertag, Tag(1)),
        ],
    ),
    (
        Rule::UnusedSupertag,
        &[|p| set(&mut tag(p, 0)?.supertag, Tag(1))],
    ),
    (
        Rule::UnusedTagLink,
        &[
            |p| set(&mut last(&mut p.tag_links, p.tag_link_count)?.tag, Tag(1)),
            |p| {
                set(
                    &mut last(&mut p.tag_links, p.tag_link_count)?.link.from,
                    OFFICE,
                )
            },
            |p| {
                set(
                    &mut last(&mut p.tag_links, p.tag_link_count)?.link.to,
                    OFFICE,
                )
            },
        ],
    ),
    (
        Rule::UnusedThread,
        &[
            |p| set(&mut thread(p, 0)?.principal, OFFICE),
            |p| set(&mut thread(p, 0)?.secrecy, 1),
            |p| set(&mut thread(p, 0)?.integrity, 1 << 63),
            |p| set(&mut thread(p, 0)?.put_aside_count, 1),
            |p| set(&mut thread(p, 0)?.put_aside[7], OFFICE),
        ],
    ),
    (
        Rule::UnusedPutAside,
        &[
            |p| {
                let t = thread(p, 1)?;
                set(last(&mut t.put_aside, t.put_aside_count)?, OFFICE)
            },
            |p| {
                let t = thread(p, 1)?;
                set(t.put_aside.get_mut(t.put_aside_count)?, OFFICE)
            },
        ],
    ),
    (
        Rule::UnusedObject,
        &[
            |p| set(&mut freed(p)?.kind, 1),
            |p| set(&mut freed(p)?.secrecy, 1),
            |p| set(&mut freed(p)?.integrity, 1),
            |p| set(&mut freed(p)?.held, 1),
            |p| set(&mut freed(p)?.locked, 1),
        ],
    ),
    (
        Rule::UnusedObjectField,
        &[
            |p| set(&mut object(p, ObjectKind::Cell)?.held, 1),
            |p| set(&mut object(p, ObjectKind::Cell)?.locked, 1),
            |p| set(&mut object(p, ObjectKind::Queue)?.locked, 1),
            |p| set(&mut object(p, ObjectKind::Lock)?.held, 1),
        ],
    ),
    (
        Rule::UnusedMessage,
        &[
            |p| {
                let o = p.objects.iter().position(|o| o.live == 0)?;
                set(&mut message(p, o, 0)[0], 1)
            },
            |p| {
                let o = number_of(p, ObjectKind::Lock)?;
                set(&mut message(p, o, 7)[32], 1)
            },
            |p| {
                let o = number_of(p, ObjectKind::Cell)?;
                set(&mut message(p, o, 1)[0], 1)
            },
            |p| {
                let o = number_of(p, ObjectKind::Queue)?;
                let held = Some(p.objects[o].held).filter(|held| *held < 8)?;
                set(&mut message(p, o, held)[1], 1)
            },
        ],
    ),
    (
        Rule::UnusedMessageBytes,
        &[
            |p| set(&mut cell_message(p).filter(|m| m[0] < 32)?[32], 1),
            |p| set(&mut queued(p).filter(|m| m[0] < 32)?[32], 1),
        ],
    ),
    (
        Rule::UnusedPair,
        &[
            |p| set(&mut last(&mut p.memory.pairs, p.memory.held)?.0, OFFICE),
            |p| set(&mut last(&mut p.memory.pairs, p.memory.held)?.1, Tag(1)),
            |p| set(&mut p.memory.pairs.get_mut(p.memory.held)?.0, OFFICE),
        ],
    ),
];

const MEMORY: &[(Rule, &[Break])] = &[
    (
        Rule::MemoryOver64,
        &[
            |p| set(&mut p.memory.size, 65),
            |p| set(&mut p.memory.size, usize::MAX),
        ],
    ),
    (
        Rule::MemoryOverSize,
        &[
            |p| set(&mut p.memory.size, p.memory.held.checked_sub(1)?),
            |p| when(p.memory.held > 0).and(set(&mut p.memory.size, 0)),
        ],
    ),
    (
        Rule::DoubledPair,
        &[|p| {
            let (q, t) = *used(&p.memory.pairs, p.memory.held).first()?;
            add_pair(p, q.0, t.0)
        }],
    ),
    (
        Rule::UntruePair,
        &[
            |p| when(p.tag_count > 0).and_then(|()| add_pair(p, 0, 0)),
            |p| {
                let authority = p.authority();
                when(p.tag_count > 0)?;
                let mut all = (1..p.principal_count as u8).map(Principal);
                let untrue = all.find(|q| !authority.authoritative(*q, Tag(0)))?;
                add_pair(p, untrue.0, 0)
            },
        ],
    ),
    (
        Rule::HitsAboveQuestions,
        &[
            |p| set(&mut p.memory.hits, p.memory.questions + 1),
            |p| set(&mut p.memory.hits, u32::MAX),
        ],
    ),
];

/// Principals, chains, subtags, dangling links, threads in calls, objects with
/// messages, remembered pairs.
fn rich() -> Places {
    let mut host = Host::after(&["00 01", "00 01", "00 01", "00 05", "00 05", "00 06 00"]);
    host.done(&[
        "00 02 02 03",
        "00 07 00 01 02",
        "00 07 00 02 03",
        "00 08 00 01 02",
    ]);
    host.done(&["00 0E 02", "00 0E 03", "01 10 02", "00 0C 01", "02 0A 00"]);
    host.done(&[
        "00 12 00 0000000000000003 0000000000000002",
        "00 12 01 0000000000000000 0000000000000002",
        "00 12 02 0000000000000004 0000000000000000",
        "00 12 02 0000000000000000 0000000000000002",
        "00 15 00 03 010203",
        "00 16 01 02 0405",
        "00 16 01 00",
        "00 18 03",
        "00 09 00",
        "00 09 02",
        "00 09 02",
    ]);
    host.places
}

/// Every count at its limit, links from the public among them.
fn full() -> Places {
    let mut state = State::fresh(MAX_MEMORY);
    let authority = &mut state.authority;
    authority.principals = MAX_PRINCIPALS;
    let link = |p: u8, q: u8| Link {
        from: Principal(p),
        to: Principal(q),
    };
    let downwards = (2..64).flat_map(|p| (1..p).map(move |q| link(p, q)));
    authority.principal_links = downwards.take(255).collect();
    authority.principal_links.push(link(0, 63));
    for t in 0..64 {
        authority.tags.push(second::authority::TagRow {
            root: OFFICE,
            supertag: (t > 32).then(|| Tag(t - 33)),
        });
    }
    let upwards = (0..64).flat_map(|t| (2..6).map(move |q| (t, link(1, q))));
    authority.tag_links = upwards
        .map(|(t, link)| TagLink { tag: Tag(t), link })
        .collect();
    state.memory.pairs = (0..64).map(|t| (OFFICE, Tag(t))).collect();
    Places::from(&state)
}

/// Tables that break no rule.
fn bases() -> Vec<Places> {
    let mut nobody = State::fresh(LINE_MEMORY);
    nobody.threads.clear();
    let mut all = vec![
        Places::from(&State::fresh(LINE_MEMORY)),
        Places::from(&nobody),
        rich(),
        full(),
    ];
    all.extend(lists(30, 4000).map(|list| Places::from(&led_to(&list))));
    all
}

/// The places are refused 9 by the rule, and nothing changes but one byte.
fn refused(places: &Places, rule: Rule) {
    assert_eq!(all_broken(places), [rule]);
    assert_eq!(broken(places), Some(rule));
    let truth = rule == Rule::UntruePair;
    assert_eq!(broken_but_truth(places), (!truth).then_some(rule));
    assert_eq!(places.state().err(), (!truth).then_some(rule));
    for frame in ["00 01", "00 09 00", "00", "0F FF"] {
        let mut lent = places.clone();
        let mut buffer = [BEFORE; 34];
        let answer = entry(&mut lent, &hex(frame), &mut buffer);
        assert_eq!(answer, Err(Refusal::BrokenTables));
        assert_eq!(buffer[0], 9);
        assert_eq!(buffer[1..], [BEFORE; 33]);
        assert_eq!(&lent, places);
    }
}

#[test]
fn each_rule_broken_singly_is_9() {
    let bases = bases();
    bases
        .iter()
        .for_each(|base| assert_eq!(all_broken(base), []));
    let all = [LIMITS, UNMADE, GRAPHS, UNUSED, MEMORY].concat();
    for (rule, breaks) in &all {
        for (n, break_it) in breaks.iter().enumerate() {
            let mut times = 0;
            for base in &bases {
                let mut places = base.clone();
                if break_it(&mut places).is_some() {
                    refused(&places, *rule);
                    times += 1;
                }
            }
            assert!(times > 0, "nothing to break: {:?} {}", rule, n);
        }
    }
    let mut rules: Vec<Rule> = all.iter().map(|(rule, _)| *rule).collect();
    let mut expected = all_rules();
    rules.sort();
    expected.sort();
    assert_eq!(rules, expected);
}

#[test]
fn c5_a_link_from_the_public_is_no_fault() {
    let mut places = rich();
    add_link(&mut places, 0, 2);
    add_tag_link(&mut places, 0, 0, 2);
    assert_eq!(all_broken(&places), []);
}

#[test]
fn c6_a_dangling_tag_link_is_no_fault() {
    let places = rich();
    let authority = places.authority();
    let dangling = |l: &&TagLink| !authority.counted_nodes(l.tag).contains(&l.link.from);
    assert!(authority.tag_links.iter().any(|l| dangling(&l)));
    assert_eq!(all_broken(&places), []);
}

#[test]
fn c7_a_subtag_of_itself_breaks_the_rule_under_both_words() {
    let mut places = rich();
    let own = places.tag_count as u8;
    add_tag(&mut places, 1, 1, own);
    let expected = [Rule::SubtagOfSubtag, Rule::SubtagOfLater];
    assert_eq!(all_broken(&places), expected);
}

#[test]
fn c10_c11_no_live_thread_and_a_public_thread_are_no_faults() {
    let mut places = rich();
    places.threads[1] = ThreadPlace {
        live: 1,
        ..ThreadPlace::default()
    };
    assert_eq!(all_broken(&places), []);
    places.threads = [ThreadPlace::default(); MAX_THREADS];
    assert_eq!(all_broken(&places), []);
}

#[test]
fn c12_a_pair_of_the_public_is_always_untrue() {
    let mut places = rich();
    add_link(&mut places, 0, 2);
    add_tag_link(&mut places, 0, 0, 2);
    add_pair(&mut places, 0, 0);
    assert_eq!(all_broken(&places), [Rule::UntruePair]);
}

#[test]
fn c12_truth_goes_by_the_tables_own_links() {
    // Made true by a grant, by acting for the root, by way of the supertag.
    let mut places = rich();
    add_pair(&mut places, 4, 2);
    assert_eq!(all_broken(&places), [Rule::UntruePair]);
    let mut granted = places.clone();
    add_tag_link(&mut granted, 2, 1, 4);
    assert_eq!(all_broken(&granted), []);
    let mut of_supertag = places.clone();
    add_tag_link(&mut of_supertag, 0, 1, 4);
    assert_eq!(all_broken(&of_supertag), []);
    let mut of_another = places.clone();
    add_tag_link(&mut of_another, 1, 1, 4);
    assert_eq!(all_broken(&of_another), [Rule::UntruePair]);
}

#[test]
fn c14_9_counts_no_question() {
    let mut host = Host { places: rich() };
    host.places.memory.pairs[63].0 = OFFICE;
    let counters = host.counters();
    host.expect(&[("00 09 00", "09"), ("00 06 00", "09")]);
    assert_eq!(host.counters(), counters);
}

#[test]
fn c16_order_and_makers_are_not_tested() {
    let mut places = rich();
    places.principal_links[..places.principal_link_count].reverse();
    places.tag_links[..places.tag_link_count].reverse();
    places.principal_count += 1;
    assert_eq!(all_broken(&places), []);
}

/// A number that is small, at a limit, or any.
fn number(random: &mut Random) -> usize {
    let any = random.draw() as usize;
    let small = random.below(4);
    random.pick(&[small, small, 8, 9, 63, 64, 65, 255, 256, 257, any])
}

fn any_places(random: &mut Random) -> Places {
    let mut places = if random.percent(50) { rich() } else { full() };
    for _ in 0..1 + random.below(6) {
        let (n, byte) = (number(random), random.byte());
        match random.below(12) {
            0 => places.principal_count = n,
            1 => places.principal_link_count = n,
            2 => places.tag_count = n,
            3 => places.tag_link_count = n,
            4 => places.principal_links.resize(n % 300, Link::default()),
            5 => places.tag_links.resize(n % 300, TagLink::default()),
            6 => places.messages.resize(n % 20_000, byte),
            7 => places.tags[n % 64].supertag = Tag(byte),
            8 => places.tags[n % 64].subtag = byte % 3,
            9 => places.threads[n % 16].put_aside_count = number(random),
            10 => places.objects[n % 64].held = number(random),
            _ => places.memory.held = n,
        }
    }
    places
}

#[test]
fn any_places_can_be_judged() {
    let mut random = Random::new(77);
    for _ in 0..3000 {
        let mut places = any_places(&mut random);
        let before = places.clone();
        let nine = !all_broken(&places).is_empty();
        let answer = entry(&mut places, &hex("00 09 00"), &mut [BEFORE; 34]);
        assert_eq!(answer == Err(Refusal::BrokenTables), nine);
        assert!(!nine || places == before);
    }
}
