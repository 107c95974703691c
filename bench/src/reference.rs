//! The answers a third time, for clearness alone. Who acts for whom and who is
//! authoritative is asked of the second program; the rules of 9 on a whole list
//! are tested here one by one, as they are worded. A link with an end of 64 or
//! more names no principal and counts for nothing, except as an unmade number.

use crate::graphs::parts;
use crate::questions::{List, Question, Rooted, Tables};
use second::authority::{leads, Authority, Link, TagLink, TagRow};
use second::things::{Principal, Tag, MAX_LINKS, MAX_PRINCIPALS, MAX_TAGS};
use std::collections::BTreeSet;

pub fn answer(tables: &Tables, question: Question) -> bool {
    match question {
        Question::ActsFor { p, q } => authority(tables).acts_for(Principal(p), Principal(q)),
        Question::ClosesPrincipalCycle { p, q } => leads(
            &authority(tables).principal_links,
            Principal(q),
            Principal(p),
        ),
        Question::ClosesTagCycle { tag, p, q } => leads(
            &authority(tables).links_of(Tag(tag)),
            Principal(q),
            Principal(p),
        ),
        Question::Authoritative { own, p } => authoritative(tables, own, None, p),
        Question::AuthoritativeSub { own, above, p } => authoritative(tables, own, Some(above), p),
        Question::PrincipalLinksHold | Question::TagLinksHold => {
            broken(tables, question).is_empty()
        }
    }
}

/// The links of the tables that count, with no tags made yet.
fn authority(tables: &Tables) -> Authority {
    let links = decoded(&tables.links)
        .into_iter()
        .filter(|(tag, _)| *tag == 0);
    let tag_link = |(tag, link)| {
        Some(TagLink {
            tag: Tag(u8::try_from(tag).ok()?),
            link,
        })
    };
    Authority {
        principals: MAX_PRINCIPALS,
        principal_links: links.map(|(_, link)| link).collect(),
        tags: Vec::new(),
        tag_links: decoded(&tables.tag_links)
            .into_iter()
            .filter_map(tag_link)
            .collect(),
    }
}

/// The links in use whose ends name principals, each with its tag.
fn decoded(list: &List) -> Vec<(u32, Link)> {
    let principal = |p: u32| u8::try_from(p).ok().filter(|p| *p < 64).map(Principal);
    let decode = |place: &u32| {
        let (tag, from, to) = parts(*place);
        Some((
            tag,
            Link {
                from: principal(from)?,
                to: principal(to)?,
            },
        ))
    };
    list.lent().used().iter().filter_map(decode).collect()
}

/// A number of 64 or more names no principal, and so nobody who is authoritative.
fn authoritative(tables: &Tables, own: Rooted, above: Option<Rooted>, p: u8) -> bool {
    let row = |of: Rooted, supertag| TagRow {
        root: Principal(of.root),
        supertag,
    };
    let mut authority = authority(tables);
    authority.tags = vec![row(own, None); 256];
    if let Some(above) = above {
        authority.tags[usize::from(own.tag)] = row(own, Some(Tag(above.tag)));
        if above.tag != own.tag {
            authority.tags[usize::from(above.tag)] = row(above, None);
        }
    }
    p < 64 && authority.authoritative(Principal(p), Tag(own.tag))
}

/// The rules of 9 that a list breaks, where the question is on a whole list.
pub fn broken(tables: &Tables, question: Question) -> Vec<&'static str> {
    match question {
        Question::PrincipalLinksHold => broken_in(&tables.links, 1, tables.principals),
        Question::TagLinksHold => broken_in(&tables.tag_links, tables.tags, tables.principals),
        _ => Vec::new(),
    }
}

type Named = (u32, u32, u32);

fn broken_in(list: &List, tags: u32, principals: u32) -> Vec<&'static str> {
    let used = list.lent().used();
    let links: Vec<Named> = used.iter().map(|link| parts(*link)).collect();
    let made = |l: &Named| l.0 < tags && l.1 < principals && l.2 < principals;
    let rules = [
        ("other than 256 places", list.places.len() != MAX_LINKS),
        ("over 256 links", list.count > MAX_LINKS),
        ("over 64 tags", tags as usize > MAX_TAGS),
        ("over 64 principals", principals as usize > MAX_PRINCIPALS),
        ("an unmade number", !links.iter().all(made)),
        ("a doubled link", doubled(&links)),
        ("a link to the public", links.iter().any(|l| l.2 == 0)),
        ("a cycle", goes_round(&links)),
    ];
    let broken = rules.into_iter().filter(|(_, breaks)| *breaks);
    broken.map(|(rule, _)| rule).collect()
}

fn doubled(links: &[Named]) -> bool {
    (1..links.len()).any(|j| links[..j].contains(&links[j]))
}

/// Some link has a path of its tag's links back, from its far end to its near end.
fn goes_round(links: &[Named]) -> bool {
    let links: BTreeSet<Named> = links.iter().copied().collect();
    links
        .iter()
        .any(|(tag, from, to)| reached(&links, *tag, *to).contains(from))
}

/// What a path of zero or more of the tag's links leads to.
fn reached(links: &BTreeSet<Named>, tag: u32, start: u32) -> BTreeSet<u32> {
    let mut reached = BTreeSet::from([start]);
    let mut fresh = vec![start];
    while let Some(p) = fresh.pop() {
        for (_, _, to) in links.range((tag, p, 0)..=(tag, p, u32::MAX)) {
            if reached.insert(*to) {
                fresh.push(*to);
            }
        }
    }
    reached
}
