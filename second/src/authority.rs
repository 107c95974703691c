//! Principals, tags and the leaves between them: who acts for whom, who is
//! authoritative for what. Document 01, section "Who may do what".
//! A set of principals is saturated with links until nothing is added.

use crate::things::*;
use std::collections::BTreeSet;

#[derive(Clone, Copy, Debug, Default, PartialEq, Eq, PartialOrd, Ord)]
pub struct Link {
    pub from: Principal,
    pub to: Principal,
}

#[derive(Clone, Copy, Debug, Default, PartialEq, Eq, PartialOrd, Ord)]
pub struct TagLink {
    pub tag: Tag,
    pub link: Link,
}

#[derive(Clone, Copy, Debug, PartialEq, Eq)]
pub struct TagRow {
    /// "Each tag has a root principal, its maker."
    pub root: Principal,
    /// The supertag of a subtag; a supertag has none.
    pub supertag: Option<Tag>,
}

#[derive(Clone, Debug, PartialEq, Eq)]
pub struct Authority {
    /// How many principals are made: they are numbered 0, 1, and so on.
    pub principals: usize,
    pub principal_links: Vec<Link>,
    pub tags: Vec<TagRow>,
    pub tag_links: Vec<TagLink>,
}

/// The principals to which a path of zero or more of `links` leads from `start`.
pub fn reached(start: BTreeSet<Principal>, links: &[Link]) -> BTreeSet<Principal> {
    let mut reached = start;
    loop {
        let before = reached.len();
        for link in links {
            if reached.contains(&link.from) {
                reached.insert(link.to);
            }
        }
        if reached.len() == before {
            return reached;
        }
    }
}

/// Whether a path of zero or more of `links` leads from `from` to `to`.
pub fn leads(links: &[Link], from: Principal, to: Principal) -> bool {
    reached(BTreeSet::from([from]), links).contains(&to)
}

impl Authority {
    pub fn fresh() -> Authority {
        Authority {
            principals: MIN_PRINCIPALS,
            principal_links: Vec::new(),
            tags: Vec::new(),
            tag_links: Vec::new(),
        }
    }

    pub fn made_principal(&self, p: Principal) -> bool {
        usize::from(p.0) < self.principals
    }

    pub fn made_tag(&self, t: Tag) -> bool {
        usize::from(t.0) < self.tags.len()
    }

    /// The supertag of a subtag.
    pub fn supertag(&self, t: Tag) -> Option<Tag> {
        self.tags.get(usize::from(t.0))?.supertag
    }

    /// The recorded links of one tag, those cut off too.
    pub fn links_of(&self, t: Tag) -> Vec<Link> {
        let of_t = self.tag_links.iter().filter(|l| l.tag == t);
        of_t.map(|l| l.link).collect()
    }

    /// "P acts for Q when a path of zero or more principal links leads from Q to P."
    pub fn acts_for(&self, p: Principal, q: Principal) -> bool {
        leads(&self.principal_links, q, p)
    }

    /// The counted nodes of the tag's own graph: "a path of zero or more of that
    /// tag's links leads there from its root".
    pub fn counted_nodes(&self, t: Tag) -> BTreeSet<Principal> {
        let root = self.tags.get(usize::from(t.0)).map(|row| row.root);
        reached(root.into_iter().collect(), &self.links_of(t))
    }

    /// "P is authoritative for a tag when P acts for some counted node of it, or,
    /// for a subtag, of its supertag."
    pub fn authoritative(&self, p: Principal, t: Tag) -> bool {
        let mut nodes = self.counted_nodes(t);
        if let Some(supertag) = self.supertag(t) {
            nodes.extend(self.counted_nodes(supertag));
        }
        reached(nodes, &self.principal_links).contains(&p)
    }
}
