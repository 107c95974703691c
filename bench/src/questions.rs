//! What is asked: the tables as they are lent, the questions on them, and the
//! functions that answer, of which there is a proved set and a plain one.
//! A link is a number: P * 256 + Q for a principal link (P, Q), and
//! (T * 256 + P) * 256 + Q for a link (T, P, Q) of a tag.

use second::places::used;

/// A lent list, a link a place. The count says how many places are in use, and may lie.
#[derive(Clone, Debug)]
pub struct List {
    pub places: Vec<u32>,
    pub count: usize,
}

impl List {
    pub fn lent(&self) -> Lent<'_> {
        Lent {
            places: &self.places,
            count: self.count,
        }
    }
}

/// The places of a list, lent to a function, and the count beside them.
#[derive(Clone, Copy)]
pub struct Lent<'a, Link = u32> {
    pub places: &'a [Link],
    pub count: usize,
}

impl<'a, Link> Lent<'a, Link> {
    /// The places in use, as far as they exist.
    pub fn used(self) -> &'a [Link] {
        used(self.places, self.count)
    }
}

#[derive(Clone, Debug)]
pub struct Tables {
    pub principals: u32,
    pub tags: u32,
    pub links: List,
    pub tag_links: List,
}

/// A tag and its root principal.
#[derive(Clone, Copy, Debug)]
pub struct Rooted {
    pub tag: u8,
    pub root: u8,
}

#[derive(Clone, Copy, Debug)]
pub enum Question {
    ActsFor { p: u8, q: u8 },
    ClosesPrincipalCycle { p: u8, q: u8 },
    ClosesTagCycle { tag: u8, p: u8, q: u8 },
    Authoritative { own: Rooted, p: u8 },
    AuthoritativeSub { own: Rooted, above: Rooted, p: u8 },
    PrincipalLinksHold,
    TagLinksHold,
}

impl Question {
    pub fn name(self) -> &'static str {
        match self {
            Question::ActsFor { .. } => "acts_for",
            Question::ClosesPrincipalCycle { .. } => "closes_cycle, principal links",
            Question::ClosesTagCycle { .. } => "closes_cycle, tag links",
            Question::Authoritative { .. } => "authoritative",
            Question::AuthoritativeSub { .. } => "authoritative_sub",
            Question::PrincipalLinksHold => "principal_links_hold",
            Question::TagLinksHold => "tag_links_hold",
        }
    }
}

/// The functions under comparison.
pub trait Functions {
    fn acts_for(&self, links: Lent, p: u8, q: u8) -> bool;
    fn closes_cycle(&self, links: Lent, tag: u8, p: u8, q: u8) -> bool;
    fn authoritative(&self, tables: &Tables, own: Rooted, p: u8) -> bool;
    /// For a subtag: `above` is its supertag.
    fn authoritative_sub(&self, tables: &Tables, own: Rooted, above: Rooted, p: u8) -> bool;
    fn principal_links_hold(&self, links: Lent, principals: u32) -> bool;
    fn tag_links_hold(&self, tag_links: Lent, tags: u32, principals: u32) -> bool;
}

pub fn answer(functions: &dyn Functions, tables: &Tables, question: Question) -> bool {
    let links = tables.links.lent();
    let tag_links = tables.tag_links.lent();
    match question {
        Question::ActsFor { p, q } => functions.acts_for(links, p, q),
        // The numbers of principal links are those of links of tag 0.
        Question::ClosesPrincipalCycle { p, q } => functions.closes_cycle(links, 0, p, q),
        Question::ClosesTagCycle { tag, p, q } => functions.closes_cycle(tag_links, tag, p, q),
        Question::Authoritative { own, p } => functions.authoritative(tables, own, p),
        Question::AuthoritativeSub { own, above, p } => {
            functions.authoritative_sub(tables, own, above, p)
        }
        Question::PrincipalLinksHold => functions.principal_links_hold(links, tables.principals),
        Question::TagLinksHold => {
            functions.tag_links_hold(tag_links, tables.tags, tables.principals)
        }
    }
}
