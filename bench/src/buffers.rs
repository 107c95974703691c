//! What a host lends the monitor beside a frame and an answer buffer: the state, the
//! two lists and the store, as they pass to the proved library. A field is a number,
//! so whatever stands in them is some tables.

mod fields;
mod places;

pub use fields::{fields, Field};
pub use suvdorkhun::raw;

use crate::questions::Lent;
use raw::{PrincipalLink, State, TagLink};
use std::fmt;

#[derive(Clone, PartialEq, Eq)]
pub struct Buffers {
    pub state: State,
    pub links: Vec<PrincipalLink>,
    pub grants: Vec<TagLink>,
    pub store: Vec<u8>,
}

/// A number under its name.
type Named = (String, u64);

impl Buffers {
    pub fn lent_links(&self) -> Lent<'_, PrincipalLink> {
        Lent {
            places: &self.links,
            count: self.state.tables.links,
        }
    }

    pub fn lent_grants(&self) -> Lent<'_, TagLink> {
        Lent {
            places: &self.grants,
            count: self.state.tables.grants,
        }
    }

    /// Every number, in the same order for buffers of the same lengths.
    fn numbers(&self) -> Vec<Named> {
        let mut state = self.state;
        let fields = fields(&mut state).into_iter();
        let mut numbers: Vec<Named> = fields
            .map(|(name, field)| (name.to_string(), field.get()))
            .collect();
        for (n, link) in self.links.iter().enumerate() {
            numbers.push((format!("links[{}].from", n), link.from.into()));
            numbers.push((format!("links[{}].to", n), link.to.into()));
        }
        for (n, grant) in self.grants.iter().enumerate() {
            numbers.push((format!("grants[{}].tag", n), grant.tag.into()));
            numbers.push((format!("grants[{}].from", n), grant.from.into()));
            numbers.push((format!("grants[{}].to", n), grant.to.into()));
        }
        let store = self.store.iter().enumerate();
        numbers.extend(store.map(|(n, byte)| (format!("store[{}]", n), (*byte).into())));
        numbers
    }

    /// In words, every number that is another in the other buffers, which are as long.
    pub fn differences(&self, other: &Buffers) -> Vec<String> {
        let numbers = self.numbers().into_iter().zip(other.numbers());
        numbers
            .filter(|(one, other)| one != other)
            .map(|((name, one), (_, other))| format!("{}: {}, not {}", name, one, other))
            .collect()
    }
}

impl fmt::Debug for Buffers {
    /// The lengths, and every number that is not zero.
    fn fmt(&self, f: &mut fmt::Formatter) -> fmt::Result {
        let (links, grants) = (self.links.len(), self.grants.len());
        let store = self.store.len();
        write!(f, "{} links, {} grants, {} bytes", links, grants, store)?;
        for (name, number) in self.numbers().iter().filter(|(_, number)| *number != 0) {
            write!(f, ", {}: {}", name, number)?;
        }
        Ok(())
    }
}

#[cfg(test)]
mod tests;
