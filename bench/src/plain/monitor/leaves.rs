//! The rows 01 to 09 of document 01, section "Requests": principals, tags, links.

use super::super::walk::has;
use super::authority::{link, tag_link, PUBLIC};
use super::{refuse, Answer, Done, Monitor, Refusal};

impl Monitor {
    pub fn new_principal(&mut self, t: usize) -> Answer {
        self.null(t)?;
        let caller = self.caller(t);
        let authority = &mut self.authority;
        refuse(Refusal::Authority, caller == PUBLIC)?;
        let full = authority.principals_full() || authority.links.full();
        refuse(Refusal::Full, full)?;
        let new = authority.make_principal();
        authority.links.append(link(new, caller));
        Ok(Done::Number(new))
    }

    pub fn delegate(&mut self, t: usize, p: u8, q: u8) -> Answer {
        self.link_request(t, p, q)?;
        refuse(Refusal::Authority, q == PUBLIC)?;
        self.caller_acts_for(t, p)?;
        let authority = &mut self.authority;
        if !authority.links.has(link(p, q)) {
            refuse(Refusal::Cycle, authority.closes_cycle(p, q))?;
            refuse(Refusal::Full, authority.links.full())?;
            authority.links.append(link(p, q));
        }
        Ok(Done::Nothing)
    }

    pub fn revoke(&mut self, t: usize, p: u8, q: u8) -> Answer {
        self.link_request(t, p, q)?;
        self.caller_acts_for(t, p)?;
        if self.authority.links.remove(link(p, q)) {
            self.memory.empty();
        }
        Ok(Done::Nothing)
    }

    pub fn acts_for(&self, p: u8, q: u8) -> Answer {
        self.principal_named(p)?;
        self.principal_named(q)?;
        Ok(Done::Number(self.authority.acts_for(p, q).into()))
    }

    pub fn new_tag(&mut self, t: usize) -> Answer {
        self.null(t)?;
        let caller = self.caller(t);
        refuse(Refusal::Authority, caller == PUBLIC)?;
        refuse(Refusal::Full, self.authority.tags_full())?;
        Ok(Done::Number(self.authority.make_tag(caller, None)))
    }

    pub fn new_subtag(&mut self, t: usize, tag: u8) -> Answer {
        self.tag_named(tag)?;
        refuse(Refusal::NamesNothing, !self.authority.is_supertag(tag))?;
        self.null(t)?;
        refuse(Refusal::Authority, !self.question(t, tag))?;
        refuse(Refusal::Full, self.authority.tags_full())?;
        let caller = self.caller(t);
        Ok(Done::Number(self.authority.make_tag(caller, Some(tag))))
    }

    pub fn grant(&mut self, t: usize, tag: u8, p: u8, q: u8) -> Answer {
        self.tag_named(tag)?;
        self.link_request(t, p, q)?;
        refuse(Refusal::Authority, q == PUBLIC)?;
        self.caller_acts_for(t, p)?;
        let authority = &mut self.authority;
        let counted = has(authority.counted_nodes(tag), p);
        refuse(Refusal::Authority, !counted)?;
        if !authority.tag_links.has(tag_link(tag, p, q)) {
            refuse(Refusal::Cycle, authority.closes_tag_cycle(tag, p, q))?;
            refuse(Refusal::Full, authority.tag_links.full())?;
            authority.tag_links.append(tag_link(tag, p, q));
        }
        Ok(Done::Nothing)
    }

    pub fn ungrant(&mut self, t: usize, tag: u8, p: u8, q: u8) -> Answer {
        self.tag_named(tag)?;
        self.link_request(t, p, q)?;
        self.caller_acts_for(t, p)?;
        if self.authority.tag_links.remove(tag_link(tag, p, q)) {
            self.memory.empty();
        }
        Ok(Done::Nothing)
    }

    pub fn authoritative(&mut self, t: usize, tag: u8) -> Answer {
        self.tag_named(tag)?;
        Ok(Done::Number(self.question(t, tag).into()))
    }

    /// The question of demand 3, whether the caller is authoritative.
    pub fn question(&mut self, t: usize, tag: u8) -> bool {
        let (caller, authority) = (self.caller(t), &self.authority);
        let walk = || authority.authoritative(caller, tag);
        self.memory.ask(caller, tag, walk)
    }

    /// What 02, 03, 07 and 08 share: both ends are principals, and null.
    fn link_request(&self, t: usize, p: u8, q: u8) -> Result<(), Refusal> {
        self.principal_named(p)?;
        self.principal_named(q)?;
        self.null(t)
    }

    /// "caller does not act for P 5"
    pub fn caller_acts_for(&self, t: usize, p: u8) -> Result<(), Refusal> {
        let acts = self.authority.acts_for(self.caller(t), p);
        refuse(Refusal::Authority, !acts)
    }
}
