//! Kinds 01 to 09: principals, tags and leaves.

use crate::answers::Refusal;
use crate::kinds;
use crate::monitor::Monitor;
use crate::things::{Principal, Tag, Thread};

/// Principals, tags and leaves.
///
/// A leave that is cut off upstream stays recorded, and counts when it is reached again:
///
/// ```
/// # use suvdorkhun::{Monitor, Principal, Refusal, Thread};
/// # let mut monitor = Monitor::new(8)?;
/// # let office = Thread::FIRST;
/// let agent = monitor.new_principal(office)?;
/// let printer = monitor.new_principal(office)?;
/// let tag = monitor.new_tag(office)?;
/// let agents = monitor.fork(office, agent)?;
/// let printers = monitor.fork(office, printer)?;
///
/// // The office grants its tag to the agent, and the agent to the printer.
/// monitor.grant(office, tag, Principal::OFFICE, agent)?;
/// monitor.grant(agents, tag, agent, printer)?;
/// assert!(monitor.authoritative(printers, tag)?);
///
/// monitor.ungrant(office, tag, Principal::OFFICE, agent)?;
/// assert!(!monitor.authoritative(printers, tag)?);
///
/// monitor.grant(office, tag, Principal::OFFICE, agent)?;
/// assert!(monitor.authoritative(printers, tag)?);
/// # Ok::<(), Refusal>(())
/// ```
impl Monitor {
    /// 01: a new principal, for which the caller acts. "null; caller public 5; 64 principals
    /// or 256 links 7".
    pub fn new_principal(&mut self, by: Thread) -> Result<Principal, Refusal> {
        self.value(by, kinds::NEW_PRINCIPAL, &[]).map(Principal)
    }

    /// 02: lets Q act for P. "null; caller does not act for P, or Q public 5; link there:
    /// done, no change; P = Q or a path Q to P: 6; 256 links 7".
    pub fn delegate(&mut self, by: Thread, p: Principal, q: Principal) -> Result<(), Refusal> {
        self.done(by, kinds::DELEGATE, &[p.0, q.0])
    }

    /// 03: takes that back. "null; caller does not act for P 5; no link: done, no change".
    pub fn revoke(&mut self, by: Thread, p: Principal, q: Principal) -> Result<(), Refusal> {
        self.done(by, kinds::REVOKE, &[p.0, q.0])
    }

    /// 04: whether P acts for Q.
    pub fn acts_for(&mut self, by: Thread, p: Principal, q: Principal) -> Result<bool, Refusal> {
        self.yes(by, kinds::ACTS_FOR, &[p.0, q.0])
    }

    /// 05: a new tag, whose root is the caller. "null; caller public 5; 64 tags 7".
    pub fn new_tag(&mut self, by: Thread) -> Result<Tag, Refusal> {
        self.value(by, kinds::NEW_TAG, &[]).map(Tag)
    }

    /// 06: a new subtag of the supertag T. "null; not authoritative 5; 64 tags 7".
    pub fn new_subtag(&mut self, by: Thread, t: Tag) -> Result<Tag, Refusal> {
        self.value(by, kinds::NEW_SUBTAG, &[t.0]).map(Tag)
    }

    /// 07: P gives Q leave for the tag. "null; caller does not act for P, P not a counted
    /// node of T's own graph, or Q public 5; link there: done; P = Q or a recorded path of T
    /// from Q to P: 6; 256 links 7".
    pub fn grant(&mut self, by: Thread, t: Tag, p: Principal, q: Principal) -> Result<(), Refusal> {
        self.done(by, kinds::GRANT, &[t.0, p.0, q.0])
    }

    /// 08: P withdraws it. "null; caller does not act for P 5; no link: done".
    pub fn ungrant(
        &mut self,
        by: Thread,
        t: Tag,
        p: Principal,
        q: Principal,
    ) -> Result<(), Refusal> {
        self.done(by, kinds::UNGRANT, &[t.0, p.0, q.0])
    }

    /// 09: whether the caller is authoritative for the tag.
    pub fn authoritative(&mut self, by: Thread, t: Tag) -> Result<bool, Refusal> {
        self.yes(by, kinds::AUTHORITATIVE, &[t.0])
    }
}
