//! The step behind the check of 9: refusals 1, 2, 3 and 4, then the kind's row.
//! Document 01, section "Refusal numbers, in order of check"; the start with
//! its 11; and the host's clearing of the memory.

use crate::answers::{refuse, Answer, Refusal};
use crate::flow;
use crate::requests::{read_frame, Request};
use crate::rows;
use crate::state::{ObjectKind, State};
use crate::things::*;

/// "Starting with a memory size over 64 is refused as 11 and gives the fresh
/// state with size 0."
pub fn start(memory_size: usize) -> (State, Result<(), Refusal>) {
    match refuse(Refusal::MemorySize, memory_size > MAX_MEMORY) {
        Ok(()) => (State::fresh(memory_size), Ok(())),
        refused => (State::fresh(0), refused),
    }
}

/// "The host may clear the memory between requests; this leaves the counters."
pub fn clear(state: &mut State) {
    state.memory.empty();
}

/// Defined for tables that break no rule but the truth of remembered pairs.
pub fn step(state: &mut State, frame: &[u8]) -> Answer {
    let frame = read_frame(frame)?;
    refuse(Refusal::NotLive, !state.threads.contains_key(&frame.thread))?;
    refuse(Refusal::NamesNothing, !all_named(state, &frame.request))?;
    refuse(Refusal::Flow, !flow::met(state, &frame))?;
    rows::row(state, frame.thread, frame.request)
}

/// The opposite of 3: "an operand names no principal, tag or object, an object of
/// another kind, a subtag in 06, or a label with an unmade tag".
fn all_named(state: &State, request: &Request) -> bool {
    use Request::*;
    let principal = |p: &Principal| state.authority.made_principal(*p);
    let tag = |t: &Tag| state.authority.made_tag(*t);
    let label = |l: &Label| l.tags().all(|t| state.authority.made_tag(t));
    let object = |o: &Object, kind: ObjectKind| state.object_kind(*o) == Some(kind);
    match request {
        Delegate(p, q) | Revoke(p, q) | ActsFor(p, q) => principal(p) && principal(q),
        NewSubtag(t) => tag(t) && state.authority.supertag(*t).is_none(),
        Grant(t, p, q) | Ungrant(t, p, q) => tag(t) && principal(p) && principal(q),
        Authoritative(t) => tag(t),
        IntoSecrecy(t) | OutOfSecrecy(t) | IntoIntegrity(t) | OutOfIntegrity(t) => tag(t),
        Fork(p) | Call(p) => principal(p),
        NewObject(_, s, i) => label(s) && label(i),
        Delete(o) => state.objects.contains_key(o),
        ReadCell(o) | WriteCell(o, _) => object(o, ObjectKind::Cell),
        Put(o, _) | Get(o) => object(o, ObjectKind::Queue),
        Lock(o) | Unlock(o) => object(o, ObjectKind::Lock),
        NewPrincipal | NewTag | End | Return | SendOut(_) | BringIn(_) => true,
    }
}
