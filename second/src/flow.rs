//! The flow rules and the fixed table of needs: refusal 4.
//! Document 01, section "Flow", and of "Requests" what each kind needs.

use crate::kinds;
use crate::requests::{Frame, Request};
use crate::state::{ObjectRow, State, ThreadRow};
use crate::things::Object;

#[derive(Clone, Copy, Debug, PartialEq, Eq)]
pub enum Need {
    Nothing,
    /// "Null" means S is empty.
    Null,
    Read,
    Write,
    Both,
}

/// "Which of null, read, write or both a kind needs (12, 13, 1B test more) is one
/// fixed table, looked up by kind." There is no kind 00.
pub const NEEDS: [Need; kinds::LAST as usize + 1] = [
    Need::Nothing, // 00
    Need::Null,    // 01 new principal
    Need::Null,    // 02 delegate
    Need::Null,    // 03 revoke
    Need::Nothing, // 04 acts for
    Need::Null,    // 05 new tag
    Need::Null,    // 06 new subtag
    Need::Null,    // 07 grant
    Need::Null,    // 08 ungrant
    Need::Nothing, // 09 authoritative
    Need::Nothing, // 0A into secrecy
    Need::Nothing, // 0B out of secrecy
    Need::Nothing, // 0C into integrity
    Need::Nothing, // 0D out of integrity
    Need::Null,    // 0E fork
    Need::Null,    // 0F end
    Need::Nothing, // 10 call
    Need::Nothing, // 11 return
    Need::Null,    // 12 new object
    Need::Null,    // 13 delete
    Need::Read,    // 14 read cell
    Need::Write,   // 15 write cell
    Need::Write,   // 16 put
    Need::Both,    // 17 get
    Need::Both,    // 18 lock
    Need::Write,   // 19 unlock
    Need::Null,    // 1A send out
    Need::Nothing, // 1B bring in
];

/// "Read: s within S, and I within i."
pub fn may_read(thread: &ThreadRow, object: &ObjectRow) -> bool {
    object.secrecy.within(&thread.secrecy) && thread.integrity.within(&object.integrity)
}

/// "Write: S within s, and i within I."
pub fn may_write(thread: &ThreadRow, object: &ObjectRow) -> bool {
    thread.secrecy.within(&object.secrecy) && object.integrity.within(&thread.integrity)
}

/// "Both: S = s and I = i."
pub fn may_both(thread: &ThreadRow, object: &ObjectRow) -> bool {
    thread.secrecy == object.secrecy && thread.integrity == object.integrity
}

/// The flow need of a request whose thread is live and whose operands are named.
pub fn met(state: &State, frame: &Frame) -> bool {
    let thread = &state.threads[&frame.thread];
    let of = |rule: fn(&ThreadRow, &ObjectRow) -> bool| {
        let object = object_of(&frame.request).map(|o| &state.objects[&o]);
        object.map_or(false, |object| rule(thread, object))
    };
    let needed = match NEEDS[usize::from(frame.kind)] {
        Need::Nothing => true,
        Need::Null => thread.secrecy.is_empty(),
        Need::Read => of(may_read),
        Need::Write => of(may_write),
        Need::Both => of(may_both),
    };
    needed && more_met(state, thread, &frame.request)
}

/// "(12, 13, 1B test more)"
fn more_met(state: &State, thread: &ThreadRow, request: &Request) -> bool {
    match request {
        Request::NewObject(_, _, i) => i.within(&thread.integrity),
        Request::Delete(o) => thread.integrity == state.objects[o].integrity,
        Request::BringIn(_) => thread.integrity.is_empty(),
        _ => true,
    }
}

fn object_of(request: &Request) -> Option<Object> {
    match request {
        Request::ReadCell(o)
        | Request::WriteCell(o, _)
        | Request::Put(o, _)
        | Request::Get(o)
        | Request::Lock(o)
        | Request::Unlock(o) => Some(*o),
        _ => None,
    }
}
