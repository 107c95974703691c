//! The rows of the table of kinds: refusals 5 to 8 in the column's order, then
//! what is done. Document 01, section "Requests". Refusals 1 to 4 stand before:
//! here the thread is live, every operand is named, and the need is met.

use crate::answers::{refuse, Answer, Done, Refusal};
use crate::authority::{leads, Authority, Link, TagLink, TagRow};
use crate::requests::Request;
use crate::state::{Contents, ObjectKind, ObjectRow, State, ThreadRow};
use crate::things::*;
use std::collections::VecDeque;

pub fn row(state: &mut State, thread: Thread, request: Request) -> Answer {
    use Request::*;
    let caller = state.threads[&thread].principal;
    match request {
        NewPrincipal => new_principal(&mut state.authority, caller),
        Delegate(p, q) => delegate(&mut state.authority, caller, p, q),
        Revoke(p, q) => revoke(state, caller, p, q),
        ActsFor(p, q) => yes_or_no(state.authority.acts_for(p, q)),
        NewTag => new_tag(&mut state.authority, caller),
        NewSubtag(t) => new_subtag(state, caller, t),
        Grant(t, p, q) => grant(&mut state.authority, caller, t, Link { from: p, to: q }),
        Ungrant(t, p, q) => ungrant(state, caller, t, Link { from: p, to: q }),
        Authoritative(t) => yes_or_no(question(state, caller, t)),
        IntoSecrecy(t) => into_secrecy(state, thread, t),
        OutOfSecrecy(t) => out_of_secrecy(state, thread, t),
        IntoIntegrity(t) => into_integrity(state, thread, t),
        OutOfIntegrity(t) => out_of_integrity(state, thread, t),
        Fork(p) => fork(state, thread, p),
        End => end(state, thread),
        Call(p) => call(state, thread, p),
        Return => give_back(state, thread),
        NewObject(kind, s, i) => new_object(state, kind, s, i),
        Delete(o) => delete(state, o),
        ReadCell(o) => Ok(Done::Message(cell(state, o).clone())),
        WriteCell(o, message) => write_cell(state, o, message),
        Put(o, message) => put(state, o, message),
        Get(o) => get(state, o),
        Lock(o) => lock(state, o),
        Unlock(o) => unlock(state, o),
        SendOut(message) | BringIn(message) => Ok(Done::Message(message)),
    }
}

fn yes_or_no(yes: bool) -> Answer {
    Ok(Done::Value(u8::from(yes)))
}

/// "A question is asked by 06, 09, 0B and 0C, once, when the authority check is
/// reached."
fn question(state: &mut State, p: Principal, t: Tag) -> bool {
    let authority = &state.authority;
    state.memory.ask((p, t), || authority.authoritative(p, t))
}

/// 01: "caller public 5; 64 principals or 256 links 7"; "link new to caller".
fn new_principal(authority: &mut Authority, caller: Principal) -> Answer {
    let new = Principal(authority.principals as u8);
    refuse(Refusal::Authority, caller == PUBLIC)?;
    refuse(Refusal::Full, authority.principals >= MAX_PRINCIPALS)?;
    refuse(Refusal::Full, authority.principal_links.len() >= MAX_LINKS)?;
    authority.principals += 1;
    authority.principal_links.push(Link {
        from: new,
        to: caller,
    });
    Ok(Done::Value(new.0))
}

/// 02: "caller does not act for P, or Q public 5; link there: done, no change;
/// P = Q or a path Q to P: 6; 256 links 7"; "link P to Q".
fn delegate(authority: &mut Authority, caller: Principal, p: Principal, q: Principal) -> Answer {
    let link = Link { from: p, to: q };
    refuse(Refusal::Authority, !authority.acts_for(caller, p))?;
    refuse(Refusal::Authority, q == PUBLIC)?;
    if authority.principal_links.contains(&link) {
        return Ok(Done::Plain);
    }
    refuse(Refusal::Cycle, p == q)?;
    refuse(Refusal::Cycle, leads(&authority.principal_links, q, p))?;
    refuse(Refusal::Full, authority.principal_links.len() >= MAX_LINKS)?;
    authority.principal_links.push(link);
    Ok(Done::Plain)
}

/// 03: "caller does not act for P 5; no link: done, no change"; "link removed".
fn revoke(state: &mut State, caller: Principal, p: Principal, q: Principal) -> Answer {
    let link = Link { from: p, to: q };
    refuse(Refusal::Authority, !state.authority.acts_for(caller, p))?;
    if !state.authority.principal_links.contains(&link) {
        return Ok(Done::Plain);
    }
    state.authority.principal_links.retain(|l| *l != link);
    // "A removal that takes out a link empties the memory".
    state.memory.empty();
    Ok(Done::Plain)
}

/// 05: "caller public 5; 64 tags 7".
fn new_tag(authority: &mut Authority, caller: Principal) -> Answer {
    refuse(Refusal::Authority, caller == PUBLIC)?;
    make_tag(authority, caller, None)
}

/// 06: "not authoritative 5; 64 tags 7". The maker, not the supertag's root, is
/// the root.
fn new_subtag(state: &mut State, caller: Principal, t: Tag) -> Answer {
    refuse(Refusal::Authority, !question(state, caller, t))?;
    make_tag(&mut state.authority, caller, Some(t))
}

fn make_tag(authority: &mut Authority, root: Principal, supertag: Option<Tag>) -> Answer {
    let new = Tag(authority.tags.len() as u8);
    refuse(Refusal::Full, authority.tags.len() >= MAX_TAGS)?;
    authority.tags.push(TagRow { root, supertag });
    Ok(Done::Value(new.0))
}

/// 07: "caller does not act for P, P not a counted node of T's own graph, or Q
/// public 5; link there: done; P = Q or a recorded path of T from Q to P: 6; 256
/// links 7"; "tag link".
fn grant(authority: &mut Authority, caller: Principal, t: Tag, link: Link) -> Answer {
    let tag_link = TagLink { tag: t, link };
    let Link { from: p, to: q } = link;
    refuse(Refusal::Authority, !authority.acts_for(caller, p))?;
    refuse(Refusal::Authority, !authority.counted_nodes(t).contains(&p))?;
    refuse(Refusal::Authority, q == PUBLIC)?;
    if authority.tag_links.contains(&tag_link) {
        return Ok(Done::Plain);
    }
    refuse(Refusal::Cycle, p == q)?;
    refuse(Refusal::Cycle, leads(&authority.links_of(t), q, p))?;
    refuse(Refusal::Full, authority.tag_links.len() >= MAX_LINKS)?;
    authority.tag_links.push(tag_link);
    Ok(Done::Plain)
}

/// 08: "caller does not act for P 5; no link: done"; "link removed".
fn ungrant(state: &mut State, caller: Principal, t: Tag, link: Link) -> Answer {
    let tag_link = TagLink { tag: t, link };
    refuse(
        Refusal::Authority,
        !state.authority.acts_for(caller, link.from),
    )?;
    if !state.authority.tag_links.contains(&tag_link) {
        return Ok(Done::Plain);
    }
    state.authority.tag_links.retain(|l| *l != tag_link);
    state.memory.empty();
    Ok(Done::Plain)
}

fn thread_row(state: &mut State, thread: Thread) -> &mut ThreadRow {
    state.threads.get_mut(&thread).expect("2 stands before")
}

/// 0A: "T into S".
fn into_secrecy(state: &mut State, thread: Thread, t: Tag) -> Answer {
    thread_row(state, thread).secrecy.add(t);
    Ok(Done::Plain)
}

/// 0B: "T already out of S: done; not authoritative 5"; "T out of S".
fn out_of_secrecy(state: &mut State, thread: Thread, t: Tag) -> Answer {
    let caller = state.threads[&thread].principal;
    if !state.threads[&thread].secrecy.holds(t) {
        return Ok(Done::Plain);
    }
    refuse(Refusal::Authority, !question(state, caller, t))?;
    thread_row(state, thread).secrecy.remove(t);
    Ok(Done::Plain)
}

/// 0C: "T already in I: done; not authoritative 5"; "T into I".
fn into_integrity(state: &mut State, thread: Thread, t: Tag) -> Answer {
    let caller = state.threads[&thread].principal;
    if state.threads[&thread].integrity.holds(t) {
        return Ok(Done::Plain);
    }
    refuse(Refusal::Authority, !question(state, caller, t))?;
    thread_row(state, thread).integrity.add(t);
    Ok(Done::Plain)
}

/// 0D: "T out of I".
fn out_of_integrity(state: &mut State, thread: Thread, t: Tag) -> Answer {
    thread_row(state, thread).integrity.remove(t);
    Ok(Done::Plain)
}

/// 0E: "caller does not act for P 5; 16 threads 7"; "copy of labels, principal P,
/// nothing put aside".
fn fork(state: &mut State, thread: Thread, p: Principal) -> Answer {
    let forker = &state.threads[&thread];
    refuse(
        Refusal::Authority,
        !state.authority.acts_for(forker.principal, p),
    )?;
    let new = state.free_thread().ok_or(Refusal::Full)?;
    let copy = ThreadRow {
        principal: p,
        secrecy: forker.secrecy.clone(),
        integrity: forker.integrity.clone(),
        put_aside: Vec::new(),
    };
    state.threads.insert(new, copy);
    Ok(Done::Value(new.0))
}

/// 0F: "thread freed", with what it had put aside.
fn end(state: &mut State, thread: Thread) -> Answer {
    state.threads.remove(&thread);
    Ok(Done::Plain)
}

/// 10: "caller does not act for P 5; 8 put aside 7"; "caller put aside, runs as P".
fn call(state: &mut State, thread: Thread, p: Principal) -> Answer {
    let caller = state.threads[&thread].principal;
    refuse(Refusal::Authority, !state.authority.acts_for(caller, p))?;
    let row = thread_row(state, thread);
    refuse(Refusal::Full, row.put_aside.len() >= MAX_PUT_ASIDE)?;
    row.put_aside.push(caller);
    row.principal = p;
    Ok(Done::Plain)
}

/// 11: "none put aside 8"; "last one put aside is back; labels stay".
fn give_back(state: &mut State, thread: Thread) -> Answer {
    let row = thread_row(state, thread);
    row.principal = row.put_aside.pop().ok_or(Refusal::EmptyOrHeld)?;
    Ok(Done::Plain)
}

/// 12: "64 objects 7"; "empty or unlocked; answers number".
fn new_object(state: &mut State, kind: ObjectKind, s: Label, i: Label) -> Answer {
    let new = state.free_object().ok_or(Refusal::Full)?;
    let object = ObjectRow {
        secrecy: s,
        integrity: i,
        contents: Contents::new(kind),
    };
    state.objects.insert(new, object);
    Ok(Done::Value(new.0))
}

/// 13: "freed".
fn delete(state: &mut State, o: Object) -> Answer {
    state.objects.remove(&o);
    Ok(Done::Plain)
}

fn contents(state: &mut State, o: Object) -> &mut Contents {
    let object = state.objects.get_mut(&o).expect("3 stands before");
    &mut object.contents
}

fn cell(state: &mut State, o: Object) -> &mut Message {
    match contents(state, o) {
        Contents::Cell(message) => message,
        other => unreachable!("3 stands before, not {:?}", other),
    }
}

fn queue(state: &mut State, o: Object) -> &mut VecDeque<Message> {
    match contents(state, o) {
        Contents::Queue(messages) => messages,
        other => unreachable!("3 stands before, not {:?}", other),
    }
}

fn lock_held(state: &mut State, o: Object) -> &mut bool {
    match contents(state, o) {
        Contents::Lock { held } => held,
        other => unreachable!("3 stands before, not {:?}", other),
    }
}

/// 15: "replaced".
fn write_cell(state: &mut State, o: Object, message: Message) -> Answer {
    *cell(state, o) = message;
    Ok(Done::Plain)
}

/// 16: "8 held 7"; "appended".
fn put(state: &mut State, o: Object, message: Message) -> Answer {
    let messages = queue(state, o);
    refuse(Refusal::Full, messages.len() >= MAX_QUEUE)?;
    messages.push_back(message);
    Ok(Done::Plain)
}

/// 17: "empty 8"; "first message, removed".
fn get(state: &mut State, o: Object) -> Answer {
    let first = queue(state, o).pop_front();
    first.map(Done::Message).ok_or(Refusal::EmptyOrHeld)
}

/// 18: "held 8"; "held".
fn lock(state: &mut State, o: Object) -> Answer {
    let held = lock_held(state, o);
    refuse(Refusal::EmptyOrHeld, *held)?;
    *held = true;
    Ok(Done::Plain)
}

/// 19: "unlocked; done either way".
fn unlock(state: &mut State, o: Object) -> Answer {
    *lock_held(state, o) = false;
    Ok(Done::Plain)
}
