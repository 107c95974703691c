//! The tables of the second program taken over, so that both can be asked the same from
//! anywhere, not from the start alone.

use super::authority::{link, tag_link, Authority};
use super::memory::{pair, Memory, SIZE};
use super::objects::{Object, Objects};
use super::threads::Thread;
use super::{Message, Monitor, THREADS};
use second::authority as theirs;
use second::memory;
use second::state::{Contents, ObjectRow, State, ThreadRow};
use second::things;

impl Monitor {
    /// None for a memory of another size than 8.
    pub fn of(state: &State) -> Option<Monitor> {
        let mut threads = [Thread::default(); THREADS];
        for (t, row) in &state.threads {
            threads[usize::from(t.0)] = thread(row);
        }
        let mut objects = Objects::none();
        for (o, row) in &state.objects {
            objects.live |= 1 << o.0;
            objects.rows[usize::from(o.0)] = object(row);
            let messages = messages(&row.contents).into_iter();
            let places = objects.messages[usize::from(o.0)].iter_mut();
            places.zip(messages).for_each(|(place, m)| *place = m);
        }
        Some(Monitor {
            authority: authority(&state.authority),
            memory: remembered(&state.memory)?,
            threads,
            objects,
        })
    }
}

fn authority(from: &theirs::Authority) -> Authority {
    let mut authority = Authority::fresh();
    for _ in things::MIN_PRINCIPALS..from.principals {
        authority.make_principal();
    }
    for row in &from.tags {
        authority.make_tag(row.root.0, row.supertag.map(|above| above.0));
    }
    for there in &from.principal_links {
        let ends = (there.from.0, there.to.0);
        authority.links.append(link(ends.0, ends.1));
    }
    for there in &from.tag_links {
        let ends = (there.link.from.0, there.link.to.0);
        let number = tag_link(there.tag.0, ends.0, ends.1);
        authority.tag_links.append(number);
    }
    authority
}

fn remembered(from: &memory::Memory) -> Option<Memory> {
    let mut memory = Memory {
        held: from.pairs.len(),
        questions: from.questions,
        hits: from.hits,
        ..Memory::default()
    };
    let places = memory.pairs.iter_mut().zip(&from.pairs);
    places.for_each(|(place, (p, t))| *place = pair(p.0, t.0));
    (from.size == SIZE).then_some(memory)
}

fn thread(row: &ThreadRow) -> Thread {
    let mut thread = Thread {
        live: true,
        principal: row.principal.0,
        calls: row.put_aside.len() as u8,
        secrecy: row.secrecy.bits(),
        integrity: row.integrity.bits(),
        ..Thread::default()
    };
    let places = thread.aside.iter_mut().zip(&row.put_aside);
    places.for_each(|(place, p)| *place = p.0);
    thread
}

fn object(row: &ObjectRow) -> Object {
    Object {
        kind: row.contents.kind() as u8,
        held: match &row.contents {
            Contents::Cell(_) => 0,
            Contents::Queue(messages) => messages.len() as u8,
            Contents::Lock { held } => (*held).into(),
        },
        secrecy: row.secrecy.bits(),
        integrity: row.integrity.bits(),
    }
}

fn messages(contents: &Contents) -> Vec<Message> {
    match contents {
        Contents::Cell(bytes) => vec![message(bytes)],
        Contents::Queue(queue) => queue.iter().map(|bytes| message(bytes)).collect(),
        Contents::Lock { .. } => Vec::new(),
    }
}

/// A length byte and the bytes, then zeros.
fn message(bytes: &[u8]) -> Message {
    let mut message = [0; 33];
    message[0] = bytes.len() as u8;
    message[1..][..bytes.len()].copy_from_slice(bytes);
    message
}
