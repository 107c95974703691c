//! Passages that lead a list to the limits and corners of document 01: full
//! tables, deep calls, links cut off and restored, pairs that fall off.
//! Each asks the state what is there, and passes on quietly where it cannot act.

use super::draft::Draft;
use super::malformed::SORTS;
use crate::answers::Refusal;
use crate::kinds;
use crate::state::ObjectKind;
use crate::things::*;

/// More requests than this a passage makes of no one kind.
const PATIENCE: usize = 600;

impl Draft {
    /// A thread of the office with empty secrecy, from which all can be made.
    fn office(&self) -> Option<Thread> {
        let mut threads = self.state.threads.iter();
        let found = threads.find(|(_, row)| row.principal == OFFICE && row.secrecy.is_empty());
        found.map(|(t, _)| *t)
    }

    /// Sends what is drawn, again and again, until the state is as wished.
    fn until(&mut self, reached: fn(&Draft) -> bool, draw: fn(&mut Draft, Thread)) {
        for _ in 0..PATIENCE {
            match self.office() {
                Some(office) if !reached(self) => draw(self, office),
                _ => return,
            }
        }
    }

    fn principals(&self) -> usize {
        self.state.authority.principals
    }

    /// A made principal that is neither the public nor the office.
    fn other(&mut self) -> Option<u8> {
        let made = OFFICE.0 + 1..self.principals() as u8;
        self.random.any(made)
    }

    /// One that no thread runs as yet, if there is one.
    fn idle(&mut self) -> u8 {
        let threads = &self.state.threads;
        let runs = |p: &u8| threads.values().any(|row| row.principal.0 == *p);
        let idle = (OFFICE.0..self.state.authority.principals as u8).filter(|p| !runs(p));
        self.random.any(idle).unwrap_or(OFFICE.0)
    }

    fn live(&mut self) -> Option<Thread> {
        self.random.any(self.state.threads.keys().copied())
    }

    /// Someone for whom the thread's principal acts.
    fn acted_for(&mut self, t: Thread) -> u8 {
        let authority = &self.state.authority;
        let caller = self.state.threads[&t].principal;
        let all = (0..authority.principals as u8).map(Principal);
        let acted_for = all.filter(|p| authority.acts_for(caller, *p));
        self.random.any(acted_for).unwrap_or(caller).0
    }
}

/// Now and then the maker is another than the office, so that links make chains.
fn make_principal(d: &mut Draft, office: Thread) {
    let other = d.live().unwrap_or(office);
    let maker = d.random.pick(&[office, office, other]);
    d.send(maker, kinds::NEW_PRINCIPAL, &[]);
}

pub fn few_principals(d: &mut Draft) {
    d.until(|d| d.principals() >= 9, make_principal);
}

pub fn half_the_principals(d: &mut Draft) {
    d.until(|d| d.principals() >= MAX_PRINCIPALS / 2, make_principal);
}

pub fn all_principals(d: &mut Draft) {
    d.until(|d| d.principals() >= MAX_PRINCIPALS, make_principal);
    d.storm(&[kinds::NEW_PRINCIPAL], 2);
}

/// Links run from higher to lower numbers, as those of makers do: no cycle.
pub fn all_principal_links(d: &mut Draft) {
    let full = |d: &Draft| d.state.authority.principal_links.len() >= MAX_LINKS;
    d.until(full, |d, office| {
        let p = 1 + d.random.below(d.principals() - 1);
        let q = 1 + d.random.below(p);
        let (p, q) = (p as u8, q as u8);
        d.send(office, kinds::DELEGATE, &[p, q]);
    });
    d.storm(&[kinds::NEW_PRINCIPAL, kinds::DELEGATE], 8);
}

fn make_tag(d: &mut Draft, office: Thread) {
    if d.random.percent(35) {
        let t = d.tag();
        d.send(office, kinds::NEW_SUBTAG, &[t]);
    } else {
        d.send(office, kinds::NEW_TAG, &[]);
    }
}

pub fn few_tags(d: &mut Draft) {
    d.until(|d| d.state.authority.tags.len() >= 5, make_tag);
}

pub fn some_tags(d: &mut Draft) {
    d.until(
        |d| d.state.authority.tags.len() >= 2 * LINE_MEMORY,
        make_tag,
    );
}

pub fn all_tags(d: &mut Draft) {
    d.until(|d| d.state.authority.tags.len() >= MAX_TAGS, make_tag);
    d.storm(&[kinds::NEW_TAG, kinds::NEW_SUBTAG], 4);
}

/// Grants run from lower to higher numbers: no cycle.
pub fn all_tag_links(d: &mut Draft) {
    let full = |d: &Draft| d.state.authority.tag_links.len() >= MAX_LINKS;
    d.until(full, |d, office| {
        let t = d.tag();
        let nodes = d.state.authority.counted_nodes(Tag(t));
        let p = d.random.any(nodes).unwrap_or(OFFICE).0;
        let q = d.random.any(p..d.principals() as u8).unwrap_or(p);
        d.send(office, kinds::GRANT, &[t, p, q]);
    });
    d.storm(&[kinds::GRANT], 8);
}

fn fork(d: &mut Draft, office: Thread) {
    let (idle, low) = (d.idle(), d.random.below(8) as u8);
    let p = d.random.pick(&[OFFICE.0, idle, idle, low]);
    d.send(office, kinds::FORK, &[p]);
}

pub fn few_threads(d: &mut Draft) {
    d.until(|d| d.state.threads.len() >= 6, fork);
}

/// Principals, tags and threads.
pub fn few_of_each(d: &mut Draft) {
    few_principals(d);
    few_tags(d);
    few_threads(d);
}

pub fn all_threads(d: &mut Draft) {
    d.until(|d| d.state.threads.len() >= MAX_THREADS, fork);
    d.storm(&[kinds::FORK, kinds::END, kinds::FORK], 6);
}

/// Eight calls and the ninth, each with one to anybody tried before it; then as
/// many returns and one too many.
pub fn deep_calls(d: &mut Draft) {
    let t = match d.live() {
        Some(t) => t,
        None => return,
    };
    for _ in 0..=MAX_PUT_ASIDE {
        let anybody = d.principal();
        d.send(t, kinds::CALL, &[anybody]);
        let (p, tag) = (d.acted_for(t), d.tag());
        d.send(t, kinds::CALL, &[p]);
        d.send(t, kinds::AUTHORITATIVE, &[tag]);
    }
    for _ in 0..d.random.below(MAX_PUT_ASIDE + 3) {
        d.send(t, kinds::RETURN, &[]);
    }
}

/// All threads end that may; after the last every answer is 2.
pub fn all_end(d: &mut Draft) {
    let live: Vec<Thread> = d.state.threads.keys().copied().collect();
    for t in live {
        d.send(t, kinds::END, &[]);
    }
    all_kinds(d, 4);
}

impl Draft {
    /// A new tag of the office, and a new principal with a thread of its own.
    fn newcomer(&mut self, office: Thread) -> Option<(u8, u8, Thread)> {
        let t = self.send(office, kinds::NEW_TAG, &[])?;
        let p = self.send(office, kinds::NEW_PRINCIPAL, &[])?;
        let thread = self.send(office, kinds::FORK, &[p])?;
        Some((t, p, Thread(thread)))
    }
}

/// The office grants a tag to one, who grants it to a second; the first grant is
/// taken back and given again, and the second asks in between.
pub fn cut_and_restored(d: &mut Draft) {
    let office = d.office().unwrap_or(FIRST_THREAD);
    let (t, q, asker) = match d.newcomer(office) {
        Some(newcomer) => newcomer,
        None => return,
    };
    let p = d.other().unwrap_or(q);
    for (kind, link) in [
        (kinds::GRANT, [t, OFFICE.0, PUBLIC.0]),
        (kinds::GRANT, [t, OFFICE.0, p]),
        (kinds::GRANT, [t, p, q]),
        (kinds::UNGRANT, [t, OFFICE.0, p]),
        (kinds::GRANT, [t, p, q]),
        (kinds::GRANT, [t, OFFICE.0, p]),
        (kinds::UNGRANT, [t, OFFICE.0, p]),
        // The recorded path from p to q stands, though cut off: 6 for q to p.
        (kinds::GRANT, [t, OFFICE.0, q]),
        (kinds::GRANT, [t, q, p]),
        (kinds::UNGRANT, [t, OFFICE.0, PUBLIC.0]),
    ] {
        d.send(office, kind, &link);
        d.send(asker, kinds::AUTHORITATIVE, &[t]);
        d.send(asker, kinds::AUTHORITATIVE, &[t]);
    }
    d.send(asker, kinds::END, &[]);
}

/// One who is granted a tag makes a subtag, is cut off from the tag, and keeps the
/// subtag, of which he is the root.
pub fn subtag_of_a_holder(d: &mut Draft) {
    let office = d.office().unwrap_or(FIRST_THREAD);
    let (t, p, holder) = match d.newcomer(office) {
        Some(newcomer) => newcomer,
        None => return,
    };
    d.send(holder, kinds::NEW_SUBTAG, &[t]);
    d.send(office, kinds::GRANT, &[t, OFFICE.0, p]);
    let subtag = d.send(holder, kinds::NEW_SUBTAG, &[t]).unwrap_or(t);
    let q = d.other().unwrap_or(p);
    for _ in 0..2 {
        for thread in [holder, office] {
            d.send(thread, kinds::AUTHORITATIVE, &[subtag]);
            d.send(thread, kinds::AUTHORITATIVE, &[t]);
            d.send(thread, kinds::NEW_SUBTAG, &[subtag]);
            d.send(thread, kinds::GRANT, &[subtag, p, q]);
            d.send(thread, kinds::GRANT, &[subtag, OFFICE.0, q]);
        }
        d.send(office, kinds::UNGRANT, &[t, OFFICE.0, p]);
    }
    d.send(holder, kinds::END, &[]);
}

/// The same with principal links: a chain, a link across, and the way back.
pub fn chains_and_cycles(d: &mut Draft) {
    let office = match d.office() {
        Some(office) => office,
        None => return,
    };
    for _ in 0..4 {
        let (p, q, r) = match (d.other(), d.other(), d.other()) {
            (Some(p), Some(q), Some(r)) => (p, q, r),
            _ => return,
        };
        for (kind, link) in [
            (kinds::DELEGATE, [p, q]),
            (kinds::DELEGATE, [q, r]),
            (kinds::DELEGATE, [r, p]),
            (kinds::ACTS_FOR, [r, p]),
            (kinds::REVOKE, [p, q]),
            (kinds::ACTS_FOR, [r, p]),
            (kinds::DELEGATE, [r, p]),
            (kinds::DELEGATE, [p, OFFICE.0]),
        ] {
            d.send(office, kind, &link);
        }
    }
}

/// Many pairs, so that the oldest fall off, and some asked again.
pub fn many_questions(d: &mut Draft) {
    let tags = d.state.authority.tags.len().max(1);
    for _ in 0..6 * LINE_MEMORY {
        let (any, low) = (d.random.below(tags), d.random.below(2 * LINE_MEMORY));
        let endorses = d.random.percent(30);
        if let Some(t) = d.live() {
            let kind = if endorses {
                kinds::INTO_INTEGRITY
            } else {
                kinds::AUTHORITATIVE
            };
            d.send(t, kind, &[any.min(low) as u8]);
        }
    }
}

pub fn all_objects(d: &mut Draft) {
    for _ in 0..PATIENCE {
        if d.state.objects.len() >= MAX_OBJECTS {
            break;
        }
        d.aim(kinds::NEW_OBJECT, 0);
    }
    d.storm(&[kinds::NEW_OBJECT, kinds::DELETE, kinds::NEW_OBJECT], 12);
}

pub fn few_objects(d: &mut Draft) {
    for _ in 0..9 {
        d.aim(kinds::NEW_OBJECT, 0);
    }
}

/// A queue of the thread's own labels: eight puts and the ninth, a get and more
/// puts, and up to ten gets.
pub fn full_queue(d: &mut Draft) {
    let office = match d.office() {
        Some(office) => office,
        None => return,
    };
    let integrity = d.state.threads[&office].integrity.bits();
    let mut operands = vec![ObjectKind::Queue as u8];
    operands.extend([0; LABEL_BYTES]);
    operands.extend(integrity.to_be_bytes());
    let o = match d.send(office, kinds::NEW_OBJECT, &operands) {
        Some(o) => o,
        None => return,
    };
    for n in 0..MAX_QUEUE + 4 {
        let mut put = vec![o];
        put.extend(d.message());
        d.send(office, kinds::PUT, &put);
        if n == MAX_QUEUE {
            d.send(office, kinds::GET, &[o]);
        }
    }
    // While it is full, some who may not put.
    for _ in 0..4 {
        d.aim(kinds::PUT, Refusal::Flow as u8);
    }
    for _ in 0..d.random.below(MAX_QUEUE + 3) {
        d.send(office, kinds::GET, &[o]);
    }
}

/// Every sort of malformed line once, with well-formed ones between.
pub fn every_malformed_sort(d: &mut Draft) {
    for sort in SORTS {
        let line = sort(d);
        d.line(&line);
        all_kinds(d, 1);
    }
}

pub fn all_kinds(d: &mut Draft, lines: usize) {
    let kinds: Vec<u8> = (kinds::FIRST..=kinds::LAST).collect();
    d.storm(&kinds, lines);
}

/// Frames of any bytes, with small numbers more often.
pub fn noise(d: &mut Draft) {
    for _ in 0..150 {
        let t = d.random.pick(&[0, 0, 0, 1]);
        let kind = d.random.below(usize::from(kinds::LAST) + 2) as u8;
        let (length, top) = (d.random.below(7), d.random.pick(&[2, 4, 255]));
        if length == 0 && d.put_off(kind) {
            continue;
        }
        let operands: Vec<u8> = (0..length).map(|_| d.random.byte() % top).collect();
        d.send(Thread(t), kind, &operands);
    }
}
