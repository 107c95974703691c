//! Authority told from requests and answers alone: "A leave is a link that an
//! accepted 01, 02 or 07 names; an accepted 03 or 08 withdraws it." Nothing of
//! the program's tables or walks is used here.

use second::coverage::lines_of;
use second::lines::frame_of_line;
use std::collections::{BTreeMap, BTreeSet};

#[derive(Clone, Default)]
struct Runner {
    principal: u8,
    put_aside: Vec<u8>,
    secrecy: BTreeSet<u8>,
    integrity: BTreeSet<u8>,
}

/// What an onlooker knows.
struct Onlooker {
    runners: BTreeMap<u8, Runner>,
    /// Root, and the supertag of a subtag.
    tags: Vec<(u8, Option<u8>)>,
    delegated: BTreeSet<(u8, u8)>,
    granted: BTreeSet<(u8, u8, u8)>,
}

impl Onlooker {
    fn new() -> Onlooker {
        let office = Runner {
            principal: 1,
            ..Runner::default()
        };
        Onlooker {
            runners: BTreeMap::from([(0, office)]),
            tags: Vec::new(),
            delegated: BTreeSet::new(),
            granted: BTreeSet::new(),
        }
    }

    /// Whether a path of leaves leads from one to another, by depth first.
    fn path(leaves: &BTreeSet<(u8, u8)>, from: u8, to: u8, met: &mut BTreeSet<u8>) -> bool {
        if from == to {
            return true;
        }
        if !met.insert(from) {
            return false;
        }
        let mut next = leaves.iter().filter(|(p, _)| *p == from);
        next.any(|(_, q)| Onlooker::path(leaves, *q, to, met))
    }

    fn acts_for(&self, p: u8, q: u8) -> bool {
        Onlooker::path(&self.delegated, q, p, &mut BTreeSet::new())
    }

    /// Some principal is a counted node of the tag and acted for by `p`.
    fn holds(&self, p: u8, t: u8) -> bool {
        let of_t = self.granted.iter().filter(|(tag, _, _)| *tag == t);
        let leaves = of_t.map(|(_, from, to)| (*from, *to)).collect();
        let root = self.tags[usize::from(t)].0;
        let counted = |node| Onlooker::path(&leaves, root, node, &mut BTreeSet::new());
        (0..64).any(|node| counted(node) && self.acts_for(p, node))
    }

    fn authoritative(&self, p: u8, t: u8) -> bool {
        let supertag = self.tags[usize::from(t)].1;
        self.holds(p, t) || supertag.map_or(false, |supertag| self.holds(p, supertag))
    }

    /// The question that a request asked, and its yes or no as answered.
    fn question(&self, frame: &[u8], answer: &[u8]) -> Option<((u8, u8), bool)> {
        let (runner, kind) = (self.runners.get(frame.first()?)?, *frame.get(1)?);
        let t = *frame.get(2)?;
        let pair = (runner.principal, t);
        match (kind, answer[0]) {
            (0x06, 0) | (0x06, 7) => Some((pair, true)),
            (0x06, 5) | (0x0B, 5) | (0x0C, 5) => Some((pair, false)),
            (0x09, 0) => Some((pair, answer[1] == 1)),
            (0x0B, 0) if runner.secrecy.contains(&t) => Some((pair, true)),
            (0x0C, 0) if !runner.integrity.contains(&t) => Some((pair, true)),
            _ => None,
        }
    }

    /// Takes in an accepted request; whether it withdrew a leave that was there.
    fn learn(&mut self, frame: &[u8], answer: &[u8]) -> bool {
        let caller = self.runners[&frame[0]].principal;
        let operand = |n: usize| frame[2 + n];
        let mut withdrawn = false;
        match frame[1] {
            0x01 => {
                self.delegated.insert((answer[1], caller));
            }
            0x02 => {
                self.delegated.insert((operand(0), operand(1)));
            }
            0x03 => withdrawn = self.delegated.remove(&(operand(0), operand(1))),
            0x05 => self.tags.push((caller, None)),
            0x06 => self.tags.push((caller, Some(operand(0)))),
            0x07 => {
                self.granted.insert((operand(0), operand(1), operand(2)));
            }
            0x08 => {
                withdrawn = self.granted.remove(&(operand(0), operand(1), operand(2)));
            }
            _ => self.learn_of_threads(frame, answer),
        }
        withdrawn
    }

    fn learn_of_threads(&mut self, frame: &[u8], answer: &[u8]) {
        let mut runner = self.runners[&frame[0]].clone();
        match (frame[1], frame.get(2)) {
            (0x0A, Some(t)) => {
                runner.secrecy.insert(*t);
            }
            (0x0B, Some(t)) => {
                runner.secrecy.remove(t);
            }
            (0x0C, Some(t)) => {
                runner.integrity.insert(*t);
            }
            (0x0D, Some(t)) => {
                runner.integrity.remove(t);
            }
            (0x0E, Some(p)) => {
                let mut forked = runner.clone();
                forked.principal = *p;
                forked.put_aside.clear();
                self.runners.insert(answer[1], forked);
            }
            (0x10, Some(p)) => {
                runner.put_aside.push(runner.principal);
                runner.principal = *p;
            }
            (0x11, None) => runner.principal = runner.put_aside.pop().expect("one aside"),
            _ => {}
        }
        if frame[1] == 0x0F {
            self.runners.remove(&frame[0]);
        } else {
            self.runners.insert(frame[0], runner);
        }
    }
}

/// The yes pairs since the last withdrawal, oldest first.
#[derive(Default)]
struct Asked(Vec<(u8, u8)>);

impl Asked {
    /// Held: asked with yes since the memory was emptied, and fewer than M other
    /// pairs since then.
    fn held(&self, pair: (u8, u8), size: usize) -> bool {
        let last = self.0.iter().rposition(|other| *other == pair);
        last.map_or(false, |at| {
            let since: BTreeSet<(u8, u8)> = self.0[at + 1..].iter().copied().collect();
            since.len() < size
        })
    }
}

/// Follows a list and its answers, and checks every authority answer, every answer
/// of 04, and the questions and hits of the last line.
pub fn check(list: &[u8], output: &str, size: usize) {
    let mut onlooker = Onlooker::new();
    let (mut questions, mut hits) = (0u32, 0u32);
    let mut asked = Asked::default();
    let mut answers = output.lines();
    for line in lines_of(list) {
        let answer = crate::common::hex(answers.next().expect("an answer a line"));
        let frame = match frame_of_line(line) {
            Ok(frame) => frame,
            Err(_) => continue,
        };
        if let Some((pair, yes)) = onlooker.question(&frame, &answer) {
            assert_eq!(yes, onlooker.authoritative(pair.0, pair.1), "{:?}", pair);
            questions += 1;
            hits += u32::from(asked.held(pair, size));
            if yes {
                asked.0.push(pair);
            }
        }
        if answer[0] != 0 {
            continue;
        }
        if frame[1] == 0x04 {
            assert_eq!(answer[1] == 1, onlooker.acts_for(frame[2], frame[3]));
        }
        if onlooker.learn(&frame, &answer) {
            asked.0.clear();
        }
    }
    let last = format!("FF{:08X}{:08X}", questions, hits);
    assert_eq!(answers.next(), Some(last.as_str()));
    assert_eq!(answers.next(), None);
}
