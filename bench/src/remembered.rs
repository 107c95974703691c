//! The authority question as a hit and as a walk: kind 09 through the proved library, with
//! the pairs remembered and with a memory of size 0, and the walk alone. Beside 09 stands
//! 0D, which asks no question: what 09 takes more is the question itself. The tables are
//! those on which other systems are asked.

use crate::authority::case::{asked, Case, SIZES};
use crate::passes::{less, Frame, Pass, Split};
use crate::proved::Proved;
use crate::questions::{answer, Question};
use crate::rounds::{by_turns, hidden, time, Work, MANY};
use bench::report::{Goal, Measured, Report, Row, Section, Told};
use second::kinds::{AUTHORITATIVE, OUT_OF_INTEGRITY};
use second::memory::Memory;
use second::state::{State, ThreadRow};
use second::things::{Principal, Tag, Thread, LINE_MEMORY};
use std::io;

/// A walk takes at least so many times as long as a hit, at full lists of links.
const GOAL: Goal = Goal::AtLeast(20.0);
const FULL_LIST: usize = 256;

const ALONE: &str = "walk alone, no request";

/// A section for each size of tables.
pub fn measure() -> io::Result<Report> {
    let mut report = Report::default();
    for size in SIZES {
        report.sections.push(section(&Case::new(size))?);
    }
    report.notes = vec![NOTE.to_string()];
    Ok(report)
}

fn section(case: &Case) -> io::Result<Section> {
    let (principals, links) = (case.size.principals, case.size.links);
    Ok(Section {
        title: format!(
            "A remembered answer beside a walk, {} principals, {} links",
            principals, links
        ),
        each: "request",
        told: Told::Nanoseconds,
        beside: "a hit",
        about: format!(
            "Kind 09 on the tables of the authority question, by {} threads in turn; all are \
             answered yes.",
            LINE_MEMORY
        ),
        rows: rows(case)?,
    })
}

fn rows(case: &Case) -> io::Result<Vec<Row>> {
    let (hit, walk, alone) = took(case)?;
    let goal = (case.size.links == FULL_LIST).then_some(GOAL);
    let [whole, check, behind, itself] = walk.rows("walk");
    let mut rows = hit.rows("hit").to_vec();
    rows.extend([
        whole,
        check,
        behind.beside(&hit.split.rest),
        itself.beside(&hit.itself).with_goal(goal),
        Row::new(ALONE, alone).proved().beside(&hit.itself),
    ]);
    Ok(rows)
}

/// The times of a hit, of a walk, and of the walk alone.
fn took(case: &Case) -> io::Result<(Took, Took, Measured)> {
    let questions = questions(case);
    let hits = Requests::new("hit", case, &questions, LINE_MEMORY)?;
    let walks = Requests::new("walk", case, &questions, 0)?;
    let alone = |question: &Question| {
        let (proved, tables) = (hidden(&Proved), hidden(&case.tables));
        answer(proved, tables, hidden(*question))
    };
    let [hit, hit_check, hit_silent, walk, walk_check, walk_silent, alone] = by_turns(
        [
            hits.asking.work(&mut || hits.asking.requests()),
            hits.asking.work(&mut || hits.asking.checks()),
            hits.silent.work(&mut || hits.silent.requests()),
            walks.asking.work(&mut || walks.asking.requests()),
            walks.asking.work(&mut || walks.asking.checks()),
            walks.silent.work(&mut || walks.silent.requests()),
            Work {
                title: ALONE,
                pieces: questions.len(),
                all: &mut || questions.iter().all(alone),
            },
        ],
        MANY,
    )?;
    let hit = Took::of(hit, hit_check, &hit_silent);
    let walk = Took::of(walk, walk_check, &walk_silent);
    Ok((hit, walk, time(alone)))
}

/// The times of requests that ask.
struct Took {
    split: Split,
    /// What they take more than those that do not ask.
    itself: Measured,
}

impl Took {
    fn of(asking: Vec<f64>, checks: Vec<f64>, silent: &[f64]) -> Took {
        Took {
            itself: less(&asking, silent),
            split: Split::of(asking, checks),
        }
    }

    fn rows(&self, name: &str) -> [Row; 4] {
        let [whole, check, behind] = self.split.rows(name);
        let itself = format!("{}, question itself", name);
        let itself = Row::new(&itself, self.itself.clone()).proved();
        [whole, check, behind, itself]
    }
}

/// As many as the memory of the line program holds, from all that are answered yes.
fn questions(case: &Case) -> Vec<Question> {
    let all = case.questions.iter().zip(&case.answers);
    let yes: Vec<Question> = all
        .filter(|(_, yes)| **yes)
        .map(|(asked, _)| *asked)
        .collect();
    let apart = (yes.len() / LINE_MEMORY).max(1);
    yes.into_iter().step_by(apart).take(LINE_MEMORY).collect()
}

/// A thread that runs as P, and asks of T.
struct Asker {
    thread: Thread,
    p: Principal,
    t: Tag,
}

impl Asker {
    fn frame(&self, kind: u8) -> Frame {
        vec![self.thread.0, kind, self.t.0]
    }

    fn row(&self) -> (Thread, ThreadRow) {
        let row = ThreadRow {
            principal: self.p,
            ..ThreadRow::default()
        };
        (self.thread, row)
    }
}

/// Requests that ask, and requests on the same tables that do not.
struct Requests {
    asking: Pass,
    silent: Pass,
}

impl Requests {
    /// By a thread for each question, with a memory of this size.
    fn new(name: &str, case: &Case, questions: &[Question], size: usize) -> io::Result<Requests> {
        let asked = questions.iter().copied().filter_map(asked);
        let asker = |(thread, (t, p))| Asker {
            thread: Thread(thread),
            p: Principal(p),
            t: Tag(t),
        };
        let askers: Vec<Asker> = (0..).zip(asked).map(asker).collect();
        let frames = |kind| askers.iter().map(|asker| asker.frame(kind)).collect();
        let pass = |state, kind| Pass::new(name.to_string(), state, frames(kind));
        let asking = pass(tables(case, &askers, size), AUTHORITATIVE)?;
        let silent = pass(asking.state.clone(), OUT_OF_INTEGRITY)?;
        Ok(Requests { asking, silent })
    }
}

/// The counters stand at their end.
fn tables(case: &Case, askers: &[Asker], size: usize) -> State {
    State {
        authority: case.authority(),
        threads: askers.iter().map(Asker::row).collect(),
        memory: Memory {
            questions: u32::MAX,
            hits: u32::MAX,
            ..Memory::new(size)
        },
        ..State::fresh(size)
    }
}

const NOTE: &str =
    "**A remembered answer.** *Hit*: a memory of 8 that holds all 8 pairs which are asked, each \
     time the one that was asked longest ago. *Walk*: a memory of size 0, the same questions. The \
     check of 9 is taken off as above; it walks for each remembered pair, and so takes longer with \
     8 held than with none. *Question itself* is what 09 takes more than 0D of the same tag by the \
     same thread, which asks nothing and changes nothing: the rest of a request is alike; the goal \
     is set for it. It is seen as the difference of two times of which the check is nearly all, so \
     here there are 4,000 rounds. *Walk alone* is the proved walk of `links_c` on the same \
     questions, beside the hit's question itself.";

#[cfg(test)]
mod tests {
    use super::*;

    /// The first pass has remembered all pairs, or none.
    #[test]
    fn each_question_is_a_hit_or_a_walk() {
        for size in SIZES {
            let case = Case::new(size);
            let questions = questions(&case);
            assert_eq!(questions.len(), LINE_MEMORY);
            for size in [LINE_MEMORY, 0] {
                let requests = Requests::new("", &case, &questions, size);
                let requests = requests.expect("the tables stay");
                assert_eq!(requests.asking.state.memory.pairs.len(), size);
            }
        }
    }
}
