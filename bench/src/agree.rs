//! The agreement check: the same questions to the proved functions, the plain ones
//! and the reference, on seeded tables, sound and damaged. The first difference is
//! printed with all that is needed to run it again. A long run must also have seen
//! both answers to every question, and each rule of 9 broken alone.

use crate::cases::{Run, Tally};
use crate::graphs::{parts, tables};
use crate::plain::PlainRust;
use crate::proved::Proved;
use crate::questions::{answer, List, Question, Rooted, Tables};
use crate::random::Random;
use crate::reference;
use std::collections::BTreeMap;
use std::io::{self, Write};

/// How often each question on single principals is put to the same tables.
const ROUNDS: usize = 3;
/// The rules on a whole list.
const RULES: usize = 8;

/// Whether all agree, and a long run saw everything.
pub fn agree(run: &Run, output: &mut dyn Write) -> io::Result<bool> {
    run.compare(output, |random, seen: &mut Seen| {
        let tables = tables(random);
        for question in questions(random, &tables) {
            let answers = Answers::to(&tables, question);
            if !answers.agree() {
                return Err(format!("{:?}\n{:?}\n{:?}", question, answers, tables));
            }
            seen.add(&tables, question, answers.proved);
        }
        Ok(())
    })
}

#[derive(Debug)]
struct Answers {
    proved: bool,
    plain: bool,
    reference: bool,
}

impl Answers {
    fn to(tables: &Tables, question: Question) -> Answers {
        Answers {
            proved: answer(&Proved, tables, question),
            plain: answer(&PlainRust, tables, question),
            reference: reference::answer(tables, question),
        }
    }

    fn agree(&self) -> bool {
        self.proved == self.plain && self.proved == self.reference
    }
}

fn questions(random: &mut Random, tables: &Tables) -> Vec<Question> {
    let mut questions = vec![Question::PrincipalLinksHold, Question::TagLinksHold];
    for _ in 0..ROUNDS {
        let p = end(random, &tables.links);
        let q = end(random, &tables.links);
        questions.push(Question::ActsFor { p, q });
        questions.push(Question::ClosesPrincipalCycle { p: q, q: p });
        let own = rooted(random, tables);
        let above = supertag(random, tables, own);
        questions.push(Question::Authoritative { own, p });
        questions.push(Question::AuthoritativeSub { own, above, p });
        let tag = own.tag;
        let p = end(random, &tables.tag_links);
        let q = end(random, &tables.tag_links);
        questions.push(Question::ClosesTagCycle { tag, p, q });
    }
    questions
}

/// A principal for a question: mostly one that a link names or might name.
fn end(random: &mut Random, list: &List) -> u8 {
    match (random.below(8), any_link(random, list)) {
        (0, _) => random.draw() as u8,
        (1..=4, Some((_, from, to))) => random.pick(&[from, to]) as u8,
        _ => random.below(64) as u8,
    }
}

fn rooted(random: &mut Random, tables: &Tables) -> Rooted {
    let tag = match (random.below(8), any_link(random, &tables.tag_links)) {
        (0, _) => random.draw() as u8,
        (1..=4, Some((tag, _, _))) => tag as u8,
        _ => random.below(64) as u8,
    };
    let root = end(random, &tables.tag_links);
    Rooted { tag, root }
}

/// A tag has one root, also where it is asked about as its own supertag.
fn supertag(random: &mut Random, tables: &Tables, own: Rooted) -> Rooted {
    let above = rooted(random, tables);
    if above.tag == own.tag {
        own
    } else {
        above
    }
}

/// The parts of any number that is in use.
fn any_link(random: &mut Random, list: &List) -> Option<(u32, u32, u32)> {
    let used = list.lent().used();
    (!used.is_empty()).then(|| parts(random.pick(used)))
}

/// How often each question was answered no and yes, and each rule was broken alone.
#[derive(Default)]
struct Seen {
    answers: BTreeMap<&'static str, [u64; 2]>,
    alone: BTreeMap<&'static str, u64>,
}

impl Seen {
    fn add(&mut self, tables: &Tables, question: Question, yes: bool) {
        self.answers.entry(question.name()).or_default()[usize::from(yes)] += 1;
        if let [rule] = reference::broken(tables, question)[..] {
            *self.alone.entry(rule).or_default() += 1;
        }
    }
}

impl Tally for Seen {
    const LONG_RUN: u64 = 1000;

    fn print(&self, output: &mut dyn Write) -> io::Result<()> {
        let asked: u64 = self.answers.values().flatten().sum();
        writeln!(output, "{} questions\n", asked)?;
        writeln!(output, "{:30} {:>8} {:>8}", "question", "yes", "no")?;
        for (name, [no, yes]) in &self.answers {
            writeln!(output, "{:30} {:8} {:8}", name, yes, no)?;
        }
        writeln!(output, "\n{:30} {:>8}", "the one rule broken", "lists")?;
        for (rule, lists) in &self.alone {
            writeln!(output, "{:30} {:8}", rule, lists)?;
        }
        Ok(())
    }

    fn missed(&self) -> Vec<String> {
        let mut missed = Vec::new();
        if self.answers.values().flatten().any(|times| *times == 0) {
            missed.push("a question was never answered yes, or never no".to_string());
        }
        if self.alone.len() < RULES {
            missed.push("a rule was never the only one broken".to_string());
        }
        missed
    }
}
