//! The functions on links at their worst: nanoseconds a question, proved and plain Rust,
//! in one run and by turns, the best of many batches. The tables are warm in the cache;
//! the rows of bits are cleared by the functions themselves, and that is counted.

mod batches;

use crate::graphs::{any_order, graph, list, shared_out, zigzag_order, Shape};
use crate::questions::{Question, Rooted, Tables};
use crate::random::Random;
use batches::{improve, start, Measured};
use std::io::{self, Write};
use std::time::Duration;

const SEED: u64 = 1;
const BATCHES: u32 = 40;

/// A walk takes at most so many times as long as in plain Rust; so does a test of a
/// whole list.
const WALK_GOAL: f64 = 1.5;
const LIST_GOAL: f64 = 3.0;

struct Case {
    name: &'static str,
    tables: Tables,
    question: Question,
    answer: bool,
    goal: f64,
}

pub fn time(output: &mut dyn Write) -> io::Result<()> {
    let cases = cases(&mut Random::new(SEED));
    let mut measured: Vec<Measured> = cases.iter().map(start).collect();
    for turn in 0..BATCHES {
        for (case, best) in cases.iter().zip(&mut measured) {
            improve(case, best, turn);
        }
    }
    writeln!(
        output,
        "| case | proved ns | plain Rust ns | ratio | goal |"
    )?;
    writeln!(output, "|---|--:|--:|--:|--:|")?;
    for (case, best) in cases.iter().zip(&measured) {
        print(case, best, output)?;
    }
    Ok(())
}

fn cases(random: &mut Random) -> Vec<Case> {
    vec![
        acts_for(random, "acts for, 63 principals, 256 links", 63, 256),
        acts_for(random, "acts for, 10 principals, 20 links", 10, 20),
        authoritative(
            random,
            "authoritative, 63 principals, 256 + 256 links",
            63,
            256,
        ),
        authoritative(
            random,
            "authoritative, 10 principals, 20 + 20 links",
            10,
            20,
        ),
        principal_list(random, "principal list, 256 links", 256),
        zigzag_list(random, "principal list, 256 links, most passes"),
        principal_list(random, "principal list, 20 links", 20),
        principal_list(random, "principal list, 0 links", 0),
        tag_list(random, "tag list, 256 links over 64 tags", 64, 256),
        tag_list(random, "tag list, 256 links over 1 tag", 1, 256),
        tag_list(random, "tag list, 20 links over 4 tags", 4, 20),
        tag_list(random, "tag list, 0 links, 64 tags", 64, 0),
    ]
}

/// The worst case: the walk meets every principal and every link, and says no.
fn acts_for(random: &mut Random, name: &'static str, principals: u32, links: usize) -> Case {
    let (tables, head) = walked(random, principals, links);
    walk(name, tables, Question::ActsFor { p: 0, q: head })
}

/// The worst case: both walks meet every principal and every link.
fn authoritative(random: &mut Random, name: &'static str, principals: u32, links: usize) -> Case {
    let (tables, head) = walked(random, principals, links);
    let own = Rooted { tag: 0, root: head };
    walk(name, tables, Question::Authoritative { own, p: 0 })
}

fn walk(name: &'static str, tables: Tables, question: Question) -> Case {
    Case {
        name,
        tables,
        question,
        answer: false,
        goal: WALK_GOAL,
    }
}

/// Tables in which both lists lead from one principal to all the others, and that one.
fn walked(random: &mut Random, principals: u32, links: usize) -> (Tables, u8) {
    let order = any_order(random, 1, principals + 1);
    let principal_links = graph(random, Shape::Chain, 0, &order, links);
    let tag_links = graph(random, Shape::Chain, 0, &order, links);
    (
        tables(random, principal_links, tag_links, 1),
        order[0] as u8,
    )
}

fn principal_list(random: &mut Random, name: &'static str, links: usize) -> Case {
    let order = any_order(random, 0, 64);
    let links = graph(random, Shape::Scattered, 0, &order, links);
    let tables = tables(random, links, Vec::new(), 0);
    whole_list(name, tables, Question::PrincipalLinksHold)
}

fn zigzag_list(random: &mut Random, name: &'static str) -> Case {
    let links = graph(random, Shape::Chain, 0, &zigzag_order(1, 64), 256);
    let tables = tables(random, links, Vec::new(), 0);
    whole_list(name, tables, Question::PrincipalLinksHold)
}

fn tag_list(random: &mut Random, name: &'static str, tags: u32, links: usize) -> Case {
    let links = shared_out(random, Shape::Scattered, tags, (0, 64), links);
    let tables = tables(random, Vec::new(), links, tags);
    whole_list(name, tables, Question::TagLinksHold)
}

fn whole_list(name: &'static str, tables: Tables, question: Question) -> Case {
    Case {
        name,
        tables,
        question,
        answer: true,
        goal: LIST_GOAL,
    }
}

fn tables(random: &mut Random, links: Vec<u32>, tag_links: Vec<u32>, tags: u32) -> Tables {
    Tables {
        principals: 64,
        tags,
        links: list(random, links),
        tag_links: list(random, tag_links),
    }
}

fn print(case: &Case, best: &Measured, output: &mut dyn Write) -> io::Result<()> {
    let each = |took: Duration| took.as_nanos() as f64 / f64::from(best.asked);
    let (proved, plain) = (each(best.proved), each(best.plain));
    writeln!(
        output,
        "| {} | {:.1} | {:.1} | {:.2} | {:.1} |",
        case.name,
        proved,
        plain,
        proved / plain,
        case.goal
    )
}
