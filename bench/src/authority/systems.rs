//! The other systems and the ways in which they are asked, with goals for the ratio to
//! the proved walk, and what the report says of all that is measured.

use crate::rounds::A_TURN;
use bench::report::Goal;

/// A system is named as in the arguments of `bench report`.
pub struct System {
    pub name: &'static str,
    pub ways: &'static [Way],
}

/// `key` is what the system's program calls it.
pub struct Way {
    pub key: &'static str,
    pub title: &'static str,
    pub goal: Option<Goal>,
}

/// The proved walk takes at most 1.5 times as long as plain Rust.
const PLAIN_GOAL: Option<Goal> = Some(Goal::AtLeast(1.0 / 1.5));
/// Of a system that walks for the question.
const WALK_GOAL: Option<Goal> = Some(Goal::AtLeast(20.0));

pub const PROVED: &str = "proved walk";
pub const PLAIN: Way = way("plain", "plain Rust", PLAIN_GOAL);

pub const SYSTEMS: [System; 3] = [
    System {
        name: "sqlite",
        ways: &[way("walk", "SQLite, recursive query", WALK_GOAL)],
    },
    System {
        name: "prolog",
        ways: &[
            way("walk", "SWI-Prolog, without tables", WALK_GOAL),
            way("tabled", "SWI-Prolog, tables emptied", WALK_GOAL),
            way("again", "SWI-Prolog, tables kept", None),
        ],
    },
    System {
        name: "casbin",
        ways: &[way("walk", "casbin, role manager", None)],
    },
];

const fn way(key: &'static str, title: &'static str, goal: Option<Goal>) -> Way {
    Way { key, title, goal }
}

/// So many turns for each way.
pub fn notes(turns: usize) -> Vec<String> {
    let times = format!(
        "**Its times.** Nanoseconds a question inside one process, its start and the loading of \
         tables not counted: the median and the best of {} rounds of at least {} ms, {} at a turn, \
         each system in turn. The ratio is that of the medians; where they lie far above the best, \
         the machine was busy. Plain Rust has a goal of 0.67: then the proved walk takes at most \
         1.5 times as long.",
        turns * A_TURN.rounds,
        A_TURN.least.as_millis(),
        A_TURN.rounds
    );
    let mut notes = vec![QUESTION.to_string(), times];
    notes.extend(ANSWERED.map(String::from));
    notes
}

const QUESTION: &str =
    "**The authority question.** P is authoritative for the tag T when a path of T's links leads \
     from its maker to some principal, and a path of principal links from there to P; for a \
     subtag, also when that holds of its supertag. Tables and questions are seeded, and the same \
     for every system. All answers are compared with the second program's before a time counts.";

const ANSWERED: [&str; 4] = [
    "**The proved walk** is `authoritative` of the crate `links`, called through `links_c`. It is \
     lent the two lists and gathers their links anew for each question; it has no index and keeps \
     nothing. Plain Rust is the same algorithm.",
    "**SQLite** has one recursive query, prepared once, on a database in memory with keys in the \
     order that the walk needs, called through the C library; one thread, temporary tables in \
     memory.",
    "**SWI-Prolog** is asked in three ways. *Without tables* is a walk with sets of principals as \
     bits of a number. *Tables emptied* is a tabled definition, all tables emptied before each \
     question; the emptying is counted. *Tables kept* is the same question put again: a remembered \
     answer, and so no goal is set for it.",
    "**casbin** is asked `HasLink` of its role manager, with at most 128 levels, without policy or \
     matcher. It has one kind of link, and in one graph paths that mix tag links and principal \
     links would count too. So each tag has a domain of its own, made before the time counts, in \
     which a principal has its node in the tag's graph as a role.",
];
