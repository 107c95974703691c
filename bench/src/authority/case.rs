//! The tables of the authority measure, one seeded table a size, and every question
//! that can be put to it: is principal P authoritative for tag T? The other systems
//! read both from a file of lines.

use crate::graphs::{any_order, graph, list, parts, shared_out, Shape};
use crate::questions::{List, Question, Rooted, Tables};
use crate::random::Random;
use crate::reference;
use crate::sound::tag_link;
use second::authority::{self, Authority};
use second::things::{Principal, Tag};

const SEED: u64 = 1;

/// So many principals beside the public, and so many links in each of the two lists.
/// The tag links are shared out among the tags.
#[derive(Clone, Copy)]
pub struct Size {
    pub principals: u32,
    pub links: usize,
    pub tags: u32,
}

pub const SIZES: [Size; 2] = [
    Size {
        principals: 10,
        links: 20,
        tags: 4,
    },
    Size {
        principals: 63,
        links: 256,
        tags: 8,
    },
];

/// A tag and, for a subtag, its supertag.
#[derive(Clone, Copy)]
struct TagRow {
    own: Rooted,
    above: Option<Rooted>,
}

pub struct Case {
    pub size: Size,
    pub tables: Tables,
    tags: Vec<TagRow>,
    pub questions: Vec<Question>,
    /// What the second program answers.
    pub answers: Vec<bool>,
}

impl Case {
    pub fn new(size: Size) -> Case {
        let random = &mut Random::new(SEED);
        let end = size.principals + 1;
        let order = any_order(random, 1, end);
        let links = graph(random, Shape::Scattered, 0, &order, size.links);
        let tag_links = shared_out(random, Shape::Scattered, size.tags, (1, end), size.links);
        let tables = Tables {
            principals: end,
            tags: size.tags,
            links: list(random, links),
            tag_links: list(random, tag_links),
        };
        let tags = tag_rows(random, size);
        let questions = questions(&tags, end);
        let second = |question: &Question| reference::answer(&tables, *question);
        let answers = questions.iter().map(second).collect();
        Case {
            size,
            tables,
            tags,
            questions,
            answers,
        }
    }

    /// How many questions are answered yes.
    pub fn yes(&self) -> usize {
        self.answers.iter().filter(|yes| **yes).count()
    }

    /// The tables as the second program has them.
    pub fn authority(&self) -> Authority {
        let links = |list: &List| list.lent().used().to_vec().into_iter().map(tag_link);
        let tag = |row: &TagRow| authority::TagRow {
            root: Principal(row.own.root),
            supertag: row.above.map(|above| Tag(above.tag)),
        };
        Authority {
            principals: self.tables.principals as usize,
            principal_links: links(&self.tables.links).map(|l| l.link).collect(),
            tags: self.tags.iter().map(tag).collect(),
            tag_links: links(&self.tables.tag_links).collect(),
        }
    }

    /// The tables and the questions, a line each.
    pub fn text(&self) -> String {
        let tags = self.tags.iter().map(tag_line);
        let links = ends(&self.tables.links).map(|(_, p, q)| format!("link {} {}\n", p, q));
        let tag_links = ends(&self.tables.tag_links);
        let tag_links = tag_links.map(|(t, p, q)| format!("tag_link {} {} {}\n", t, p, q));
        let asked = self.questions.iter().filter_map(|question| {
            let (t, p) = asked(*question)?;
            Some(format!("ask {} {}\n", t, p))
        });
        tags.chain(links).chain(tag_links).chain(asked).collect()
    }
}

/// Every other tag is a subtag of the one before it. Any principal is a root.
fn tag_rows(random: &mut Random, size: Size) -> Vec<TagRow> {
    let mut rows: Vec<TagRow> = Vec::new();
    for tag in 0..size.tags {
        let root = 1 + random.below(size.principals) as u8;
        let own = Rooted {
            tag: tag as u8,
            root,
        };
        let above = rows.last().filter(|_| tag % 2 == 1).map(|row| row.own);
        rows.push(TagRow { own, above });
    }
    rows
}

/// Each principal but the public about each tag.
fn questions(tags: &[TagRow], end: u32) -> Vec<Question> {
    let about = |row: &TagRow| {
        let TagRow { own, above } = *row;
        let ask = move |p| match above {
            Some(above) => Question::AuthoritativeSub { own, above, p },
            None => Question::Authoritative { own, p },
        };
        (1..end as u8).map(ask).collect::<Vec<Question>>()
    };
    tags.iter().flat_map(about).collect()
}

/// The tag and the principal of a question about authority.
pub fn asked(question: Question) -> Option<(u8, u8)> {
    match question {
        Question::Authoritative { own, p } | Question::AuthoritativeSub { own, p, .. } => {
            Some((own.tag, p))
        }
        _ => None,
    }
}

fn tag_line(row: &TagRow) -> String {
    let Rooted { tag, root } = row.own;
    match row.above {
        Some(above) => format!("subtag {} {} {}\n", tag, root, above.tag),
        None => format!("supertag {} {}\n", tag, root),
    }
}

fn ends(list: &List) -> impl Iterator<Item = (u32, u32, u32)> + '_ {
    list.lent().used().iter().map(|link| parts(*link))
}

#[cfg(test)]
mod tests {
    use super::*;
    use crate::graphs::number;

    #[test]
    fn a_line_for_each_tag_link_and_question() {
        for size in SIZES {
            let case = Case::new(size);
            let text = case.text();
            let lines = |kind: &str| text.lines().filter(|line| line.starts_with(kind)).count();
            assert_eq!(lines("supertag ") + lines("subtag "), size.tags as usize);
            assert_eq!([lines("link "), lines("tag_link ")], [size.links; 2]);
            assert_eq!(lines("ask "), case.questions.len());
            assert!(0 < case.yes() && case.yes() < case.questions.len());
        }
    }

    /// The tables find out a system that mixes tag links and principal links in a path.
    #[test]
    fn mixed_paths_would_answer_otherwise() {
        for size in SIZES {
            let case = Case::new(size);
            let mut mixed = case.tables.clone();
            let links = ends(&case.tables.links);
            let of_each = |(_, p, q)| (0..size.tags).map(move |tag| number(tag, p, q));
            mixed.tag_links.places.truncate(size.links);
            mixed.tag_links.places.extend(links.flat_map(of_each));
            mixed.tag_links.count = mixed.tag_links.places.len();
            assert!(differ(&case, &mixed, |question| question));
        }
    }

    /// The tables find out a system that passes over supertags.
    #[test]
    fn without_supertags_the_answers_would_differ() {
        for size in SIZES {
            let case = Case::new(size);
            let own = |question| match question {
                Question::AuthoritativeSub { own, p, .. } => Question::Authoritative { own, p },
                other => other,
            };
            assert!(differ(&case, &case.tables, own));
        }
    }

    fn differ(case: &Case, tables: &Tables, put: fn(Question) -> Question) -> bool {
        let answers = case.questions.iter().zip(&case.answers);
        let mut differ =
            answers.map(|(question, yes)| reference::answer(tables, put(*question)) != *yes);
        differ.any(|differs| differs)
    }
}
