//! Every number of the state under a name, to be changed or told.

use super::raw::{ObjectRow, State, TagRow, ThreadRow};
use second::things::MAX_PUT_ASIDE;
use std::fmt;
use Field::*;

/// A number of the state, as wide as it is there.
pub enum Field<'a> {
    Byte(&'a mut u8),
    Word(&'a mut u32),
    Long(&'a mut u64),
    Count(&'a mut usize),
}

impl Field<'_> {
    pub fn get(&self) -> u64 {
        match self {
            Byte(number) => (**number).into(),
            Word(number) => (**number).into(),
            Long(number) => **number,
            Count(number) => **number as u64,
        }
    }

    /// The number, cut to the width of the field.
    pub fn set(&mut self, to: u64) {
        match self {
            Byte(number) => **number = to as u8,
            Word(number) => **number = to as u32,
            Long(number) => **number = to,
            Count(number) => **number = to as usize,
        }
    }
}

#[derive(Clone, Copy)]
pub struct Name {
    table: &'static str,
    /// The number of the row, where the table has rows.
    row: Option<usize>,
    field: &'static str,
}

impl fmt::Display for Name {
    fn fmt(&self, f: &mut fmt::Formatter) -> fmt::Result {
        match self.row {
            Some(row) => write!(f, "{}[{}].{}", self.table, row, self.field),
            None => write!(f, "{}.{}", self.table, self.field),
        }
    }
}

/// Fields under the names that they have in their row.
type Row<'a> = Vec<(&'static str, Field<'a>)>;

/// Every field, table by table.
pub fn fields(state: &mut State) -> Vec<(Name, Field<'_>)> {
    let State { tables, memory } = state;
    let mut all = Vec::new();
    for (n, row) in tables.threads.iter_mut().enumerate() {
        all.extend(named("threads", Some(n), of_thread(row)));
    }
    for (n, row) in tables.kinds.iter_mut().enumerate() {
        all.extend(named("kinds", Some(n), of_tag(row)));
    }
    for (n, row) in tables.objects.iter_mut().enumerate() {
        all.extend(named("objects", Some(n), of_object(row)));
    }
    for (n, pair) in memory.pairs.iter_mut().enumerate() {
        all.extend(named("pairs", Some(n), vec![("pair", Word(pair))]));
    }
    let counts = vec![
        ("principals", Word(&mut tables.principals)),
        ("links", Count(&mut tables.links)),
        ("tags", Word(&mut tables.tags)),
        ("grants", Count(&mut tables.grants)),
    ];
    all.extend(named("tables", None, counts));
    let counts = vec![
        ("size", Count(&mut memory.size)),
        ("held", Count(&mut memory.held)),
        ("questions", Word(&mut memory.questions)),
        ("hits", Word(&mut memory.hits)),
    ];
    all.extend(named("memory", None, counts));
    all
}

fn named<'a>(
    table: &'static str,
    row: Option<usize>,
    fields: Row<'a>,
) -> impl Iterator<Item = (Name, Field<'a>)> {
    let named = move |(field, number)| (Name { table, row, field }, number);
    fields.into_iter().map(named)
}

const ASIDE: [&str; MAX_PUT_ASIDE] = [
    "aside[0]", "aside[1]", "aside[2]", "aside[3]", "aside[4]", "aside[5]", "aside[6]", "aside[7]",
];

fn of_thread(row: &mut ThreadRow) -> Row<'_> {
    let mut fields = vec![
        ("live", Byte(&mut row.live)),
        ("principal", Byte(&mut row.principal)),
        ("secrecy", Long(&mut row.labels.secrecy)),
        ("integrity", Long(&mut row.labels.integrity)),
        ("calls", Count(&mut row.calls)),
    ];
    fields.extend(ASIDE.into_iter().zip(row.aside.iter_mut().map(Byte)));
    fields
}

fn of_tag(row: &mut TagRow) -> Row<'_> {
    vec![
        ("root", Byte(&mut row.root)),
        ("subtag", Byte(&mut row.subtag)),
        ("supertag", Byte(&mut row.supertag)),
    ]
}

fn of_object(row: &mut ObjectRow) -> Row<'_> {
    vec![
        ("live", Byte(&mut row.live)),
        ("kind", Byte(&mut row.kind)),
        ("held", Count(&mut row.held)),
        ("locked", Byte(&mut row.locked)),
        ("secrecy", Long(&mut row.labels.secrecy)),
        ("integrity", Long(&mut row.labels.integrity)),
    ]
}
