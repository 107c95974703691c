//! Buffers and places say the same, and every number of the state is one field.

use super::*;
use second::coverage::lines_of;
use second::generate::{generate, nth, PROFILES};
use second::lines::answer_line;
use second::places::Places;
use second::things::{Principal, Tag, LINE_MEMORY};

/// Where a list of each profile leads.
fn reached() -> impl Iterator<Item = second::state::State> {
    (0..PROFILES.len() as u64).map(|n| {
        let (seed, profile) = nth(n, 1);
        let mut state = second::state::State::fresh(LINE_MEMORY);
        for line in lines_of(&generate(seed, profile)) {
            let _ = answer_line(&mut state, line);
        }
        state
    })
}

#[test]
fn places_come_back_from_buffers() {
    for state in reached() {
        let places = Places::from(&state);
        assert_eq!(Buffers::from(&places).places(), places);
    }
}

#[test]
fn every_number_of_the_state_is_one_field_and_comes_back_from_places() {
    let sound = Buffers::from(&second::state::State::fresh(LINE_MEMORY));
    let count = fields(&mut sound.clone().state).len();
    assert_eq!(count, 16 * 13 + 64 * 3 + 64 * 6 + 64 + 8);
    for n in 0..count {
        let mut changed = sound.clone();
        let (_, field) = &mut fields(&mut changed.state)[n];
        field.set(field.get() + 1);
        assert_eq!(changed.differences(&sound).len(), 1);
        assert!(Buffers::from(&changed.places()) == changed);
    }
}

#[test]
fn a_pair_of_65536_or_more_names_nothing_and_is_not_zero() {
    let mut lent = Buffers::from(&second::state::State::fresh(LINE_MEMORY));
    lent.state.memory.pairs[3] = 65536;
    let pair = lent.places().memory.pairs[3];
    assert_eq!(pair, (Principal(255), Tag(0)));
}
