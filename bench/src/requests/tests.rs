//! The lists of requests do what the report says of them, and the monitor in plain Rust
//! answers as the second program does from any tables.

use super::*;
use crate::frames::any_frame;
use crate::plain::monitor::Monitor;
use crate::sound::any_sound;
use second::answers::{bytes, status, Refusal, DONE};
use second::kinds;
use second::monitor::step;
use second::places::Places;
use second::rules::all_broken;
use second::things::{LINE_MEMORY, MIN_BUFFER};

fn any_tables() -> impl Iterator<Item = Tables> {
    FILLED
        .iter()
        .map(|filled| tables(&mut Random::new(SEED), filled))
}

#[test]
fn the_tables_are_sound_and_as_large_as_told() {
    for (tables, filled) in any_tables().zip(&FILLED) {
        let (state, sizes) = (tables.state, filled.sizes);
        assert_eq!(all_broken(&Places::from(&state)), []);
        let authority = &state.authority;
        assert_eq!(authority.principal_links.len(), sizes.links);
        assert_eq!(authority.tag_links.len(), sizes.tag_links);
        assert_eq!(authority.tags.len(), sizes.tags as usize);
        assert_eq!(state.threads.len(), sizes.threads);
        assert_eq!(state.objects.len(), sizes.objects);
        assert_eq!(state.memory.pairs.len(), sizes.pairs);
    }
}

#[test]
fn every_kind_stands_once_in_the_lists() {
    for tables in any_tables() {
        let frames = GROUPS.iter().flat_map(|group| (group.frames)(&tables));
        let mut there: Vec<u8> = frames.map(|frame| frame[1]).collect();
        there.sort_unstable();
        assert!(there.into_iter().eq(kinds::FIRST..=kinds::LAST));
    }
}

#[test]
fn all_is_done_but_what_the_public_asks() {
    let refused = [kinds::NEW_PRINCIPAL, kinds::NEW_TAG, kinds::NEW_SUBTAG];
    for tables in any_tables() {
        for group in &GROUPS {
            let mut state = tables.state.clone();
            for frame in (group.frames)(&tables) {
                let right = match refused.contains(&frame[1]) {
                    true => Refusal::Authority as u8,
                    false => DONE,
                };
                assert_eq!(status(&step(&mut state, &frame)), right, "{:02X?}", frame);
            }
        }
    }
}

#[test]
fn a_list_is_a_pass() {
    for tables in any_tables() {
        for group in &GROUPS {
            let pass = pass(group, &tables).expect("the tables stay");
            let pairs = pass.state.memory.pairs.len();
            let emptied = group.name == "authority";
            assert_eq!(pairs == 0, emptied, "{}", group.name);
        }
    }
}

#[test]
fn plain_rust_answers_as_the_second_program_from_any_tables() {
    let random = &mut Random::new(SEED);
    for _ in 0..400 {
        let mut state = any_sound(random);
        state.memory.size = LINE_MEMORY;
        state.memory.pairs.truncate(LINE_MEMORY);
        let mut monitor = Monitor::of(&state).expect("a memory of 8");
        for _ in 0..20 {
            let frame = any_frame(random, &state);
            let mut answer = [0; MIN_BUFFER];
            let written = monitor.answer(&frame, &mut answer);
            let right = bytes(&step(&mut state, &frame));
            assert_eq!(answer[..written], right, "{:02X?} on {:?}", frame, state);
        }
        let counters = [monitor.memory.questions, monitor.memory.hits];
        assert_eq!(counters, [state.memory.questions, state.memory.hits]);
    }
}
