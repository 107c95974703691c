//! What holds along every generated list: refusals alter nothing but the memory
//! and its counters, reached tables break no rule, and clean tables and places
//! are two forms of the same.

use crate::common::*;
use second::answers::{bytes, status, Done, Refusal};
use second::coverage::lines_of;
use second::entry::entry;
use second::generate::random::Random;
use second::lines::{answer_line, frame_of_line};
use second::places::Places;
use second::rules::{all_broken, broken_but_truth};
use second::state::State;
use second::things::*;

/// Calls `see` with the state before, the line, the status and the state after.
fn along(list: &[u8], mut see: impl FnMut(&State, &[u8], u8, &State)) {
    let mut state = State::fresh(LINE_MEMORY);
    for line in lines_of(list) {
        let before = state.clone();
        let answer = answer_line(&mut state, line);
        see(&before, line, status(&answer), &state);
    }
}

#[test]
fn refusals_alter_nothing_but_memory_and_counters() {
    for list in lists(60, 2000) {
        along(&list, |before, line, status, after| {
            if status == 0 {
                return;
            }
            assert!(same_but_memory(before, after), "{:?} {}", line, status);
            let question = before.memory.questions != after.memory.questions;
            let may_ask = [Refusal::Authority as u8, Refusal::Full as u8].contains(&status);
            assert!(may_ask || !question, "{:?} {}", line, status);
            assert!(question || before == after, "{:?} {}", line, status);
        });
    }
}

#[test]
fn reached_tables_break_no_rule_and_come_back_from_their_places() {
    for list in lists(60, 2100) {
        along(&list, |_, line, _, after| {
            let places = Places::from(after);
            assert_eq!(all_broken(&places), [], "after {:?}", line);
            let back = places.state().expect("no rule is broken");
            assert_eq!(&back, after);
            assert_eq!(Places::from(&back), places);
        });
    }
}

#[test]
fn the_entry_over_places_is_the_step_over_clean_tables() {
    for list in lists(30, 2200) {
        let mut places = Places::from(&State::fresh(LINE_MEMORY));
        let mut state = State::fresh(LINE_MEMORY);
        for line in lines_of(&list) {
            let answer = answer_line(&mut state, line);
            let frame = match frame_of_line(line) {
                Ok(frame) => frame,
                Err(_) => continue,
            };
            let mut buffer = [BEFORE; 34];
            assert_eq!(entry(&mut places, &frame, &mut buffer), answer);
            let written = bytes(&answer);
            assert_eq!(buffer[..written.len()], written);
            assert_eq!(places, Places::from(&state));
        }
    }
}

/// Some threads become the public's, as no request from the fresh state can make
/// them; then the public may delegate, fork and call.
#[test]
fn tables_with_public_threads_break_no_rule_either() {
    let mut random = Random::new(5);
    let mut delegated = 0;
    for list in lists(30, 2400) {
        let mut state = led_to(&list);
        for row in state.threads.values_mut().filter(|_| random.percent(40)) {
            row.principal = PUBLIC;
        }
        for line in lines_of(&list) {
            let _ = answer_line(&mut state, line);
            assert_eq!(all_broken(&Places::from(&state)), [], "after {:?}", line);
        }
        let links = state.authority.principal_links.iter();
        delegated += links.filter(|link| link.from == PUBLIC).count();
    }
    assert!(delegated > 0);
}

/// The pair that a question of this frame would be about.
fn pair_of(state: &State, frame: &[u8]) -> Option<(Principal, Tag)> {
    match frame {
        [thread, 0x06 | 0x09 | 0x0B | 0x0C, t] => {
            let row = state.threads.get(&Thread(*thread))?;
            Some((row.principal, Tag(*t)))
        }
        _ => None,
    }
}

/// The step behind 9 on tables that break no rule but the truth of pairs leads to
/// such tables, and a held pair is a yes.
#[test]
fn untrue_pairs_are_a_yes_and_lead_to_no_other_broken_rule() {
    let mut random = Random::new(6);
    for list in lists(30, 2500) {
        let mut state = led_to(&list);
        let (principals, tags) = (state.authority.principals, state.authority.tags.len());
        let all = (0..tags).flat_map(|t| (0..principals).map(move |p| (p as u8, t as u8)));
        let some = all.filter(|_| random.percent(10)).take(LINE_MEMORY);
        state.memory.pairs = some.map(|(p, t)| (Principal(p), Tag(t))).collect();
        for line in lines_of(&list) {
            let pair = pair_of(&state, &frame_of_line(line).unwrap_or_default());
            let held = pair.map_or(false, |pair| state.memory.pairs.contains(&pair));
            let before = state.memory.clone();
            let answer = answer_line(&mut state, line);
            let asked = state.memory.questions > before.questions;
            let hit = u32::from(asked && held);
            assert_eq!(state.memory.hits, before.hits + hit, "{:?}", line);
            let no = [Err(Refusal::Authority), Ok(Done::Value(0))].contains(&answer);
            assert!(hit == 0 || !no, "{:?}", line);
            assert_eq!(broken_but_truth(&Places::from(&state)), None);
        }
    }
}

#[test]
fn the_same_request_in_the_same_tables_has_the_same_answer() {
    for list in lists(15, 2300) {
        assert_eq!(led_to(&list), led_to(&list));
    }
}
