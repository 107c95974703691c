//! Questions, hits and the memory: section "Remembered answers" of document 01,
//! readings D1 to D15.

use crate::common::*;
use second::answers::{Done, Refusal};
use second::monitor::{clear, start, step};
use second::places::Places;
use second::rules::{all_broken, Rule};
use second::state::State;
use second::things::*;

/// The office with principals 2 and 3, tags 0, 1 and 2, and tag 3 under tag 0;
/// thread 1 runs as 2.
fn desk() -> Host {
    let mut host = Host::after(&["00 01", "00 01", "00 05", "00 05", "00 05"]);
    host.done(&["00 0E 02"]);
    host.edit(|state| {
        let mut subtag = state.authority.tags[0];
        subtag.supertag = Some(Tag(0));
        state.authority.tags.push(subtag);
    });
    assert_eq!(host.counters(), (0, 0));
    host
}

#[test]
fn d1_each_hit_is_a_question_too() {
    let mut host = desk();
    host.done(&["00 09 00", "00 09 00", "00 09 00"]);
    assert_eq!(host.counters(), (3, 2));
}

#[test]
fn d2_a_request_refused_before_the_check_asks_nothing() {
    let mut host = desk();
    host.done(&["01 0A 00"]);
    host.expect(&[
        ("00 09", "01"),
        ("0F 09 00", "02"),
        ("00 09 3F", "03"),
        ("00 06 03", "03"),
        ("00 0B 3F", "03"),
        ("01 06 00", "04"),
    ]);
    assert_eq!(host.counters(), (0, 0));
    assert_eq!(host.pairs(), []);
}

#[test]
fn d3_already_out_or_in_asks_nothing() {
    let mut host = desk();
    host.expect(&[("00 0B 00", "00"), ("01 0B 00", "00")]);
    assert_eq!(host.counters(), (0, 0));
    host.done(&["00 0C 00"]);
    assert_eq!(host.counters(), (1, 0));
    host.expect(&[("00 0C 00", "00")]);
    assert_eq!(host.counters(), (1, 0));
}

#[test]
fn d4_a_question_on_a_subtag_is_one_question() {
    let mut host = desk();
    // 2 is authoritative for the supertag by grant, and so for the subtag.
    host.done(&["00 07 00 01 02", "01 09 00"]);
    assert_eq!(host.pairs(), [(2, 0)]);
    host.expect(&[("01 09 03", "0001")]);
    // The held pair of the supertag was not consulted: no hit.
    assert_eq!(host.counters(), (2, 0));
    assert_eq!(host.pairs(), [(2, 3), (2, 0)]);
}

#[test]
fn d4_a_yes_by_the_supertag_remembers_the_subtag_only() {
    let mut host = desk();
    host.done(&["00 07 00 01 02", "01 09 03"]);
    assert_eq!(host.pairs(), [(2, 3)]);
}

#[test]
fn d5_the_pair_of_06_names_the_supertag() {
    let mut host = desk();
    host.expect(&[("00 06 01", "0004")]);
    assert_eq!(host.pairs(), [(1, 1)]);
    assert_eq!(host.counters(), (1, 0));
    host.expect(&[("00 06 01", "0005")]);
    assert_eq!(host.counters(), (2, 1));
}

#[test]
fn d6_06_refused_7_after_a_yes_remembers_the_pair() {
    let mut host = desk();
    for _ in 0..60 {
        host.done(&["00 05"]);
    }
    let before = host.state();
    host.expect(&[("00 06 02", "07")]);
    assert_eq!(host.counters(), (1, 0));
    assert_eq!(host.pairs(), [(1, 2)]);
    assert!(same_but_memory(&before, &host.state()));
}

#[test]
fn d7_a_hit_moves_the_pair_to_the_front() {
    let mut host = desk();
    host.done(&["00 09 00", "00 09 01", "00 09 02"]);
    assert_eq!(host.pairs(), [(1, 2), (1, 1), (1, 0)]);
    host.done(&["00 09 00"]);
    assert_eq!(host.pairs(), [(1, 0), (1, 2), (1, 1)]);
    host.done(&["00 09 02"]);
    assert_eq!(host.pairs(), [(1, 2), (1, 0), (1, 1)]);
    host.done(&["00 09 02"]);
    assert_eq!(host.pairs(), [(1, 2), (1, 0), (1, 1)]);
}

#[test]
fn d7_the_least_recently_used_falls_off() {
    let mut host = Host::with_memory(3);
    host.done(&["00 05", "00 05", "00 05", "00 05"]);
    host.done(&["00 09 00", "00 09 01", "00 09 02", "00 09 00"]);
    assert_eq!(host.counters(), (4, 1));
    host.done(&["00 09 03"]);
    assert_eq!(host.pairs(), [(1, 3), (1, 0), (1, 2)]);
    // 1 fell off, so it is no hit, and 2 falls off in turn.
    host.done(&["00 09 01"]);
    assert_eq!(host.counters(), (6, 1));
    assert_eq!(host.pairs(), [(1, 1), (1, 3), (1, 0)]);
}

#[test]
fn d7_the_memory_of_the_line_program_holds_8() {
    let mut host = Host::fresh();
    for t in 0..9 {
        host.done(&["00 05"]);
        host.done(&[&format!("00 09 0{}", t)]);
    }
    assert_eq!(host.pairs().len(), 8);
    assert_eq!(host.pairs()[0], (1, 8));
    assert!(!host.pairs().contains(&(1, 0)));
}

#[test]
fn d8_a_no_changes_only_the_question_count() {
    let mut host = desk();
    host.done(&["00 09 00", "00 09 01"]);
    let before = host.state();
    host.expect(&[("01 09 00", "0000"), ("01 06 00", "05"), ("01 0C 00", "05")]);
    assert_eq!(host.counters(), (5, 0));
    assert_eq!(host.pairs(), [(1, 1), (1, 0)]);
    assert!(same_but_memory(&before, &host.state()));
}

#[test]
fn d9_a_removal_that_takes_out_a_link_empties_the_memory() {
    let mut host = desk();
    // A principal link on which nothing rests.
    host.done(&["00 02 03 02", "00 09 00", "00 03 03 02"]);
    assert_eq!(host.pairs(), []);
    // A tag link that is cut off already.
    host.done(&["00 07 00 01 02", "00 07 00 02 03", "00 08 00 01 02"]);
    host.done(&["00 09 00"]);
    assert_eq!(host.pairs(), [(1, 0)]);
    host.done(&["00 08 00 02 03"]);
    assert_eq!(host.pairs(), []);
    assert_eq!(host.counters(), (2, 0));
    let memory = host.places.memory;
    assert!(memory.pairs.iter().all(|pair| *pair == (PUBLIC, Tag(0))));
}

#[test]
fn d9_nothing_else_empties_it() {
    let mut host = desk();
    let cell = "00 12 00 0000000000000000 0000000000000000";
    host.done(&["00 09 00", cell]);
    host.expect(&[
        // Absent links, and one who may not.
        ("00 03 02 03", "00"),
        ("00 08 00 01 03", "00"),
        ("00 03 02 00", "00"),
        ("01 08 00 01 02", "05"),
        ("01 03 01 02", "05"),
        ("00 13 00", "00"),
        ("01 0F", "00"),
    ]);
    assert_eq!(host.pairs(), [(1, 0)]);
}

#[test]
fn d10_walks_that_are_no_questions() {
    let mut host = desk();
    host.done(&["00 09 00"]);
    host.done(&["00 02 02 03", "00 04 01 02", "00 07 00 01 02", "00 0E 02"]);
    host.done(&["00 10 02", "00 11", "00 01"]);
    assert_eq!(host.counters(), (1, 0));
    // "additions do not" empty the memory.
    assert_eq!(host.pairs(), [(1, 0)]);
}

const TOP: u32 = 4_294_967_295;

#[test]
fn d11_the_counters_stay_at_their_top_one_by_one() {
    let mut host = desk();
    host.edit(|state| {
        state.memory.questions = TOP;
        state.memory.hits = TOP - 1;
    });
    host.done(&["00 09 00"]);
    assert_eq!(host.counters(), (TOP, TOP - 1));
    host.done(&["00 09 00"]);
    assert_eq!(host.counters(), (TOP, TOP));
    host.done(&["00 09 00"]);
    assert_eq!(host.counters(), (TOP, TOP));
}

#[test]
fn d11_questions_reach_their_top() {
    let mut host = desk();
    host.edit(|state| state.memory.questions = TOP - 1);
    host.done(&["01 09 00"]);
    assert_eq!(host.counters(), (TOP, 0));
    host.done(&["01 09 00"]);
    assert_eq!(host.counters(), (TOP, 0));
}

#[test]
fn d12_clearing_leaves_size_and_counters() {
    let mut host = desk();
    host.done(&["00 09 00", "00 09 00", "00 09 01"]);
    let before = host.state();
    let mut after = before.clone();
    clear(&mut after);
    assert!(after.memory.pairs.is_empty());
    assert_eq!(after.memory.size, 8);
    assert_eq!((after.memory.questions, after.memory.hits), (3, 1));
    assert!(same_but_memory(&before, &after));
}

#[test]
fn d13_size_0_remembers_nothing() {
    let mut host = Host::with_memory(0);
    host.done(&["00 05", "00 09 00", "00 09 00", "00 0C 00"]);
    assert_eq!(host.counters(), (3, 0));
    assert_eq!(host.pairs(), []);
}

#[test]
fn d13_size_1_remembers_the_latest() {
    let mut host = Host::with_memory(1);
    host.done(&[
        "00 05", "00 05", "00 09 00", "00 09 00", "00 09 01", "00 09 00",
    ]);
    assert_eq!(host.counters(), (4, 1));
    assert_eq!(host.pairs(), [(1, 0)]);
}

#[test]
fn d14_starting_with_a_size_over_64() {
    for size in [65, 66, 255, 256, usize::MAX] {
        let (state, started) = start(size);
        assert_eq!(started, Err(Refusal::MemorySize));
        assert_eq!(state, State::fresh(0));
    }
    for size in 0..=64 {
        let (state, started) = start(size);
        assert_eq!(started, Ok(()));
        assert_eq!(state, State::fresh(size));
        assert_eq!(state.memory.size, size);
    }
    assert_eq!(Refusal::MemorySize as u8, 11);
}

#[test]
fn d15_the_public_asks_like_anyone() {
    let mut host = desk();
    host.make_public(1);
    host.expect(&[("01 06 00", "05"), ("01 09 00", "0000"), ("01 0C 00", "05")]);
    assert_eq!(host.counters(), (3, 0));
    assert_eq!(host.pairs(), []);
}

/// Tables that hold the untrue pair (2, 0) behind the true pair (1, 1).
fn untrue() -> State {
    let mut state = desk().state();
    state.memory.pairs = vec![(OFFICE, Tag(1)), (Principal(2), Tag(0))];
    assert_eq!(all_broken(&Places::from(&state)), [Rule::UntruePair]);
    assert!(!state.authority.authoritative(Principal(2), Tag(0)));
    state
}

#[test]
fn a_held_pair_is_a_yes_whatever_the_links_say() {
    let mut state = untrue();
    assert_eq!(step(&mut state, &hex("01 09 00")), Ok(Done::Value(1)));
    assert_eq!((state.memory.questions, state.memory.hits), (1, 1));
    let front = [(Principal(2), Tag(0)), (OFFICE, Tag(1))];
    assert_eq!(state.memory.pairs, front);
}

#[test]
fn an_untrue_yes_goes_for_06_0b_and_0c_alike() {
    let mut state = untrue();
    assert_eq!(step(&mut state, &hex("01 06 00")), Ok(Done::Value(4)));
    assert_eq!(step(&mut state, &hex("01 0C 00")), Ok(Done::Plain));
    assert_eq!(step(&mut state, &hex("01 0A 00")), Ok(Done::Plain));
    assert_eq!(step(&mut state, &hex("01 0B 00")), Ok(Done::Plain));
    assert_eq!((state.memory.questions, state.memory.hits), (3, 3));
}

#[test]
fn an_untrue_pair_is_a_yes_for_itself_only() {
    // Not for the subtag of its tag, nor for another principal, nor in a walk.
    let mut state = untrue();
    assert_eq!(step(&mut state, &hex("01 09 03")), Ok(Done::Value(0)));
    assert_eq!(step(&mut state, &hex("01 09 02")), Ok(Done::Value(0)));
    let grant = step(&mut state, &hex("01 07 00 02 03"));
    assert_eq!(grant, Err(Refusal::Authority));
    assert_eq!((state.memory.questions, state.memory.hits), (2, 0));
}

#[test]
fn an_untrue_pair_goes_with_the_others_when_a_link_is_taken_out() {
    let mut state = untrue();
    assert_eq!(step(&mut state, &hex("00 03 02 01")), Ok(Done::Plain));
    assert!(state.memory.pairs.is_empty());
    assert_eq!(step(&mut state, &hex("01 09 00")), Ok(Done::Value(0)));
}

#[test]
fn the_entry_refuses_untrue_pairs_as_9() {
    let mut host = Host::new(&untrue());
    host.expect(&[("01 09 00", "09"), ("00 05", "09")]);
    assert_eq!(host.counters(), (0, 0));
}
