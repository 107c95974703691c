//! Demand 3 by property: with any size of memory, cleared at any time, all
//! answers agree, and so do all tables but the memory after every request; and
//! authority answers are those of the leaves.

use crate::case::printed;
use crate::common::*;
use crate::leaves;
use second::coverage::lines_of;
use second::generate::random::Random;
use second::lines::{answer_line, run};
use second::monitor::clear;
use second::state::State;
use second::things::{LINE_MEMORY, MAX_MEMORY};

/// Runs a list with one memory and with another that is cleared now and then.
fn agree(list: &[u8], one: &mut State, other: &mut State, random: &mut Random) {
    for line in lines_of(list) {
        if random.percent(5) {
            clear(other);
        }
        let answer = answer_line(one, line);
        assert_eq!(answer_line(other, line), answer);
        assert!(same_but_memory(one, other));
        assert_eq!(one.memory.questions, other.memory.questions);
    }
}

#[test]
fn memories_of_all_sizes_cleared_at_any_time_agree() {
    let mut random = Random::new(11);
    let sizes = MAX_MEMORY + 1;
    for (n, list) in lists(2 * sizes as u64, 900).enumerate() {
        let (one, other) = (n % sizes, random.below(sizes));
        let mut one = State::fresh(one);
        agree(&list, &mut one, &mut State::fresh(other), &mut random);
    }
}

#[test]
fn memories_of_size_0_and_64_agree() {
    let mut random = Random::new(12);
    for list in lists(30, 950) {
        let mut none = State::fresh(0);
        agree(&list, &mut none, &mut State::fresh(MAX_MEMORY), &mut random);
        assert_eq!(none.memory.hits, 0);
    }
}

#[test]
fn authority_answers_are_those_of_the_leaves() {
    for list in lists(90, 1000) {
        leaves::check(&list, &printed(&list), LINE_MEMORY);
    }
}

#[test]
fn hits_are_those_of_the_size() {
    for (n, list) in lists(45, 1100).enumerate() {
        let size = [0, 1, 2, 3, 5, 13, 64][n % 7];
        let mut output = Vec::new();
        run(&mut State::fresh(size), &list[..], &mut output).expect("written");
        let output = String::from_utf8(output).expect("digits");
        leaves::check(&list, &output, size);
    }
}
