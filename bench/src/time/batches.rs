//! One batch of questions after the other: by the proved functions and by plain Rust.

use super::Case;
use crate::plain::PlainRust;
use crate::proved::Proved;
use crate::questions::{answer, Functions};
use crate::rounds::hidden;
use std::time::{Duration, Instant};

const BATCH: Duration = Duration::from_millis(2);

/// The best batch of each so far, and how many questions a batch has.
pub struct Measured {
    pub proved: Duration,
    pub plain: Duration,
    pub asked: u32,
}

/// Finds how many questions fill a batch.
pub fn start(case: &Case) -> Measured {
    let mut asked = 1;
    loop {
        let proved = batch(&Proved, case, asked);
        let plain = batch(&PlainRust, case, asked);
        if proved.min(plain) >= BATCH {
            return Measured {
                proved,
                plain,
                asked,
            };
        }
        asked *= 2;
    }
}

/// One batch each, the proved one first at every other turn.
pub fn improve(case: &Case, best: &mut Measured, turn: u32) {
    let proved_first = turn % 2 == 0;
    for proved in [proved_first, !proved_first] {
        if proved {
            best.proved = best.proved.min(batch(&Proved, case, best.asked));
        } else {
            best.plain = best.plain.min(batch(&PlainRust, case, best.asked));
        }
    }
}

fn batch(functions: &dyn Functions, case: &Case, asked: u32) -> Duration {
    let mut expected = 0;
    let before = Instant::now();
    for _ in 0..asked {
        let (tables, question) = (hidden(&case.tables), hidden(case.question));
        let answer = answer(hidden(functions), tables, question);
        expected += u32::from(answer == case.answer);
    }
    let took = before.elapsed();
    assert_eq!(expected, asked, "a wrong answer: {}", case.name);
    took
}
