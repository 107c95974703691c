//! The comparison of one request over whole tables that hold anything: by the proved
//! library and by the second program, and the check of 9 by plain Rust besides. The
//! tables are sound, or one rule is broken, or several, or anything is changed. What was
//! meant is held to what the second program says of it.

mod seen;

use crate::breaks::any_break;
use crate::buffers::Buffers;
use crate::calls::Call;
use crate::cases::Run;
use crate::damage::damage;
use crate::frames::{any_answer, any_frame};
use crate::plain::rules::break_no_rule;
use crate::random::Random;
use crate::sound::any_sound;
use second::rules::{all_broken, Rule};
use second::state::State;
use seen::Seen;
use std::io::{self, Write};

/// Whether all agree, and a long run saw everything.
pub fn boundary(run: &Run, output: &mut dyn Write) -> io::Result<bool> {
    run.compare(output, |random, seen: &mut Seen| {
        let (meant, lent, frame) = case(random);
        let broken = judged(meant, &lent)?;
        let call = Call::Request {
            frame: frame.clone(),
            answer: any_answer(random),
        };
        seen.add(&frame, &broken, &call.compared(&lent)?);
        Ok(())
    })
}

/// What a case was made for.
#[derive(Clone, Copy, Debug)]
enum Meant {
    Sound,
    Breaks(Rule),
    Anything,
}

impl Meant {
    fn is_met(self, broken: &[Rule]) -> bool {
        match self {
            Meant::Sound => broken.is_empty(),
            Meant::Breaks(rule) => broken.contains(&rule),
            Meant::Anything => true,
        }
    }
}

/// Tables, and a frame for what they were before anything was done to them.
fn case(random: &mut Random) -> (Meant, Buffers, Vec<u8>) {
    let (meant, state, lent) = match random.below(16) {
        0..=6 => sound(random),
        7..=12 => one_broken(random),
        _ => damaged(random),
    };
    (meant, lent, any_frame(random, &state))
}

fn sound(random: &mut Random) -> (Meant, State, Buffers) {
    let state = any_sound(random);
    let lent = Buffers::from(&state);
    (Meant::Sound, state, lent)
}

/// One rule is broken, and no other if it can be.
fn one_broken(random: &mut Random) -> (Meant, State, Buffers) {
    let (rule, way) = any_break(random);
    loop {
        let (_, state, mut lent) = sound(random);
        if way.apply(random, &mut lent).is_some() {
            return (Meant::Breaks(rule), state, lent);
        }
    }
}

fn damaged(random: &mut Random) -> (Meant, State, Buffers) {
    let (_, state, mut lent) = sound(random);
    damage(random, &mut lent);
    (Meant::Anything, state, lent)
}

/// The rules that are broken, if plain Rust says as well whether there are any.
fn judged(meant: Meant, lent: &Buffers) -> Result<Vec<Rule>, String> {
    let broken = all_broken(&lent.places());
    let plain = break_no_rule(lent);
    if plain == broken.is_empty() && meant.is_met(&broken) {
        return Ok(broken);
    }
    let says = if plain { "sound" } else { "broken" };
    Err(format!(
        "meant: {:?}\nplain Rust: {}\nsecond program: {:?}\nlent: {:?}",
        meant, says, broken, lent
    ))
}
