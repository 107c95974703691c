//! Walks: from the start or from any tables a long list of requests, and between them
//! the tables changed: damaged and mended again, the memory cleared or of another size,
//! the counters near their end. Every call is compared. Frames are drawn for the last
//! tables that broke no rule; or a list of the second program is gone through, which
//! leads to limits and corners.

mod seen;

use crate::breaks::any_break;
use crate::buffers::Buffers;
use crate::calls::{After, Call};
use crate::cases::Run;
use crate::damage::{damage, fill};
use crate::frames::{answer_with_room, any_answer, any_frame};
use crate::random::Random;
use crate::sound::any_sound;
use second::answers::Refusal;
use second::coverage::lines_of;
use second::generate::{generate, PROFILES};
use second::lines::frame_of_line;
use second::state::State;
use second::things::MAX_MEMORY;
use seen::Seen;
use std::io::{self, Write};

/// Whether all calls agree, and a long run saw everything.
pub fn fuzz(run: &Run, output: &mut dyn Write) -> io::Result<bool> {
    run.compare(output, |random, seen: &mut Seen| {
        let mut walk = Walk::from(any_sound(random));
        if random.one_in(8) {
            return walk.go_through(random, seen);
        }
        if random.one_in(2) {
            walk.start(random, seen)?;
        }
        for _ in 0..random.pick(&[20, 100, 400]) {
            walk.go_on(random, seen)?;
        }
        Ok(())
    })
}

struct Walk {
    lent: Buffers,
    /// The last tables that broke no rule, to go back to and to draw frames for.
    sound: State,
}

impl From<State> for Walk {
    fn from(sound: State) -> Walk {
        let lent = Buffers::from(&sound);
        Walk { lent, sound }
    }
}

impl Walk {
    /// One request, and before it now and then something else.
    fn go_on(&mut self, random: &mut Random, seen: &mut Seen) -> Result<(), String> {
        match random.below(64) {
            0..=2 => damage(random, &mut self.lent),
            3 => {
                // Where there is nothing to break, all stays.
                let _ = any_break(random).1.apply(random, &mut self.lent);
            }
            4 | 5 => other_memory(random, &mut self.lent),
            6 => self.call(Call::Clear, seen)?,
            7 if random.one_in(8) => self.start(random, seen)?,
            8..=23 => self.lent = Buffers::from(&self.sound),
            _ => {}
        }
        let frame = any_frame(random, &self.sound);
        let answer = any_answer(random);
        self.call(Call::Request { frame, answer }, seen)
    }

    /// The start, and each frame of a list of any profile.
    fn go_through(&mut self, random: &mut Random, seen: &mut Seen) -> Result<(), String> {
        self.start(random, seen)?;
        let list = generate(random.draw(), &PROFILES[random.index(PROFILES)]);
        let frames = lines_of(&list).into_iter().map(frame_of_line);
        for frame in frames.flatten() {
            let answer = answer_with_room(random);
            self.call(Call::Request { frame, answer }, seen)?;
        }
        Ok(())
    }

    /// The start over buffers that hold anything.
    fn start(&mut self, random: &mut Random, seen: &mut Seen) -> Result<(), String> {
        fill(random, &mut self.lent);
        let any = random.below(MAX_MEMORY as u32 + 1) as usize;
        let size = random.pick(&[any, any, 0, 8, 64, 65, usize::MAX]);
        self.call(Call::Start { size }, seen)
    }

    fn call(&mut self, call: Call, seen: &mut Seen) -> Result<(), String> {
        let After { status, lent, .. } = call.compared(&self.lent)?;
        seen.add(&call, status);
        self.lent = lent;
        let unknown = [Refusal::BrokenTables, Refusal::ShortBuffer].map(|r| r as u8);
        if !unknown.contains(&status) {
            if let Ok(state) = self.lent.places().state() {
                self.sound = state;
            }
        }
        Ok(())
    }
}

/// Another size of the memory, with room for the pairs or without, or counters that are
/// about to end.
fn other_memory(random: &mut Random, lent: &mut Buffers) {
    let memory = &mut lent.state.memory;
    match random.below(4) {
        0 => memory.questions = u32::MAX - random.below(3),
        1 => {
            memory.questions = u32::MAX;
            memory.hits = u32::MAX - random.below(3);
        }
        2 => memory.size = random.below(MAX_MEMORY as u32 + 2) as usize,
        _ => {
            memory.size = random.below(MAX_MEMORY as u32 + 1) as usize;
            memory.held = memory.held.min(memory.size);
            let unused = memory.pairs.iter_mut().skip(memory.held);
            unused.for_each(|pair| *pair = 0);
        }
    }
}
