//! Times in rounds: work is done so often a round that it lasts a while, and all take
//! their rounds by turns. The tables are warm in the cache. Work that does not come out
//! as before has no time.

use bench::report::{Measured, Time};
use std::io;
use std::time::{Duration, Instant};

/// How many rounds there are, and how long each lasts at least.
#[derive(Clone, Copy)]
pub struct Pace {
    pub rounds: usize,
    pub least: Duration,
}

/// One turn of work beside which programs of other systems take theirs.
pub const A_TURN: Pace = Pace {
    rounds: 5,
    least: Duration::from_millis(20),
};

/// Many short rounds: where a time is taken off another one, what else the machine does
/// should meet both alike.
pub const SHORT: Pace = Pace {
    rounds: 500,
    least: Duration::from_millis(1),
};

/// As many of them as it takes to see a hit behind a check of 9 two hundred times as long.
pub const MANY: Pace = Pace {
    rounds: 4000,
    ..SHORT
};

/// Work to be measured: one call of `all` does so many pieces of it, and says whether
/// they came out as they should.
pub struct Work<'a> {
    pub title: &'a str,
    pub pieces: usize,
    pub all: &'a mut dyn FnMut() -> bool,
}

impl Work<'_> {
    fn took(&mut self, times: u32) -> io::Result<Duration> {
        let mut same = true;
        let before = Instant::now();
        for _ in 0..times {
            same &= (self.all)();
        }
        let took = before.elapsed();
        steady(self.title, same)?;
        Ok(took)
    }

    /// How many times fill a round.
    fn enough(&mut self, least: Duration) -> io::Result<u32> {
        let mut times = 1;
        while self.took(times)? < least {
            times *= 2;
        }
        Ok(times)
    }
}

/// Nanoseconds a piece, of each work and in each round.
pub fn by_turns<const N: usize>(mut works: [Work; N], pace: Pace) -> io::Result<[Vec<f64>; N]> {
    let mut times = [0; N];
    for (work, times) in works.iter_mut().zip(&mut times) {
        *times = work.enough(pace.least)?;
    }
    let mut found = [(); N].map(|_| Vec::new());
    for _ in 0..pace.rounds {
        for ((work, times), found) in works.iter_mut().zip(times).zip(&mut found) {
            let pieces = work.pieces as f64 * f64::from(times);
            found.push(work.took(times)?.as_nanos() as f64 / pieces);
        }
    }
    Ok(found)
}

/// The time of work that was measured.
pub fn time(rounds: Vec<f64>) -> Measured {
    Time::of(rounds).ok_or_else(|| "there are no rounds".to_string())
}

/// It came out the same in each round.
pub fn steady(title: &str, steady: bool) -> io::Result<()> {
    if steady {
        return Ok(());
    }
    let words = "it answers otherwise while it is measured";
    Err(failed(format!("{}: {}", title, words)))
}

/// What ends a run of the benchmark.
pub fn failed(words: String) -> io::Error {
    io::Error::new(io::ErrorKind::Other, words)
}

/// The same value, but the compiler cannot tell.
pub fn hidden<T: Copy>(value: T) -> T {
    // Sound: the pointer is that of a live value.
    unsafe { std::ptr::read_volatile(&value) }
}
