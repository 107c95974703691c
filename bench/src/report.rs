//! What a run of the benchmark found: sections of rows, a time in each. It is written
//! as a table (`markdown`) and as a picture (`picture`), both from the same values.

pub mod markdown;
pub mod picture;
#[cfg(test)]
mod tests;

#[derive(Default)]
pub struct Report {
    /// The command, the machine, the versions: "name: value".
    pub facts: Vec<String>,
    pub sections: Vec<Section>,
    /// What was measured, and how.
    pub notes: Vec<String>,
}

impl Report {
    /// Adds what another part of the run found.
    pub fn add(&mut self, part: Report) {
        self.facts.extend(part.facts);
        self.sections.extend(part.sections);
        self.notes.extend(part.notes);
    }
}

pub struct Section {
    pub title: String,
    /// Of what a row has the time: "question", "request", "line".
    pub each: &'static str,
    pub told: Told,
    /// To what the ratios are.
    pub beside: &'static str,
    pub about: String,
    pub rows: Vec<Row>,
}

/// How the table tells the times of a section; the picture tells them for one piece.
#[derive(Clone, Copy)]
pub enum Told {
    Nanoseconds,
    /// Seconds for so many pieces, and pieces a second.
    SecondsFor(usize),
}

/// The time, or why there is none.
pub type Measured = Result<Time, String>;

#[derive(Clone)]
pub struct Row {
    pub name: String,
    /// Whether it is the proved code, which the picture sets off.
    pub proved: bool,
    pub time: Measured,
    /// How many times as long as what the section puts it beside.
    pub ratio: Option<f64>,
    pub goal: Option<Goal>,
}

impl Row {
    pub fn new(name: &str, time: Measured) -> Row {
        Row {
            name: name.to_string(),
            proved: false,
            time,
            ratio: None,
            goal: None,
        }
    }

    pub fn proved(self) -> Row {
        Row {
            proved: true,
            ..self
        }
    }

    /// With the ratio of its median to another one, where there are both.
    pub fn beside(self, other: &Measured) -> Row {
        let ratio = match (&self.time, other) {
            (Ok(time), Ok(other)) => Some(time.median / other.median),
            _ => None,
        };
        Row { ratio, ..self }
    }

    pub fn with_goal(self, goal: Option<Goal>) -> Row {
        Row { goal, ..self }
    }

    /// Whether the goal is met, if there are a goal and a ratio.
    pub fn met(&self) -> Option<bool> {
        let (goal, ratio) = (self.goal?, self.ratio?);
        Some(match goal {
            Goal::AtLeast(bound) => ratio >= bound,
            Goal::AtMost(bound) => ratio <= bound,
        })
    }
}

/// Nanoseconds a piece, from several rounds.
#[derive(Clone, Copy, Debug, PartialEq)]
pub struct Time {
    pub median: f64,
    /// The best round. What is left of a time has none.
    pub best: Option<f64>,
}

impl Time {
    /// The upper one of two middle rounds. No rounds have no time.
    pub fn of(mut rounds: Vec<f64>) -> Option<Time> {
        rounds.sort_by(f64::total_cmp);
        Some(Time {
            median: *rounds.get(rounds.len() / 2)?,
            best: rounds.first().copied(),
        })
    }

    /// What is left when a part is taken off, round by round. None where that is nothing:
    /// it is lost in how the times spread.
    pub fn less(whole: &[f64], part: &[f64]) -> Option<Time> {
        let left = whole.iter().zip(part).map(|(whole, part)| whole - part);
        let median = Time::of(left.collect())?.median;
        let best = None;
        (median > 0.0).then_some(Time { median, best })
    }
}

/// What a ratio should be.
#[derive(Clone, Copy)]
pub enum Goal {
    AtLeast(f64),
    AtMost(f64),
}

impl Goal {
    fn bound(self) -> f64 {
        match self {
            Goal::AtLeast(bound) | Goal::AtMost(bound) => bound,
        }
    }

    fn words(self) -> &'static str {
        match self {
            Goal::AtLeast(_) => "at least",
            Goal::AtMost(_) => "at most",
        }
    }
}

/// Two places after the point below 10, one below 100, else none.
fn ratio(value: f64) -> String {
    match value {
        small if small < 9.995 => format!("{:.2}", small),
        middle if middle < 99.95 => format!("{:.1}", middle),
        large => thousands(large),
    }
}

/// A whole number, its thousands apart.
fn thousands(value: f64) -> String {
    let digits = format!("{:.0}", value);
    let mut words = String::new();
    for (place, digit) in digits.chars().enumerate() {
        if place > 0 && (digits.len() - place) % 3 == 0 {
            words.push(',');
        }
        words.push(digit);
    }
    words
}
