//! What a request is answered: done, with a value or a message where its kind gives one,
//! or refused by a number. 01, section "Refusal numbers".

use std::error::Error;
use std::fmt;

/// The answer to a request.
///
/// ```
/// use suvdorkhun::{Answer, Refusal};
///
/// assert_eq!(Answer::Value(2).to_string(), "done, value 2");
/// assert_eq!(Answer::Message(vec![0x04, 0x4C]).to_string(), "done, message 044C");
/// assert_eq!(
///     Answer::Refused(Refusal::NotLive).to_string(),
///     "refused 2, not live: the thread is not live",
/// );
/// ```
#[derive(Clone, Debug, PartialEq, Eq)]
pub enum Answer {
    /// Done; the kind gives nothing back.
    Done,
    /// Done, with "the value byte": a number that was made, or 1 for yes and 0 for no.
    Value(u8),
    /// Done, with a message of 0 to 32 bytes.
    Message(Vec<u8>),
    /// Refused. "Tables stay", but for what is remembered and counted.
    Refused(Refusal),
}

impl fmt::Display for Answer {
    fn fmt(&self, f: &mut fmt::Formatter) -> fmt::Result {
        match self {
            Answer::Done => f.write_str("done"),
            Answer::Value(value) => write!(f, "done, value {}", value),
            Answer::Message(message) if message.is_empty() => f.write_str("done, empty message"),
            Answer::Message(message) => {
                f.write_str("done, message ")?;
                message
                    .iter()
                    .try_for_each(|byte| write!(f, "{:02X}", byte))
            }
            Answer::Refused(refusal) => refusal.fmt(f),
        }
    }
}

/// Why a request, or a start, is refused, under its (decimal) number.
///
/// ```
/// use suvdorkhun::{Monitor, Refusal};
///
/// let refusal = Monitor::new(65).unwrap_err();
/// assert_eq!((refusal.number(), refusal.name()), (11, "memory size"));
/// assert_eq!(refusal.to_string(), "refused 11, memory size: the memory size is over 64");
/// ```
#[derive(Clone, Copy, Debug, PartialEq, Eq, PartialOrd, Ord, Hash)]
pub enum Refusal {
    /// The frame is no request.
    Malformed = 1,
    /// The thread is not live.
    NotLive = 2,
    /// An operand names nothing, or something of another kind.
    NamesNothing = 3,
    /// The labels do not let it flow.
    Flow = 4,
    /// The caller has no authority for it.
    Authority = 5,
    /// It would make a cycle of leaves.
    Cycle = 6,
    /// There is no room.
    Full = 7,
    /// Nothing is there, or the lock is held.
    EmptyOrHeld = 8,
    /// The lent tables break a rule. A [`Monitor`](crate::Monitor) never gives it.
    BrokenTables = 9,
    /// The lent answer buffer is too short. A [`Monitor`](crate::Monitor) never gives it.
    ShortBuffer = 10,
    /// At the start only: the memory size is too large.
    MemorySize = 11,
}

impl Refusal {
    /// Every refusal, by its number.
    pub const ALL: [Refusal; 11] = [
        Refusal::Malformed,
        Refusal::NotLive,
        Refusal::NamesNothing,
        Refusal::Flow,
        Refusal::Authority,
        Refusal::Cycle,
        Refusal::Full,
        Refusal::EmptyOrHeld,
        Refusal::BrokenTables,
        Refusal::ShortBuffer,
        Refusal::MemorySize,
    ];

    /// The number that the library gives for it.
    pub fn number(self) -> u8 {
        self as u8
    }

    /// The refusal of this number, if it is one's.
    pub fn from_number(number: u8) -> Option<Refusal> {
        Refusal::ALL.iter().copied().find(|r| r.number() == number)
    }

    /// A word or two for it.
    pub fn name(self) -> &'static str {
        self.words().0
    }

    /// When it is given, in the words of 01.
    pub fn sentence(self) -> &'static str {
        self.words().1
    }

    #[rustfmt::skip]
    fn words(self) -> (&'static str, &'static str) {
        match self {
            Refusal::Malformed => ("malformed", "the frame is under 2 bytes, of unknown kind or of wrong length, or has a message over 32 or an object kind over 2"),
            Refusal::NotLive => ("not live", "the thread is not live"),
            Refusal::NamesNothing => ("names nothing", "an operand names no principal, tag or object, an object of another kind, a subtag in 06, or a label with an unmade tag"),
            Refusal::Flow => ("flow", "the flow need is not met"),
            Refusal::Authority => ("authority", "the caller has no authority for it"),
            Refusal::Cycle => ("cycle", "P = Q, or a path leads from Q to P"),
            Refusal::Full => ("full", "a table, a queue or what is put aside by calls is full"),
            Refusal::EmptyOrHeld => ("empty or held", "the queue is empty, the lock is held, or none is put aside"),
            Refusal::BrokenTables => ("broken tables", "the tables break a rule"),
            Refusal::ShortBuffer => ("short buffer", "the answer buffer has fewer than 34 bytes"),
            Refusal::MemorySize => ("memory size", "the memory size is over 64"),
        }
    }

    /// What a status says: "00 or the number".
    pub(crate) fn check(status: u8) -> Result<(), Refusal> {
        match status {
            0 => Ok(()),
            number => Err(Refusal::from_number(number).expect("a status is 0 to 11")),
        }
    }
}

impl fmt::Display for Refusal {
    fn fmt(&self, f: &mut fmt::Formatter) -> fmt::Result {
        let (name, sentence) = self.words();
        write!(f, "refused {}, {}: {}", self.number(), name, sentence)
    }
}

impl Error for Refusal {}
