//! What a request is answered: done with a value or a message, or a refusal.
//! Document 01, section "Refusal numbers", with the form of an answer in bytes.

use crate::things::Message;

/// The refusals under their (decimal) numbers.
#[derive(Clone, Copy, Debug, PartialEq, Eq, PartialOrd, Ord)]
pub enum Refusal {
    Malformed = 1,
    NotLive = 2,
    NamesNothing = 3,
    Flow = 4,
    Authority = 5,
    Cycle = 6,
    Full = 7,
    EmptyOrHeld = 8,
    BrokenTables = 9,
    ShortBuffer = 10,
    MemorySize = 11,
}

#[derive(Clone, Debug, PartialEq, Eq)]
pub enum Done {
    Plain,
    Value(u8),
    Message(Message),
}

pub type Answer = Result<Done, Refusal>;

/// The status of an answer that is done; a refusal's is its number.
pub const DONE: u8 = 0;

/// One refusal of a row: given exactly when its condition holds.
pub fn refuse(refusal: Refusal, when: bool) -> Result<(), Refusal> {
    if when {
        Err(refusal)
    } else {
        Ok(())
    }
}

pub fn status(answer: &Answer) -> u8 {
    match answer {
        Ok(_) => DONE,
        Err(refusal) => *refusal as u8,
    }
}

/// The bytes put at the front of the lent buffer.
pub fn bytes(answer: &Answer) -> Vec<u8> {
    let mut bytes = vec![status(answer)];
    match answer {
        Ok(Done::Plain) => {}
        Ok(Done::Value(value)) => bytes.push(*value),
        Ok(Done::Message(message)) => {
            bytes.push(message.len() as u8);
            bytes.extend(message);
        }
        // "A refusal writes its one byte (10 writes none)."
        Err(Refusal::ShortBuffer) => bytes.clear(),
        Err(_) => {}
    }
    bytes
}
