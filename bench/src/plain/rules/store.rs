//! The rules of 9 on the store of messages: lengths, and zeros wherever nothing is.

use super::{CELL, QUEUE, QUEUED};
use crate::buffers::raw::ObjectRow;

const MESSAGE: usize = 32;
/// A length byte and room for the longest message.
const PLACE: usize = 1 + MESSAGE;
const PLACES: usize = QUEUED * PLACE;

/// Each object has 8 places, of which it uses the first ones.
pub fn store_holds(rows: &[ObjectRow], store: &[u8]) -> bool {
    store.len() == rows.len() * PLACES
        && rows
            .iter()
            .zip(store.chunks_exact(PLACES))
            .all(|(row, places)| {
                let (used, unused) = places.split_at(messages(row) * PLACE);
                used.chunks_exact(PLACE).all(place_holds) && zero(unused)
            })
}

/// How many messages an object has that is free or holds at most 8.
fn messages(row: &ObjectRow) -> usize {
    match (row.live, row.kind) {
        (1, CELL) => 1,
        (1, QUEUE) => row.held,
        _ => 0,
    }
}

fn place_holds(place: &[u8]) -> bool {
    let (length, bytes) = (usize::from(place[0]), &place[1..]);
    bytes.get(length..).map_or(false, zero)
}

/// The bytes are at most an object's. A comparison reads many of them at once.
fn zero(bytes: &[u8]) -> bool {
    *bytes == [0; PLACES][..bytes.len()]
}
