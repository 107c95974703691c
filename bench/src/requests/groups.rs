//! The groups of kinds, and a list of requests for each in which every kind stands once.
//! A list leaves the tables as they were: it puts back what it takes away, or is refused.

use super::tables::*;
use crate::passes::Frame;
use second::authority::{Link, TagLink};
use second::kinds;
use second::state::ObjectKind;
use second::things::{Thread, LABEL_BYTES, OFFICE};

pub struct Group {
    pub name: &'static str,
    pub frames: fn(&Tables) -> Vec<Frame>,
}

pub const GROUPS: [Group; 5] = [
    Group {
        name: "authority",
        frames: authority,
    },
    Group {
        name: "labels",
        frames: labels,
    },
    Group {
        name: "threads",
        frames: threads,
    },
    Group {
        name: "objects",
        frames: objects,
    },
    Group {
        name: "outside",
        frames: outside,
    },
];

/// "A frame is thread byte, kind byte, operands."
fn frame(t: Thread, kind: u8, operands: &[u8]) -> Frame {
    [&[t.0, kind], operands].concat()
}

/// 01 to 09. The public makes nothing and is authoritative for nothing.
fn authority(tables: &Tables) -> Vec<Frame> {
    let Link { from, to } = tables.link;
    let TagLink { tag, link } = tables.tag_link;
    let ends = [from.0, to.0];
    let tag_ends = [tag.0, link.from.0, link.to.0];
    vec![
        frame(OFFICES, kinds::REVOKE, &ends),
        frame(OFFICES, kinds::DELEGATE, &ends),
        frame(OFFICES, kinds::UNGRANT, &tag_ends),
        frame(OFFICES, kinds::GRANT, &tag_ends),
        frame(OFFICES, kinds::ACTS_FOR, &[OFFICE.0, tables.head.0]),
        frame(PUBLICS, kinds::NEW_PRINCIPAL, &[]),
        frame(PUBLICS, kinds::NEW_TAG, &[]),
        frame(PUBLICS, kinds::NEW_SUBTAG, &[TAG.0]),
        frame(PUBLICS, kinds::AUTHORITATIVE, &[TAG.0]),
    ]
}

/// 0A to 0D.
fn labels(_: &Tables) -> Vec<Frame> {
    let kinds = [
        kinds::INTO_SECRECY,
        kinds::OUT_OF_SECRECY,
        kinds::INTO_INTEGRITY,
        kinds::OUT_OF_INTEGRITY,
    ];
    kinds.map(|kind| frame(OFFICES, kind, &[TAG.0])).to_vec()
}

/// 0E to 11. The fork takes the number of the thread that has ended.
fn threads(tables: &Tables) -> Vec<Frame> {
    let head = [tables.head.0];
    vec![
        frame(tables.thread, kinds::END, &[]),
        frame(OFFICES, kinds::FORK, &head),
        frame(OFFICES, kinds::CALL, &head),
        frame(OFFICES, kinds::RETURN, &[]),
    ]
}

/// 12 to 19. The new object takes the number of the one that was deleted.
fn objects(tables: &Tables) -> Vec<Frame> {
    let cell = ObjectKind::Cell as u8;
    let new = [&[cell][..], &[0; LABEL_BYTES], &[0; LABEL_BYTES]].concat();
    vec![
        frame(OFFICES, kinds::DELETE, &[tables.object.0]),
        frame(OFFICES, kinds::NEW_OBJECT, &new),
        frame(OFFICES, kinds::READ_CELL, &[CELL.0]),
        frame(OFFICES, kinds::WRITE_CELL, &with_message(&[CELL.0])),
        frame(OFFICES, kinds::PUT, &with_message(&[QUEUE.0])),
        frame(OFFICES, kinds::GET, &[QUEUE.0]),
        frame(OFFICES, kinds::LOCK, &[LOCK.0]),
        frame(OFFICES, kinds::UNLOCK, &[LOCK.0]),
    ]
}

/// 1A and 1B.
fn outside(_: &Tables) -> Vec<Frame> {
    let message = with_message(&[]);
    [kinds::SEND_OUT, kinds::BRING_IN]
        .map(|kind| frame(OFFICES, kind, &message))
        .to_vec()
}

/// "A message operand is a length byte and that many bytes."
fn with_message(operands: &[u8]) -> Vec<u8> {
    [operands, &[MESSAGE.len() as u8], &MESSAGE].concat()
}
