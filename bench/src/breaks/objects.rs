//! Breaks of the rows of objects and of the store of messages.

use super::*;
use second::places::{ObjectPlace, MESSAGE_PLACE, MESSAGE_STORE, OBJECT_MESSAGES};
use second::state::ObjectKind;

pub const WAYS: &[Ways] = &[
    (Rule::QueueLimit, &[too_many_messages]),
    (
        Rule::UnmadeInObjectLabel,
        &[unmade_in_secrecy, unmade_in_integrity],
    ),
    (Rule::FlagLimit, &[live_flag, lock_flag]),
    (Rule::ObjectKindLimit, &[unknown_kind]),
    (Rule::UnusedObject, &[freed_with_something]),
    (
        Rule::UnusedObjectField,
        &[messages_of_no_queue, lock_of_no_lock],
    ),
    (Rule::MessageLimit, &[too_long_message]),
    (Rule::MessageStorePlaces, &[other_store]),
    (Rule::UnusedMessage, &[unused_message]),
    (Rule::UnusedMessageBytes, &[bytes_past_length]),
];

fn too_many_messages(random: &mut Random, p: &mut Places) -> Option<()> {
    let is_queue = |o: &ObjectPlace| is(o, ObjectKind::Queue);
    some_where(random, p, is_queue)?.held = random.pick(&[9, 10, 256, 1 << 32, usize::MAX]);
    Some(())
}

fn live_flag(random: &mut Random, p: &mut Places) -> Option<()> {
    some_object(random, p, 1)?.live = random.pick(&[2, 128, u8::MAX]);
    Some(())
}

fn lock_flag(random: &mut Random, p: &mut Places) -> Option<()> {
    let is_lock = |o: &ObjectPlace| is(o, ObjectKind::Lock);
    some_where(random, p, is_lock)?.locked = random.pick(&[2, 128, u8::MAX]);
    Some(())
}

fn unknown_kind(random: &mut Random, p: &mut Places) -> Option<()> {
    some_object(random, p, 1)?.kind = random.pick(&[3, 128, u8::MAX]);
    Some(())
}

fn messages_of_no_queue(random: &mut Random, p: &mut Places) -> Option<()> {
    let is_no_queue = |o: &ObjectPlace| !is(o, ObjectKind::Queue);
    some_where(random, p, is_no_queue)?.held = random.pick(&[1, 8, 9, usize::MAX]);
    Some(())
}

fn lock_of_no_lock(random: &mut Random, p: &mut Places) -> Option<()> {
    let is_no_lock = |o: &ObjectPlace| !is(o, ObjectKind::Lock);
    some_where(random, p, is_no_lock)?.locked = 1;
    Some(())
}

fn unmade_in_secrecy(random: &mut Random, p: &mut Places) -> Option<()> {
    let unmade = some_unmade_label(random, p)?;
    some_object(random, p, 1)?.secrecy |= unmade;
    Some(())
}

fn unmade_in_integrity(random: &mut Random, p: &mut Places) -> Option<()> {
    let unmade = some_unmade_label(random, p)?;
    some_object(random, p, 1)?.integrity |= unmade;
    Some(())
}

fn freed_with_something(random: &mut Random, p: &mut Places) -> Option<()> {
    let tag = random.some(0..64)?;
    let object = some_object(random, p, 0)?;
    match random.below(5) {
        0 => object.kind = random.pick(&[1, 2, 3, u8::MAX]),
        1 => object.held = random.pick(&[1, usize::MAX]),
        2 => object.locked = random.pick(&[1, u8::MAX]),
        3 => object.secrecy = 1 << tag,
        _ => object.integrity = 1 << tag,
    }
    Some(())
}

fn some_object<'a>(
    random: &mut Random,
    p: &'a mut Places,
    live: u8,
) -> Option<&'a mut ObjectPlace> {
    random.some(p.objects.iter_mut().filter(|o| o.live == live))
}

/// Some live object that meets a condition.
fn some_where<'a>(
    random: &mut Random,
    p: &'a mut Places,
    condition: fn(&ObjectPlace) -> bool,
) -> Option<&'a mut ObjectPlace> {
    let live = p.objects.iter_mut().filter(|o| o.live == 1);
    random.some(live.filter(|o| condition(o)))
}

fn is(o: &ObjectPlace, kind: ObjectKind) -> bool {
    o.kind == kind as u8
}

fn too_long_message(random: &mut Random, p: &mut Places) -> Option<()> {
    let message = random.some(messages(p, true))?;
    message[0] = random.pick(&[33, 64, 128, u8::MAX]);
    Some(())
}

fn other_store(random: &mut Random, p: &mut Places) -> Option<()> {
    let places = [1, MESSAGE_PLACE, OBJECT_MESSAGES, MESSAGE_STORE];
    let other = random.pick(&places);
    let length = random.pick(&[MESSAGE_STORE - other, MESSAGE_STORE + other]);
    p.messages.resize(length, 0);
    Some(())
}

fn unused_message(random: &mut Random, p: &mut Places) -> Option<()> {
    let message = random.some(messages(p, false))?;
    *random.some(message)? = random.pick(&[1, 128, u8::MAX]);
    Some(())
}

fn bytes_past_length(random: &mut Random, p: &mut Places) -> Option<()> {
    let short = messages(p, true).filter(|m| usize::from(m[0]) < MAX_MESSAGE);
    let message = random.some(short)?;
    let unused = 1 + usize::from(message[0]);
    *random.some(&mut message[unused..])? = random.pick(&[1, 128, u8::MAX]);
    Some(())
}

/// The message places that are in use, or those that are not.
fn messages(p: &mut Places, in_use: bool) -> impl Iterator<Item = &mut [u8]> {
    let owners = p.objects.iter().flat_map(|o| {
        let held = held(o);
        (0..MAX_QUEUE).map(move |n| n < held)
    });
    let places = owners.zip(p.messages.chunks_exact_mut(MESSAGE_PLACE));
    places
        .filter(move |(used, _)| *used == in_use)
        .map(|(_, place)| place)
}

/// A cell holds one message.
fn held(o: &ObjectPlace) -> usize {
    let cell = o.live == 1 && is(o, ObjectKind::Cell);
    o.held.saturating_add(usize::from(cell))
}
