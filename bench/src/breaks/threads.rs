//! Breaks of the rows of threads.

use super::*;
use second::places::{used, ThreadPlace};

pub const WAYS: &[Ways] = &[
    (Rule::PutAsideLimit, &[too_many_aside]),
    (Rule::UnmadeThreadPrincipal, &[unmade_caller]),
    (Rule::UnmadePutAside, &[unmade_aside]),
    (
        Rule::UnmadeInThreadLabel,
        &[unmade_in_secrecy, unmade_in_integrity],
    ),
    (Rule::UnusedThread, &[dead_with_something]),
    (Rule::UnusedPutAside, &[unused_aside]),
    (Rule::FlagLimit, &[live_flag]),
];

fn too_many_aside(random: &mut Random, p: &mut Places) -> Option<()> {
    some_live(random, p)?.put_aside_count = random.pick(&[9, 256, 1 << 32, usize::MAX]);
    Some(())
}

fn unmade_caller(random: &mut Random, p: &mut Places) -> Option<()> {
    let unmade = some_unmade_principal(random, p)?;
    some_live(random, p)?.principal = unmade;
    Some(())
}

fn unmade_aside(random: &mut Random, p: &mut Places) -> Option<()> {
    let unmade = some_unmade_principal(random, p)?;
    let calls = |t: &&mut ThreadPlace| t.live == 1 && t.put_aside_count > 0;
    let thread = random.some(p.threads.iter_mut().filter(calls))?;
    let last = used(&thread.put_aside, thread.put_aside_count).len();
    *random.some(&mut thread.put_aside[..last])? = unmade;
    Some(())
}

fn unmade_in_secrecy(random: &mut Random, p: &mut Places) -> Option<()> {
    let unmade = some_unmade_label(random, p)?;
    some_live(random, p)?.secrecy |= unmade;
    Some(())
}

fn unmade_in_integrity(random: &mut Random, p: &mut Places) -> Option<()> {
    let unmade = some_unmade_label(random, p)?;
    some_live(random, p)?.integrity |= unmade;
    Some(())
}

fn dead_with_something(random: &mut Random, p: &mut Places) -> Option<()> {
    let thread = random.some(p.threads.iter_mut().filter(|t| t.live == 0))?;
    match random.below(5) {
        0 => thread.principal = random.pick(&[OFFICE, Principal(u8::MAX)]),
        1 => thread.secrecy = random.pick(&[1, 1 << 63]),
        2 => thread.integrity = random.pick(&[1, 1 << 63]),
        3 => thread.put_aside_count = random.pick(&[1, 1 << 32]),
        _ => *random.some(&mut thread.put_aside)? = OFFICE,
    }
    Some(())
}

fn unused_aside(random: &mut Random, p: &mut Places) -> Option<()> {
    let room = |t: &&mut ThreadPlace| t.live == 1 && t.put_aside_count < MAX_PUT_ASIDE;
    let thread = random.some(p.threads.iter_mut().filter(room))?;
    let unused = &mut thread.put_aside[thread.put_aside_count..];
    *random.some(unused)? = random.pick(&[OFFICE, Principal(u8::MAX)]);
    Some(())
}

fn live_flag(random: &mut Random, p: &mut Places) -> Option<()> {
    some_live(random, p)?.live = random.pick(&[2, 128, u8::MAX]);
    Some(())
}

fn some_live<'a>(random: &mut Random, p: &'a mut Places) -> Option<&'a mut ThreadPlace> {
    random.some(p.threads.iter_mut().filter(|t| t.live == 1))
}
