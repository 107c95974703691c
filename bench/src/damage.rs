//! What can be done to lent buffers without an eye to the rules: other numbers, other
//! lengths, any bytes.

use crate::breaks::any_break;
use crate::buffers::raw::{PrincipalLink, TagLink};
use crate::buffers::{fields, Buffers, Field};
use crate::random::Random;

/// Limits, and what lies beside them.
const TELLING: &[u64] = &[
    0, 1, 2, 3, 8, 9, 32, 33, 63, 64, 65, 255, 256, 257, 65535, 65536,
];

/// Lengths of a list: 256 places are right.
const LENGTHS: &[usize] = &[0, 1, 255, 255, 256, 257, 257, 512];

pub fn damage(random: &mut Random, lent: &mut Buffers) {
    match random.below(5) {
        0 | 1 => flip(random, lent),
        2 => resize(random, lent),
        3 => fill(random, lent),
        _ => {
            for _ in 0..2 + random.below(3) {
                // Where there is nothing to break, the others still count.
                let _ = any_break(random).1.apply(random, lent);
            }
        }
    }
}

/// Changes some numbers, mostly one, anywhere.
fn flip(random: &mut Random, lent: &mut Buffers) {
    for _ in 0..random.pick(&[1, 1, 1, 2, 4, 16]) {
        if let Some(mut number) = some_number(random, lent) {
            let other = other_number(random, number.get());
            number.set(other);
        }
    }
}

fn some_number<'a>(random: &mut Random, lent: &'a mut Buffers) -> Option<Field<'a>> {
    match random.below(6) {
        0 => {
            let link = random.place(lent.links.len())?;
            random.some(of_link(&mut lent.links[link]))
        }
        1 => {
            let grant = random.place(lent.grants.len())?;
            random.some(of_grant(&mut lent.grants[grant]))
        }
        2 => {
            let byte = random.place(lent.store.len())?;
            Some(Field::Byte(&mut lent.store[byte]))
        }
        _ => {
            let mut fields = fields(&mut lent.state);
            let any = random.index(&fields);
            Some(fields.swap_remove(any).1)
        }
    }
}

fn of_link(link: &mut PrincipalLink) -> [Field<'_>; 2] {
    [&mut link.from, &mut link.to].map(Field::Byte)
}

fn of_grant(grant: &mut TagLink) -> [Field<'_>; 3] {
    [&mut grant.tag, &mut grant.from, &mut grant.to].map(Field::Byte)
}

/// One bit flipped, one more, one less, or a number of its own.
fn other_number(random: &mut Random, number: u64) -> u64 {
    let (bit, low_bit) = (1 << random.below(64), 1 << random.below(8));
    let (telling, any) = (random.pick(TELLING), random.draw());
    let next = [number.wrapping_add(1), number.wrapping_sub(1)];
    let next = random.pick(&next);
    random.pick(&[number ^ bit, number ^ low_bit, next, telling, any])
}

/// Another length of one of the lists or of the store.
fn resize(random: &mut Random, lent: &mut Buffers) {
    let any = random.draw() as u8;
    let more = random.pick(&[0, 0, 1, any]);
    match random.below(5) {
        0 | 1 => {
            let (from, to) = (more, random.pick(&[0, more]));
            let length = other_length(random);
            lent.links.resize(length, PrincipalLink { from, to });
        }
        2 | 3 => {
            let (tag, from, to) = (more, random.pick(&[0, more]), random.pick(&[0, more]));
            let length = other_length(random);
            lent.grants.resize(length, TagLink { tag, from, to });
        }
        _ => {
            let length = lent.store.len();
            let any = random.below(2 * length as u32 + 1) as usize;
            let near = [0, 1, length.saturating_sub(1), length + 1, 2 * length, any];
            lent.store.resize(random.pick(&near), more);
        }
    }
}

fn other_length(random: &mut Random) -> usize {
    let any = random.below(600) as usize;
    let telling = random.pick(LENGTHS);
    random.pick(&[telling, telling, telling, any])
}

/// Any bytes in some of the buffers, in every place or here and there.
pub fn fill(random: &mut Random, lent: &mut Buffers) {
    let buffers = 1 + random.below(15);
    let mut numbers: Vec<Field> = Vec::new();
    if buffers & 1 != 0 {
        numbers.extend(
            fields(&mut lent.state)
                .into_iter()
                .map(|(_, number)| number),
        );
    }
    if buffers & 2 != 0 {
        numbers.extend(lent.links.iter_mut().flat_map(of_link));
    }
    if buffers & 4 != 0 {
        numbers.extend(lent.grants.iter_mut().flat_map(of_grant));
    }
    if buffers & 8 != 0 {
        numbers.extend(lent.store.iter_mut().map(Field::Byte));
    }
    let chances = random.pick(&[1, 1, 8, 64]);
    for mut number in numbers {
        if random.one_in(chances) {
            number.set(random.draw());
        }
    }
}
