//! What can be done to a list of links: a damage breaks a rule of 9, or fills places
//! and counts with anything. What it adds stands first, last or anywhere.

use crate::graphs::{number, parts, PLACES, PUBLIC};
use crate::questions::List;
use crate::random::Random;

/// How many there are: 2 to 64 principals, and at most 64 tags.
#[derive(Clone, Copy)]
pub struct Made {
    pub principals: u32,
    pub tags: u32,
}

/// Done to a list, damaged before or not. None if there was nothing to damage.
pub type Damage = fn(&mut Random, &mut List, Made) -> Option<()>;

pub const DAMAGES: &[Damage] = &[
    doubled,
    cycle,
    self_link,
    unmade_end,
    unmade_tag,
    to_the_public,
    count_over_length,
    count_that_lies,
    other_number_of_places,
    unused_place,
    any_numbers,
    any_links,
];

pub fn doubled(random: &mut Random, list: &mut List, _: Made) -> Option<()> {
    let place = random.some(in_use(list))?;
    put(random, list, list.places[place], &[place])
}

/// Follows links onward from one of them to an end, and links that end to the start.
pub fn cycle(random: &mut Random, list: &mut List, _: Made) -> Option<()> {
    let mut path = vec![random.some(in_use(list))?];
    loop {
        let (tag, start, _) = parts(list.places[path[0]]);
        let (_, _, end) = parts(list.places[path[path.len() - 1]]);
        let onward = in_use(list)
            .filter(|place| !path.contains(place))
            .filter(|place| list.places[*place] / 256 == number(tag, end, 0) / 256);
        match random.some(onward) {
            Some(place) => path.push(place),
            None => return put(random, list, number(tag, end, start), &path),
        }
    }
}

pub fn self_link(random: &mut Random, list: &mut List, made: Made) -> Option<()> {
    let p = some_but_public(random, made);
    let link = number(random.some(0..made.tags)?, p, p);
    put(random, list, link, &[])
}

pub fn unmade_end(random: &mut Random, list: &mut List, made: Made) -> Option<()> {
    let unmade = random.some(made.principals..256)?;
    let p = some_but_public(random, made);
    let (from, to) = random.pick(&[(p, unmade), (unmade, p)]);
    let link = number(random.some(0..made.tags)?, from, to);
    put(random, list, link, &[])
}

pub fn unmade_tag(random: &mut Random, list: &mut List, made: Made) -> Option<()> {
    let any = made.tags + random.below(65536 - made.tags);
    let tag = random.pick(&[made.tags, 255, any, 65535]);
    let to = some_but_public(random, made);
    put(random, list, number(tag, PUBLIC, to), &[])
}

pub fn to_the_public(random: &mut Random, list: &mut List, made: Made) -> Option<()> {
    let from = some_but_public(random, made);
    let link = number(random.some(0..made.tags)?, from, PUBLIC);
    put(random, list, link, &[])
}

pub fn count_over_length(random: &mut Random, list: &mut List, _: Made) -> Option<()> {
    list.count = random.pick(&[PLACES + 1, PLACES + 44, 1 << 32, usize::MAX]);
    Some(())
}

/// Where no place is unused, nothing else is wrong then.
pub fn count_over_full(random: &mut Random, list: &mut List, made: Made) -> Option<()> {
    (list.count == PLACES).then_some(())?;
    count_over_length(random, list, made)
}

fn count_that_lies(random: &mut Random, list: &mut List, _: Made) -> Option<()> {
    list.count = random.below(PLACES as u32 + 1) as usize;
    Some(())
}

pub fn other_number_of_places(random: &mut Random, list: &mut List, _: Made) -> Option<()> {
    list.places.resize(random.pick(&[0, 1, 255, 257, 512]), 0);
    Some(())
}

pub fn unused_place(random: &mut Random, list: &mut List, _: Made) -> Option<()> {
    let place = random.some(list.count..list.places.len())?;
    list.places[place] = random.pick(&[1, 256, 65535, 65536, 0xFF_FFFF, u32::MAX]);
    Some(())
}

fn any_numbers(random: &mut Random, list: &mut List, _: Made) -> Option<()> {
    overwrite(random, list, |random| Some(random.draw() as u32))
}

fn any_links(random: &mut Random, list: &mut List, made: Made) -> Option<()> {
    overwrite(random, list, |random| {
        let mut end = || random.below(made.principals);
        let (from, to) = (end(), end());
        Some(number(random.some(0..made.tags)?, from, to))
    })
}

fn some_but_public(random: &mut Random, made: Made) -> u32 {
    1 + random.below(made.principals - 1)
}

/// Fills some of the used places anew.
fn overwrite(
    random: &mut Random,
    list: &mut List,
    fresh: impl Fn(&mut Random) -> Option<u32>,
) -> Option<()> {
    let chances = random.pick(&[1, 2, 8, 64]);
    for place in in_use(list) {
        if random.one_in(chances) {
            list.places[place] = fresh(random)?;
        }
    }
    Some(())
}

/// The numbers of the places in use.
fn in_use(list: &List) -> std::ops::Range<usize> {
    0..list.lent().used().len()
}

/// Puts a link in any place that is not to be kept. If there is room, what stood there
/// goes to the end.
fn put(random: &mut Random, list: &mut List, link: u32, keep: &[usize]) -> Option<()> {
    if list.count < list.places.len() {
        let place = random.some(0..=list.count)?;
        list.places[list.count] = list.places[place];
        list.places[place] = link;
        list.count += 1;
        return Some(());
    }
    let place = random.some(in_use(list).filter(|place| !keep.contains(place)))?;
    list.places[place] = link;
    Some(())
}
