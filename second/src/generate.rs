//! Seeded lists of lines for the line program, in named profiles, to compare two
//! programs with. A list is fixed by its seed and profile. Document 01 says of
//! the cases that are not proved: they "are run and compared with a second
//! program".

mod draft;
mod malformed;
mod passages;
pub mod random;

use crate::kinds::*;
use crate::state::State;
use draft::Draft;
use passages::*;

pub struct Profile {
    pub name: &'static str,
    pub about: &'static str,
    passages: &'static [fn(&mut Draft)],
}

pub const PROFILES: &[Profile] = &[
    Profile {
        name: "mixed",
        about: "all kinds from the fresh state on",
        passages: &[|d| all_kinds(d, 350)],
    },
    Profile {
        name: "principals",
        about: "64 principals, 256 principal links, chains, cycles, removals",
        passages: &[
            few_principals,
            few_threads,
            all_principals,
            chains_and_cycles,
            all_principal_links,
            |d| {
                d.storm(
                    &[NEW_PRINCIPAL, DELEGATE, REVOKE, ACTS_FOR, FORK, CALL],
                    150,
                )
            },
        ],
    },
    Profile {
        name: "links",
        about: "256 principal links with fewer principals",
        passages: &[half_the_principals, all_principal_links, |d| {
            d.storm(&[NEW_PRINCIPAL, DELEGATE, REVOKE, ACTS_FOR, FORK, CALL], 80)
        }],
    },
    Profile {
        name: "tags",
        about: "64 tags, supertags and subtags, and who holds them",
        passages: &[
            few_principals,
            few_threads,
            subtag_of_a_holder,
            all_tags,
            |d| d.storm(&[NEW_TAG, NEW_SUBTAG, GRANT, UNGRANT, AUTHORITATIVE], 150),
        ],
    },
    Profile {
        name: "grants",
        about: "256 tag links, chains of grants, cycles, removals",
        passages: &[
            half_the_principals,
            few_tags,
            few_threads,
            all_tag_links,
            |d| d.storm(&[GRANT, UNGRANT, AUTHORITATIVE, NEW_SUBTAG, GRANT], 150),
        ],
    },
    Profile {
        name: "withdrawals",
        about: "grants cut off and restored, with questions in between",
        passages: &[
            few_of_each,
            cut_and_restored,
            subtag_of_a_holder,
            |d| d.storm(WITHDRAWALS, 120),
            cut_and_restored,
            |d| d.storm(WITHDRAWALS, 120),
        ],
    },
    Profile {
        name: "memory",
        about: "many questions: hits, pairs that fall off, emptied memory",
        passages: &[
            few_principals,
            some_tags,
            few_threads,
            many_questions,
            |d| d.storm(WITHDRAWALS, 40),
            many_questions,
            |d| {
                d.storm(
                    &[
                        GRANT,
                        AUTHORITATIVE,
                        INTO_SECRECY,
                        OUT_OF_SECRECY,
                        NEW_SUBTAG,
                    ],
                    80,
                )
            },
            many_questions,
        ],
    },
    Profile {
        name: "threads",
        about: "16 threads, eight calls and the ninth, ends and forks",
        passages: &[
            few_principals,
            few_tags,
            all_threads,
            deep_calls,
            |d| {
                d.storm(
                    &[FORK, END, CALL, CALL, RETURN, INTO_SECRECY, OUT_OF_SECRECY],
                    120,
                )
            },
            deep_calls,
            |d| d.storm(&[FORK, FORK, CALL, RETURN, AUTHORITATIVE], 60),
            all_end,
        ],
    },
    Profile {
        name: "objects",
        about: "64 objects under many labels, freed and made again",
        passages: &[
            few_of_each,
            |d| d.storm(&[INTO_SECRECY, INTO_INTEGRITY, INTO_INTEGRITY], 12),
            all_objects,
            |d| objects(d, 150),
        ],
    },
    Profile {
        name: "queues",
        about: "cells, queues with eight messages, locks, empty and long messages",
        passages: &[
            few_tags,
            full_queue,
            few_objects,
            |d| objects(d, 100),
            full_queue,
            |d| objects(d, 100),
        ],
    },
    Profile {
        name: "labels",
        about: "threads that take tags in and out, reading and writing under them",
        passages: &[few_of_each, few_objects, |d| labels(d, 250)],
    },
    Profile {
        name: "lines",
        about: "malformed lines of every sort between well-formed ones",
        passages: &[
            few_principals,
            every_malformed_sort,
            few_tags,
            every_malformed_sort,
            few_objects,
            every_malformed_sort,
        ],
    },
    Profile {
        name: "noise",
        about: "frames of any bytes",
        passages: &[noise, few_principals, few_tags, few_objects, noise],
    },
    Profile {
        name: "full",
        about: "all tables full at once, then all kinds",
        passages: &[
            all_principals,
            all_tags,
            all_principal_links,
            all_tag_links,
            all_threads,
            full_queue,
            all_objects,
            deep_calls,
            |d| all_kinds(d, 200),
        ],
    },
    Profile {
        name: "short",
        about: "no line at all, or a few, perhaps to the end of all threads",
        passages: &[|d| match d.random.below(4) {
            0 => all_end(d),
            lines => all_kinds(d, lines - 1),
        }],
    },
];

const WITHDRAWALS: &[u8] = &[
    GRANT,
    GRANT,
    UNGRANT,
    AUTHORITATIVE,
    AUTHORITATIVE,
    DELEGATE,
    REVOKE,
    ACTS_FOR,
    INTO_SECRECY,
    OUT_OF_SECRECY,
    INTO_INTEGRITY,
];

const ON_OBJECTS: &[u8] = &[
    NEW_OBJECT, DELETE, READ_CELL, WRITE_CELL, PUT, GET, LOCK, UNLOCK, SEND_OUT, BRING_IN,
];

const ON_LABELS: &[u8] = &[
    INTO_SECRECY,
    OUT_OF_SECRECY,
    INTO_INTEGRITY,
    OUT_OF_INTEGRITY,
];

fn objects(d: &mut Draft, lines: usize) {
    d.storm(&[ON_OBJECTS, &[PUT], ON_LABELS].concat(), lines);
}

fn labels(d: &mut Draft, lines: usize) {
    let others = [AUTHORITATIVE, FORK, END];
    d.storm(&[ON_OBJECTS, ON_LABELS, &others].concat(), lines);
}

pub fn profile(name: &str) -> Option<&'static Profile> {
    PROFILES.iter().find(|profile| profile.name == name)
}

/// The list of a seed and profile, to the byte.
pub fn generate(seed: u64, profile: &Profile) -> Vec<u8> {
    let mut draft = Draft::new(seed);
    for passage in profile.passages {
        passage(&mut draft);
    }
    draft.finish()
}

/// A well-formed frame of a kind for these tables, with operands from what is there;
/// one that is answered as wished if it can be drawn.
pub fn frame(state: &State, kind: u8, wished: u8, seed: u64) -> Vec<u8> {
    Draft::on(state.clone(), seed).aimed(kind, wished)
}

/// List number `n` of a run: all profiles in turn, each list with its own seed.
pub fn nth(n: u64, seed: u64) -> (u64, &'static Profile) {
    let profile = (n % PROFILES.len() as u64) as usize;
    (seed.wrapping_add(n), &PROFILES[profile])
}
