//! What the tests share: monitors after some requests, tables to lend, the examples of the
//! repository.

use std::fs;
use std::path::{Path, PathBuf};
use suvdorkhun::lend::{self, PrincipalLink, Reply, State, TagLink};
use suvdorkhun::{Monitor, Principal, Tag, Thread};

/// The thread of the office.
pub const OFFICE: Thread = Thread::FIRST;

/// "The line program has M = 8".
pub const MEMORY: usize = 8;

pub fn fresh() -> Monitor {
    Monitor::new(MEMORY).expect("8 is not over 64")
}

/// The office's tag 0, principal 2 and its thread 1.
pub fn two_parties() -> (Monitor, Tag, Principal, Thread) {
    let mut monitor = fresh();
    let tag = monitor.new_tag(OFFICE).expect("the first tag");
    let two = monitor.new_principal(OFFICE).expect("the first new one");
    let thread = monitor.fork(OFFICE, two).expect("the office acts for it");
    (monitor, tag, two, thread)
}

/// Tables that a host lends.
pub struct Lent {
    pub state: State,
    pub links: Vec<PrincipalLink>,
    pub grants: Vec<TagLink>,
    pub store: Vec<u8>,
}

impl Lent {
    /// Lists and a store full of ones before the start, so that what it writes is seen.
    pub fn started(size: usize) -> (Lent, u8) {
        let one = TagLink {
            tag: 1,
            from: 1,
            to: 1,
        };
        let mut state = State::zero();
        let mut links = vec![PrincipalLink { from: 1, to: 1 }; lend::LINKS];
        let mut grants = vec![one; lend::LINKS];
        let mut store = vec![1; lend::STORE];
        let status = lend::start(&mut state, &mut links, &mut grants, &mut store, size);
        let lent = Lent {
            state,
            links,
            grants,
            store,
        };
        (lent, status)
    }

    pub fn fresh() -> Lent {
        Lent::started(MEMORY).0
    }

    pub fn request(&mut self, frame: &[u8], answer: &mut [u8]) -> Reply {
        let (links, grants) = (&mut self.links, &mut self.grants);
        let (state, store) = (&mut self.state, &mut self.store);
        lend::request(state, links, grants, store, frame, answer)
    }
}

/// The request lists of examples/, each with the answers that it must get.
pub fn examples() -> Vec<(PathBuf, Vec<u8>, Vec<u8>)> {
    let directory = Path::new(env!("CARGO_MANIFEST_DIR")).join("../examples");
    let files = fs::read_dir(&directory).expect("the repository has examples");
    let paths = files.map(|file| file.expect("it can be read").path());
    let lists = paths.filter(|path| path.extension().map_or(false, |e| e == "hex"));
    let read = |path: &Path| fs::read(path).expect("it can be read");
    let examples: Vec<_> = lists
        .map(|path| (path.clone(), read(&path), read(&path.with_extension("out"))))
        .collect();
    assert!(examples.len() >= 7);
    examples
}

/// The frames of a list without a malformed line.
pub fn frames(list: &[u8]) -> Vec<Vec<u8>> {
    let digits = |two: &[u8]| std::str::from_utf8(two).expect("digits").to_owned();
    let byte = |two: &[u8]| u8::from_str_radix(&digits(two), 16).expect("digits");
    let frame = |line: &[u8]| line.chunks(2).map(byte).collect();
    let lines = list.split(|b| *b == b'\n').filter(|line| !line.is_empty());
    lines.map(frame).collect()
}
