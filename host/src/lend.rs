//! The monitor over tables that the caller lends: safe functions over references and
//! slices of any length and content. Tables that break a rule are refused 9, lists of
//! other than [`LINKS`] places and a store of other than [`STORE`] bytes among them, and
//! an answer buffer of fewer than [`ANSWER`] bytes is refused 10.
//!
//! All unsafe code of this crate is in this file. Its calls are sound for the same reasons:
//! a pointer and a length come from one reference or slice, which is borrowed for the call;
//! what may be written is borrowed for this call alone, so that no two of them overlap; every
//! field is a number, so that whatever is written there is a value of its type; and the
//! library keeps no pointer.
//!
//! ```
//! use suvdorkhun::lend::{self, PrincipalLink, State, TagLink};
//!
//! let mut state = State::zero();
//! let mut links = [PrincipalLink::default(); lend::LINKS];
//! let mut grants = [TagLink::default(); lend::LINKS];
//! let mut store = [0; lend::STORE];
//! assert_eq!(lend::start(&mut state, &mut links, &mut grants, &mut store, 8), 0);
//!
//! // Thread 0 asks for a new principal, kind 01: done, and it is 2.
//! let mut answer = [0; lend::ANSWER];
//! let frame = [0x00, 0x01];
//! let reply = lend::request(&mut state, &mut links, &mut grants, &mut store, &frame, &mut answer);
//! assert_eq!((reply.status, &answer[..reply.written]), (0, &[0, 2][..]));
//! ```

use crate::raw;
pub use crate::raw::{
    LabelPair, Memory, ObjectRow, PrincipalLink, Ran, Reply, State, Tables, TagLink, TagRow,
    ThreadRow,
};

/// The places of a lent list of links.
pub const LINKS: usize = 256;

/// The bytes of the lent store: for each of 64 objects the 8 messages of a queue, each a
/// length byte and room for 32.
pub const STORE: usize = 64 * 8 * 33;

/// The bytes of the longest answer: a status, a length byte and 32.
pub const ANSWER: usize = 34;

impl State {
    /// All numbers 0: what to declare before [`start`]. It is not the fresh state, and a
    /// request on it is refused 9.
    pub fn zero() -> State {
        State {
            tables: Tables {
                principals: 0,
                links: 0,
                tags: 0,
                grants: 0,
                threads: [ThreadRow::default(); 16],
                kinds: [TagRow::default(); 64],
                objects: [ObjectRow::default(); 64],
            },
            memory: Memory {
                size: 0,
                held: 0,
                pairs: [0; 64],
                questions: 0,
                hits: 0,
            },
        }
    }
}

/// The fresh state with this memory size; the lists and the store become zero. Gives 0, or
/// 11 where the size is over 64, and then the fresh state has size 0.
pub fn start(
    state: &mut State,
    links: &mut [PrincipalLink],
    grants: &mut [TagLink],
    store: &mut [u8],
    size: usize,
) -> u8 {
    // SAFETY: as said above; all four are borrowed for this call alone.
    unsafe {
        raw::suvdorkhun_start(
            state,
            links.as_mut_ptr(),
            links.len(),
            grants.as_mut_ptr(),
            grants.len(),
            store.as_mut_ptr(),
            store.len(),
            size,
        )
    }
}

/// One request. The answer is put at the front of the buffer; the rest of it stays.
pub fn request(
    state: &mut State,
    links: &mut [PrincipalLink],
    grants: &mut [TagLink],
    store: &mut [u8],
    frame: &[u8],
    answer: &mut [u8],
) -> Reply {
    // SAFETY: as said above; the frame is only read, and all others are borrowed for this
    // call alone.
    unsafe {
        raw::suvdorkhun_request(
            state,
            links.as_mut_ptr(),
            links.len(),
            grants.as_mut_ptr(),
            grants.len(),
            store.as_mut_ptr(),
            store.len(),
            frame.as_ptr(),
            frame.len(),
            answer.as_mut_ptr(),
            answer.len(),
        )
    }
}

/// "The host may clear the memory between requests; this leaves the counters."
pub fn clear(state: &mut State) {
    // SAFETY: as said above; the state is borrowed for this call alone.
    unsafe { raw::suvdorkhun_clear(state) }
}

/// Answers a list of lines from the fresh state. Where the output has no room for all of it,
/// the list is not complete.
pub fn run(size: usize, store: &mut [u8], input: &[u8], out: &mut [u8]) -> Ran {
    // SAFETY: as said above; the input is only read, and the others are borrowed for this
    // call alone.
    unsafe {
        raw::suvdorkhun_run(
            size,
            store.as_mut_ptr(),
            store.len(),
            input.as_ptr(),
            input.len(),
            out.as_mut_ptr(),
            out.len(),
        )
    }
}

/// How many bytes a [`State`] has in the library.
pub fn state_size() -> usize {
    // SAFETY: it takes nothing and changes nothing.
    unsafe { raw::suvdorkhun_state_size() }
}
