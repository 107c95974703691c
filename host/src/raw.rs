//! What crosses to the proved library, declared as the library has it: the structs of the
//! state and of the two lists, and the C functions. Every field is a number, so any bytes
//! are a state; tables that break a rule are refused with 9.
//! No compiler checks these declarations against the library: the tests of the layout do.

/// The two labels of a thread or an object. "Label: a set of tags, one 64-bit number per
/// label; tag n has weight 2^n."
#[repr(C)]
#[derive(Clone, Copy, Debug, Default, PartialEq, Eq)]
pub struct LabelPair {
    pub secrecy: u64,
    pub integrity: u64,
}

/// A thread: "Each has a principal, a secrecy label, an integrity label, and up to 8
/// principals put aside by calls". `live` is 1 or 0, and the first `calls` of `aside` are
/// put aside.
#[repr(C)]
#[derive(Clone, Copy, Debug, Default, PartialEq, Eq)]
pub struct ThreadRow {
    pub live: u8,
    pub principal: u8,
    pub labels: LabelPair,
    pub calls: usize,
    pub aside: [u8; 8],
}

/// A tag: its maker, and 1 with its supertag where it is a subtag.
#[repr(C)]
#[derive(Clone, Copy, Debug, Default, PartialEq, Eq)]
pub struct TagRow {
    pub root: u8,
    pub subtag: u8,
    pub supertag: u8,
}

/// An object: `live` is 1 or 0, `kind` 0 cell, 1 queue, 2 lock; how many messages a queue
/// holds; 1 where a lock is held.
#[repr(C)]
#[derive(Clone, Copy, Debug, Default, PartialEq, Eq)]
pub struct ObjectRow {
    pub live: u8,
    pub kind: u8,
    pub held: usize,
    pub locked: u8,
    pub labels: LabelPair,
}

/// All tables but the two lists and the store. The counts say how many of each are made or
/// stand; `kinds` has a row for each tag.
#[repr(C)]
#[derive(Clone, Copy, Debug, PartialEq, Eq)]
pub struct Tables {
    pub principals: u32,
    pub links: usize,
    pub tags: u32,
    pub grants: usize,
    pub threads: [ThreadRow; 16],
    pub kinds: [TagRow; 64],
    pub objects: [ObjectRow; 64],
}

/// The remembered answers: the first `held` of `pairs`, each principal * 256 + tag.
#[repr(C)]
#[derive(Clone, Copy, Debug, PartialEq, Eq)]
pub struct Memory {
    pub size: usize,
    pub held: usize,
    pub pairs: [u32; 64],
    pub questions: u32,
    pub hits: u32,
}

/// What goes from one request to the next, beside the lists and the store.
#[repr(C)]
#[derive(Clone, Copy, Debug, PartialEq, Eq)]
pub struct State {
    pub tables: Tables,
    pub memory: Memory,
}

/// A link of principals: `to` acts for `from`.
#[repr(C)]
#[derive(Clone, Copy, Debug, Default, PartialEq, Eq)]
pub struct PrincipalLink {
    pub from: u8,
    pub to: u8,
}

/// A link of a tag: `from` has granted it to `to`.
#[repr(C)]
#[derive(Clone, Copy, Debug, Default, PartialEq, Eq)]
pub struct TagLink {
    pub tag: u8,
    pub from: u8,
    pub to: u8,
}

/// What a request gives back: 0 or its refusal, and how many bytes of the answer buffer
/// were written.
#[repr(C)]
#[derive(Clone, Copy, Debug, PartialEq, Eq)]
pub struct Reply {
    pub status: u8,
    pub written: usize,
}

/// What a list of lines gives back: 0, or 11 where the memory size was over 64; 1 where all
/// of it was answered; how much was read and written.
#[repr(C)]
#[derive(Clone, Copy, Debug, PartialEq, Eq)]
pub struct Ran {
    pub status: u8,
    pub complete: u8,
    pub read: usize,
    pub written: usize,
}

#[link(name = "suvdorkhun_c", kind = "static")]
extern "C" {
    /// The fresh state with this memory size; the lent lists and store become zero.
    /// 0, or 11 where the size is over 64; the size is then 0.
    pub fn suvdorkhun_start(
        state: *mut State,
        links: *mut PrincipalLink,
        links_len: usize,
        grants: *mut TagLink,
        grants_len: usize,
        store: *mut u8,
        store_len: usize,
        size: usize,
    ) -> u8;

    /// One request.
    pub fn suvdorkhun_request(
        state: *mut State,
        links: *mut PrincipalLink,
        links_len: usize,
        grants: *mut TagLink,
        grants_len: usize,
        store: *mut u8,
        store_len: usize,
        frame: *const u8,
        frame_len: usize,
        answer: *mut u8,
        answer_len: usize,
    ) -> Reply;

    /// Forgets the remembered answers; the two counters stay.
    pub fn suvdorkhun_clear(state: *mut State);

    /// Answers a list of lines from the fresh state.
    pub fn suvdorkhun_run(
        size: usize,
        store: *mut u8,
        store_len: usize,
        input: *const u8,
        input_len: usize,
        out: *mut u8,
        out_len: usize,
    ) -> Ran;

    /// How many bytes a State has.
    pub fn suvdorkhun_state_size() -> usize;
}
