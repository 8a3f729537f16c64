//! The archive's functions, declared once. `include/awirbesh.h` says the same in C, with what each number
//! means; everything else in this crate is safe and goes through here.
//!
//! What a caller owes is what a Rust reference promises anyway: valid, aligned, not null, and nothing that is
//! written to is also reachable by another argument.

/// The log's four numbers: bytes of the store that are the log, last written id, next id to hand out, and the ceiling
/// below which ids are handed out.
#[repr(C)]
#[derive(Clone, Copy, Debug, PartialEq, Eq, Hash)]
pub struct State {
    pub length: u64,
    pub last: u64,
    pub next: u64,
    pub ceiling: u64,
}

pub const OPEN: u64 = 0;
pub const INCLUDED: u64 = 1;
pub const EXCLUDED: u64 = 2;

/// One end of a range; a kind that is neither [`INCLUDED`] nor [`EXCLUDED`] is open.
#[repr(C)]
#[derive(Clone, Copy, Debug, PartialEq, Eq)]
pub struct End {
    pub kind: u64,
    pub id: u64,
}

#[repr(C)]
#[derive(Clone, Copy, Debug, PartialEq, Eq)]
pub struct Range {
    pub lower: End,
    pub upper: End,
}

#[repr(C)]
#[derive(Clone, Copy, Debug, PartialEq, Eq)]
pub struct Sequence {
    pub start: u64,
    pub after: u64,
}

#[repr(C)]
#[derive(Clone, Copy, Debug, PartialEq, Eq)]
pub struct Taken {
    pub number: u64,
    pub id: u64,
    pub state: State,
}

#[repr(C)]
#[derive(Clone, Copy, Debug, PartialEq, Eq)]
pub struct Raised {
    pub number: u64,
    pub state: State,
}

#[repr(C)]
#[derive(Clone, Copy, Debug, PartialEq, Eq)]
pub struct Checked {
    pub number: u64,
    pub value: u64,
}

#[repr(C)]
#[derive(Clone, Copy, Debug, PartialEq, Eq)]
pub struct Recovered {
    pub number: u64,
    pub value: u64,
    pub excess: u64,
    pub dropped: u64,
    pub state: State,
}

#[repr(C)]
#[derive(Clone, Copy, Debug, PartialEq, Eq)]
pub struct Look {
    pub number: u64,
    pub value: u64,
    pub found: u64,
    pub position: u64,
    pub length: u64,
}

#[repr(C)]
#[derive(Clone, Copy, Debug, PartialEq, Eq)]
pub struct Started {
    pub number: u64,
    pub value: u64,
    pub cursor: u64,
}

/// The `kind` of a step that hands an entry over; 0 is the log's end.
pub const ENTRY: u64 = 1;

#[repr(C)]
#[derive(Clone, Copy, Debug, PartialEq, Eq)]
pub struct Stepped {
    pub number: u64,
    pub value: u64,
    pub kind: u64,
    pub id: u64,
    pub length: u64,
    pub cursor: u64,
}

#[repr(C)]
#[derive(Clone, Copy, Debug, PartialEq, Eq)]
pub struct Pushed {
    pub number: u64,
    pub written: u64,
    pub state: State,
}

#[repr(C)]
#[derive(Clone, Copy, Debug, PartialEq, Eq)]
pub struct Noted {
    pub number: u64,
    pub sequence: Sequence,
}

extern "C" {
    pub fn awirbesh_fresh() -> State;
    pub fn awirbesh_take(state: State) -> Taken;
    pub fn awirbesh_raise(state: State, step: u64) -> Raised;
    pub fn awirbesh_check(store: *const u8, store_len: usize, length: u64) -> Checked;
    pub fn awirbesh_recover(store: *const u8, store_len: usize, length: u64, stored: u64) -> Recovered;
    pub fn awirbesh_find(store: *const u8, store_len: usize, state: State, id: u64) -> Look;
    pub fn awirbesh_lookup(
        store: *const u8,
        store_len: usize,
        state: State,
        id: u64,
        out: *mut u8,
        out_len: usize,
    ) -> Look;
    pub fn awirbesh_scan(store: *const u8, store_len: usize, state: State, range: Range) -> Started;
    pub fn awirbesh_step(
        store: *const u8,
        store_len: usize,
        state: State,
        range: Range,
        cursor: u64,
        out: *mut u8,
        out_len: usize,
    ) -> Stepped;
    pub fn awirbesh_push(
        store: *mut u8,
        store_len: usize,
        state: State,
        ids: *const u64,
        ids_len: usize,
        ends: *const u64,
        ends_len: usize,
        data: *const u8,
        data_len: usize,
    ) -> Pushed;
    pub fn awirbesh_sequence_new(start: u64) -> Sequence;
    pub fn awirbesh_sequence_note(words: *mut u64, sequence: Sequence, id: u64) -> Noted;
    pub fn awirbesh_sequence_complete(sequence: Sequence) -> u64;
}
