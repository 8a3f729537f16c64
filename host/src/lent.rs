//! The library's operations over memory that the caller lends: safe, no allocation, one call of the archive each.
use std::ops::{Bound, RangeBounds};

use crate::{
    ffi::{self, State},
    Refusal,
};

impl State {
    /// The state of an empty log: 0, 0, 1, 1. No id is below its ceiling: [`State::raise`] comes before the first take.
    pub fn fresh() -> State {
        unsafe { ffi::awirbesh_fresh() }
    }

    /// Hands out the next id and moves `next`. At the ceiling it is refused with [`Refusal::CeilingReached`].
    pub fn take(&mut self) -> Result<u64, Refusal> {
        let taken = unsafe { ffi::awirbesh_take(*self) };
        *self = taken.state;
        Refusal::test(taken.number, 0).map(|()| taken.id)
    }

    /// Raises the ceiling by a step from 1 to 2^32, and says what it is now. Where ids are to stay used across a
    /// restart it is stored before an id is taken, and [`recover`] is given it then. A state is `Copy`: raise a copy,
    /// store its ceiling, and go on with it once that is done.
    pub fn raise(&mut self, step: u64) -> Result<u64, Refusal> {
        let raised = unsafe { ffi::awirbesh_raise(*self, step) };
        *self = raised.state;
        Refusal::test(raised.number, 0).map(|()| raised.state.ceiling)
    }
}

/// Whether the log in the first `length` bytes of the store is sound; reads all of it.
pub fn check(store: &[u8], length: u64) -> Result<(), Refusal> {
    let checked = unsafe { ffi::awirbesh_check(store.as_ptr(), store.len(), length) };
    Refusal::test(checked.number, checked.value)
}

/// What a recovery found: the state to go on with; the bytes of a part page, and before them the whole pages of an
/// entry that a crash cut short, which the log ends before.
#[derive(Clone, Copy, Debug, PartialEq, Eq)]
pub struct Recovered {
    pub state: State,
    pub excess: u64,
    pub dropped: u64,
}

/// The state of the log in the first `length` bytes of the store, by its last whole entry and the ceiling that was
/// stored: no id below that is handed out any more, nor any before the ceiling is raised. With 0, or an older one, ids
/// that were handed out and are not in the log may be handed out again.
pub fn recover(store: &[u8], length: u64, stored: u64) -> Result<Recovered, Refusal> {
    let r = unsafe { ffi::awirbesh_recover(store.as_ptr(), store.len(), length, stored) };
    Refusal::test(r.number, r.value).map(|()| Recovered { state: r.state, excess: r.excess, dropped: r.dropped })
}

/// Where an id is, or where it would be.
#[derive(Clone, Copy, Debug, PartialEq, Eq)]
pub enum Look {
    Found { position: u64, length: u64 },
    Absent { position: u64 },
}

impl Look {
    fn of(look: ffi::Look) -> Result<Look, Refusal> {
        Refusal::test(look.number, look.value).map(|()| match look.found {
            0 => Look::Absent { position: look.position },
            _ => Look::Found { position: look.position, length: look.length },
        })
    }
}

/// Looks an id up and copies nothing, so that no buffer is too small.
pub fn find(store: &[u8], state: State, id: u64) -> Result<Look, Refusal> {
    Look::of(unsafe { ffi::awirbesh_find(store.as_ptr(), store.len(), state, id) })
}

/// Looks an id up and copies its data to the front of `out`.
pub fn lookup(store: &[u8], state: State, id: u64, out: &mut [u8]) -> Result<Look, Refusal> {
    Look::of(unsafe { ffi::awirbesh_lookup(store.as_ptr(), store.len(), state, id, out.as_mut_ptr(), out.len()) })
}

impl ffi::Range {
    /// Any Rust range of ids.
    pub fn of(ids: &impl RangeBounds<u64>) -> ffi::Range {
        ffi::Range { lower: ffi::End::of(ids.start_bound()), upper: ffi::End::of(ids.end_bound()) }
    }
}

impl ffi::End {
    fn of(bound: Bound<&u64>) -> ffi::End {
        match bound {
            Bound::Unbounded => ffi::End { kind: ffi::OPEN, id: 0 },
            Bound::Included(&id) => ffi::End { kind: ffi::INCLUDED, id },
            Bound::Excluded(&id) => ffi::End { kind: ffi::EXCLUDED, id },
        }
    }
}

/// The cursor at which a scan of the range starts.
pub fn scan(store: &[u8], state: State, range: ffi::Range) -> Result<u64, Refusal> {
    let started = unsafe { ffi::awirbesh_scan(store.as_ptr(), store.len(), state, range) };
    Refusal::test(started.number, started.value).map(|()| started.cursor)
}

/// What a step of a scan hands over; its data is in the front of `out`.
#[derive(Clone, Copy, Debug, PartialEq, Eq)]
pub enum Step {
    Entry { id: u64, length: u64, cursor: u64 },
    End { cursor: u64 },
}

/// The next entry of the range from the cursor on.
pub fn step(store: &[u8], state: State, range: ffi::Range, cursor: u64, out: &mut [u8]) -> Result<Step, Refusal> {
    let s =
        unsafe { ffi::awirbesh_step(store.as_ptr(), store.len(), state, range, cursor, out.as_mut_ptr(), out.len()) };
    Refusal::test(s.number, s.value).map(|()| match s.kind {
        ffi::ENTRY => Step::Entry { id: s.id, length: s.length, cursor: s.cursor },
        _ => Step::End { cursor: s.cursor },
    })
}

/// What a push did: how many entries of the batch it wrote, the state after, and the refusal that ended it.
#[derive(Clone, Copy, Debug, PartialEq, Eq)]
pub struct Pushed {
    pub refusal: Option<Refusal>,
    pub written: u64,
    pub state: State,
}

/// Appends a batch: entry i has id `ids[i]` and the data from `ends[i - 1]`, or 0, to `ends[i]` of `data`. After n were
/// written the rest is `&ids[n..]`, `&data[ends[n - 1]..]`, and the ends from n on, each less `ends[n - 1]`.
pub fn push(store: &mut [u8], state: State, ids: &[u64], ends: &[u64], data: &[u8]) -> Pushed {
    let p = unsafe {
        ffi::awirbesh_push(
            store.as_mut_ptr(),
            store.len(),
            state,
            ids.as_ptr(),
            ids.len(),
            ends.as_ptr(),
            ends.len(),
            data.as_ptr(),
            data.len(),
        )
    };
    Pushed { refusal: Refusal::from_answer(p.number, 0), written: p.written, state: p.state }
}
