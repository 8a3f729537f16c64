//! The proved library's side: a store, a state, and a call of the archive for each question.
use awirbesh::{ffi, lent, Look, Refusal, State, Step};

use crate::{Entry, Ids, Looked, Numbers, PushedBy, RecoveredBy, Scanned, PAGE};

#[derive(Clone)]
pub struct Ours {
    pub store: Vec<u8>,
    pub state: State,
    out: Vec<u8>,
}

fn said(refusal: Refusal) -> String {
    refusal.to_string()
}

/// Calls with the output buffer, grown to what refusal 10 asks for.
fn with_room<T>(out: &mut Vec<u8>, call: impl Fn(&mut [u8]) -> Result<T, Refusal>) -> Result<T, Refusal> {
    match call(out) {
        Err(Refusal::BufferSmall { needed }) => {
            out.resize(needed as usize, 0);
            call(out)
        }
        answer => answer,
    }
}

fn lookup(store: &[u8], state: State, id: u64, out: &mut Vec<u8>) -> Looked {
    match with_room(out, |out| lent::lookup(store, state, id, out)) {
        Ok(Look::Found { position, length }) => {
            Looked::Found { position, length, data: out[..length as usize].to_vec() }
        }
        Ok(Look::Absent { position }) => Looked::Absent { position },
        Err(refusal) => Looked::Refused(said(refusal)),
    }
}

fn scan(store: &[u8], state: State, ids: Ids, out: &mut Vec<u8>) -> Scanned {
    let range = ffi::Range::of(&ids);
    let mut cursor = match lent::scan(store, state, range) {
        Ok(cursor) => cursor,
        Err(refusal) => return Scanned::Refused(said(refusal)),
    };
    let mut entries = Vec::new();
    loop {
        match with_room(out, |out| lent::step(store, state, range, cursor, out)) {
            Ok(Step::Entry { id, length, cursor: next }) => {
                entries.push((id, out[..length as usize].to_vec()));
                cursor = next;
            }
            Ok(Step::End { .. }) => return Scanned::Entries(entries),
            Err(refusal) => return Scanned::Refused(said(refusal)),
        }
    }
}

impl Ours {
    pub fn with_capacity(bytes: usize) -> Ours {
        Ours { store: vec![0xEE; bytes], state: State::fresh(), out: vec![0; 1 << 15] }
    }

    pub fn numbers(&self) -> Numbers {
        self.state.into()
    }

    pub fn bytes(&self) -> &[u8] {
        &self.store[..self.state.length as usize]
    }

    pub fn lookup(&mut self, id: u64) -> Looked {
        lookup(&self.store, self.state, id, &mut self.out)
    }

    pub fn scan(&mut self, ids: Ids) -> Scanned {
        scan(&self.store, self.state, ids, &mut self.out)
    }

    /// The same in other bytes, of the same length.
    pub fn lookup_in(&mut self, store: &[u8], id: u64) -> Looked {
        lookup(store, self.state, id, &mut self.out)
    }

    pub fn scan_in(&mut self, store: &[u8], ids: Ids) -> Scanned {
        scan(store, self.state, ids, &mut self.out)
    }

    /// Pushes, and says how many entries were written.
    pub fn push(&mut self, batch: &[Entry]) -> (PushedBy, u64) {
        let mut data = Vec::new();
        let mut ends = Vec::new();
        for entry in batch {
            data.extend_from_slice(&entry.data);
            ends.push(data.len() as u64);
        }
        let ids: Vec<u64> = batch.iter().map(|entry| entry.id).collect();
        let pushed = lent::push(&mut self.store, self.state, &ids, &ends, &data);
        assert_eq!(pushed.state.ceiling, self.state.ceiling, "a push moves no ceiling");
        self.state = pushed.state;
        let number = pushed.refusal.map_or(0, Refusal::number);
        (PushedBy::Answered { number, state: self.numbers() }, pushed.written)
    }
}

/// The library's recovery of these bytes with no ceiling stored, as the Rust has none, and the length that its caller
/// cuts the file to.
pub fn recover(bytes: &[u8]) -> RecoveredBy {
    match lent::recover(bytes, bytes.len() as u64, 0) {
        Ok(r) => {
            // So the length says how much of what is gone is excess, and how much was dropped.
            assert!(r.excess < PAGE, "an excess of {}", r.excess);
            assert_eq!(r.state.ceiling, r.state.next, "no id before the ceiling is raised");
            RecoveredBy::At { state: r.state.into(), file: bytes.len() as u64 - r.excess - r.dropped * PAGE }
        }
        Err(refusal) => RecoveredBy::Refused(said(refusal)),
    }
}
