//! The proved log and nebari's Rust on the same inputs.
//!
//! [`Pair`] holds both sides of one log and compares them call by call. What the entries really are is known from
//! what was pushed, so each comparison is of three: the truth, the proved library, which must give the truth always,
//! and the Rust, which may depart only by a [`Departure`], an entry of docs/DIFFERENCES.md.
pub mod chance;
pub mod departures;
pub mod layout;
pub mod ours;
pub mod pair;
pub mod replay;
pub mod rust;
pub mod tally;

use std::ops::Bound;

use awirbesh::State;
pub use departures::Departure;
pub use pair::Pair;
pub use tally::Tally;

pub const PAGE: u64 = 1024;

/// Bytes of data that refusal 3 meets: with the id they are 2^24. One less is written, one more is refused with 16.
pub const TOO_LARGE: usize = (1 << 24) - 8;

/// The numbers of a state that both sides have. The Rust has no ceiling: ours is tested where the library answers it.
#[derive(Clone, Copy, Debug, PartialEq, Eq)]
pub struct Numbers {
    pub length: u64,
    pub last: u64,
    pub next: u64,
}

impl Numbers {
    pub const FRESH: Numbers = Numbers { length: 0, last: 0, next: 1 };
}

impl From<State> for Numbers {
    fn from(State { length, last, next, .. }: State) -> Numbers {
        Numbers { length, last, next }
    }
}

/// An entry to push.
#[derive(Clone, Debug, PartialEq, Eq)]
pub struct Entry {
    pub id: u64,
    pub data: Vec<u8>,
}

/// An entry of a log, with the pages that it takes.
#[derive(Clone, Debug, PartialEq, Eq)]
pub struct Held {
    pub id: u64,
    pub page: u64,
    pub pages: u64,
    pub data: Vec<u8>,
}

/// What a lookup answers, on either side. The length is the data's, so the Rust's less 8.
#[derive(Clone, Debug, PartialEq, Eq)]
pub enum Looked {
    Found {
        position: u64,
        length: u64,
        data: Vec<u8>,
    },
    Absent {
        position: u64,
    },
    /// A refusal here, an error there.
    Refused(String),
    Panicked(String),
}

/// What a scan hands over, on either side.
#[derive(Clone, Debug, PartialEq, Eq)]
pub enum Scanned {
    Entries(Vec<(u64, Vec<u8>)>),
    Refused(String),
    Panicked(String),
}

/// A push: the state that it found, its batch, and how many of the entries it wrote.
#[derive(Clone, Copy)]
pub struct Push<'a> {
    pub before: Numbers,
    pub batch: &'a [Entry],
    pub count: usize,
}

impl<'a> Push<'a> {
    pub fn written(&self) -> &'a [Entry] {
        &self.batch[..self.count]
    }

    /// The entry that a refusal met, if the batch goes on after the written ones.
    pub fn refused(&self) -> Option<&'a Entry> {
        self.batch.get(self.count)
    }

    /// What the rules say of the state: length and last written move by the written entries alone (docs/RULES.md 4.3).
    pub fn state_after(&self) -> Numbers {
        let pages: u64 = self.written().iter().map(layout::count).sum();
        Numbers {
            length: self.before.length + pages * PAGE,
            last: self.written().last().map_or(self.before.last, |entry| entry.id),
            next: self.before.next,
        }
    }
}

/// What a push did, on either side: 0 or the refusal's number, and the state after it.
#[derive(Clone, Debug, PartialEq, Eq)]
pub enum PushedBy {
    Answered { number: u64, state: Numbers },
    Panicked(String),
}

/// What a recovery found, on either side.
#[derive(Clone, Debug, PartialEq, Eq)]
pub enum RecoveredBy {
    /// The state, and the bytes that the file has after it.
    At {
        state: Numbers,
        file: u64,
    },
    Refused(String),
    /// What it said, and the bytes that the file then has.
    Panicked {
        text: String,
        file: u64,
    },
}

pub type Ids = (Bound<u64>, Bound<u64>);
