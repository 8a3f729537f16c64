//! A transaction log of entries with ascending ids, for planners that are written in Rust.
//!
//! Every decision, which bytes a push writes, where an entry is, what is refused, is made by proved code that
//! this crate links as an archive. The crate adds what a host has and the library has not: owned memory, files,
//! iterators and errors.
//!
//! - [`LogFile`]: a log in a file, synced after each push; one that a crash tore is opened by its last whole entry. An
//!   id that was handed out is not handed out again, also not after a restart: beside the log a file keeps the ceiling.
//! - [`Log`]: a log in memory.
//! - [`IdSequence`]: when no earlier id is still out.
//! - [`lent`]: the same operations over memory that the caller lends, with no allocation.
//! - [`ffi`]: the archive's functions as they are.
mod ceiling;
#[cfg(test)]
mod crashes;
mod disk;
pub mod ffi;
mod file;
pub mod lent;
mod log;
mod refusal;
#[cfg(test)]
mod restarts;
mod sequence;
#[cfg(test)]
mod simulated;

pub use ceiling::{CeilingError, CeilingFault};
pub use ffi::State;
pub use file::{Error, LogFile};
pub use lent::{Look, Pushed, Recovered, Step};
pub use log::{CutOff, Entry, Log, PushRefused, Scan};
pub use refusal::Refusal;
pub use sequence::IdSequence;
