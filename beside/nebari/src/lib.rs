//! nebari 0.5.5's `log.rs`, `state.rs`, `manager.rs` and `vault.rs`, byte for byte, over shims for what they lean on.
//!
//! Each file is included, not named by `#[path]`, so that a `probe` can stand in the same module and reach what is
//! private there with no byte of the file changed. A probe calls; it decides nothing.
#![allow(dead_code)]
mod bytes;
pub mod error;
pub mod io;
pub mod vault {
    include!("../original/vault.rs");
}

pub use bytes::ArcBytes;
pub use error::{Error, ErrorKind};

/// Shim for nebari's `context.rs`; its chunk cache is left out, since the log does not use it.
#[derive(Debug, Clone, Default)]
pub struct Context<M> {
    pub file_manager: M,
    pub vault: Option<std::sync::Arc<dyn vault::AnyVault>>,
}

impl<M> Context<M> {
    pub fn vault(&self) -> Option<&dyn vault::AnyVault> {
        self.vault.as_deref()
    }
}

/// Shim for nebari's `transaction/mod.rs`.
pub mod transaction {
    #[allow(clippy::all)]
    pub mod log {
        include!("../original/transaction/log.rs");

        pub mod probe {
            use super::*;

            /// An entry as a caller can make it: the limit of `set_data` applies.
            pub fn entry(id: u64, data: Option<Vec<u8>>) -> Result<LogEntry<'static>, Error> {
                let mut entry = LogEntry { id, data: None };
                if let Some(data) = data {
                    entry.set_data(data)?;
                }
                Ok(entry)
            }

            pub fn push(log: &mut dyn File, state: &State, entries: Vec<LogEntry<'static>>) -> Result<(), Error> {
                LogWriter { state: state.clone(), transactions: entries, vault: None }.execute(log)
            }

            pub fn fetch(log: &mut dyn File, state: &State, id: u64) -> Result<ScanResult, Error> {
                EntryFetcher { state, id, vault: None }.execute(log)
            }

            pub fn scan(
                log: &mut dyn File,
                state: &State,
                ids: (Bound<u64>, Bound<u64>),
                callback: impl FnMut(LogEntry<'static>) -> bool,
            ) -> Result<(), Error> {
                EntryScanner { state, ids, vault: None, callback }.execute(log)
            }

            /// What `initialize_state` does once it has cut an excess off the file.
            pub fn initialize(log: &mut dyn File, state: &State, log_length: u64) -> Result<(), Error> {
                StateInitializer { state, log_length, vault: None }.execute(log)
            }

            pub fn guess(
                looking_for: u64,
                lower_location: Option<u64>,
                lower_id: Option<u64>,
                upper_location: u64,
                upper_id: u64,
            ) -> Option<u64> {
                guess_page(looking_for, lower_location, lower_id, upper_location, upper_id)
            }
        }
    }

    #[allow(clippy::all)]
    pub mod manager {
        include!("../original/transaction/manager.rs");

        pub mod probe {
            /// nebari's private `IdSequence`, with its numbers.
            pub struct Sequence(super::IdSequence);

            impl Sequence {
                pub fn new(start: u64) -> Self {
                    Sequence(super::IdSequence::new(start))
                }

                pub fn note(&mut self, id: u64) {
                    self.0.note(id)
                }

                pub fn complete(&self) -> bool {
                    self.0.complete()
                }

                pub fn start(&self) -> u64 {
                    self.0.start
                }

                pub fn length(&self) -> u64 {
                    self.0.length
                }
            }
        }
    }

    #[allow(clippy::all)]
    pub mod state {
        include!("../original/transaction/state.rs");

        pub mod probe {
            use super::*;

            /// A state of exactly these three numbers.
            pub fn state(length: u64, last: u64, next: u64) -> State {
                let state = State::from_path("log");
                set(&state, length, last, next);
                state
            }

            pub fn set(state: &State, length: u64, last: u64, next: u64) {
                state.state.current_transaction_id.store(next, Ordering::SeqCst);
                *state.lock_for_write() = LogPosition { file_offset: length, last_written_transaction: last };
            }

            pub fn numbers(state: &State) -> (u64, u64, u64) {
                let last = state.lock_for_write().last_written_transaction;
                (state.len(), last, state.next_transaction_id())
            }
        }
    }

    pub use self::{
        log::{LogEntry, TransactionLog},
        manager::{ManagedTransaction, TransactionHandle, TransactionManager, TreeLock, TreeLockHandle, TreeLocks},
        state::State,
    };
}
