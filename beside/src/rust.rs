//! nebari's side: its own functions, with panics caught and its answers in the common form.
use std::{
    cell::Cell,
    panic::{self, AssertUnwindSafe},
    path::{Path, PathBuf},
    sync::{Once, OnceLock},
};

use nebari::{
    io::{DiskFile, DiskManager, MemoryFile},
    transaction::{log, state, TransactionLog},
    Context, Error, ErrorKind,
};

use crate::{Entry, Ids, Looked, Numbers, PushedBy, RecoveredBy, Scanned};

thread_local!(static QUIET: Cell<bool> = const { Cell::new(false) });

/// Runs a piece of the Rust; a panic becomes its message, and nothing is printed.
pub fn caught<T>(run: impl FnOnce() -> T) -> Result<T, String> {
    static HOOK: Once = Once::new();
    HOOK.call_once(|| {
        let usual = panic::take_hook();
        panic::set_hook(Box::new(move |info| {
            if !QUIET.get() {
                usual(info);
            }
        }));
    });
    let quiet = QUIET.replace(true);
    let ran = panic::catch_unwind(AssertUnwindSafe(run));
    QUIET.set(quiet);
    ran.map_err(|payload| match payload.downcast::<String>() {
        Ok(text) => *text,
        Err(payload) => payload.downcast::<&str>().map_or("?".to_string(), |text| text.to_string()),
    })
}

fn said(error: Error) -> String {
    format!("{:?}", error.kind)
}

pub struct Rust {
    pub file: MemoryFile,
    pub state: nebari::transaction::State,
}

impl Rust {
    pub fn of(bytes: Vec<u8>, numbers: Numbers) -> Rust {
        let state = state::probe::state(numbers.length, numbers.last, numbers.next);
        Rust { file: MemoryFile::of(bytes), state }
    }

    pub fn numbers(&self) -> Numbers {
        let (length, last, next) = state::probe::numbers(&self.state);
        Numbers { length, last, next }
    }

    pub fn set(&self, numbers: Numbers) {
        state::probe::set(&self.state, numbers.length, numbers.last, numbers.next);
    }

    pub fn take(&self) -> u64 {
        self.state.new_transaction(std::iter::empty::<&[u8]>()).id
    }

    pub fn lookup(&mut self, id: u64) -> Looked {
        match caught(|| log::probe::fetch(&mut self.file, &self.state, id)) {
            Ok(Ok(log::ScanResult::Found { entry, position, length })) => Looked::Found {
                position,
                length: length - 8,
                data: entry.data().map_or_else(Vec::new, |data| data.to_vec()),
            },
            Ok(Ok(log::ScanResult::NotFound { nearest_position })) => Looked::Absent { position: nearest_position },
            Ok(Err(error)) => Looked::Refused(said(error)),
            Err(panic) => Looked::Panicked(panic),
        }
    }

    pub fn scan(&mut self, ids: Ids) -> Scanned {
        let mut entries = Vec::new();
        let ran = caught(|| {
            log::probe::scan(&mut self.file, &self.state, ids, |entry| {
                entries.push((entry.id, entry.data().map_or_else(Vec::new, |data| data.to_vec())));
                true
            })
        });
        match ran {
            Ok(Ok(())) => Scanned::Entries(entries),
            Ok(Err(error)) => Scanned::Refused(said(error)),
            Err(panic) => Scanned::Panicked(panic),
        }
    }

    /// Pushes, with the refusals that the Rust has: 2, 3, and 16 where an entry's data is set.
    pub fn push(&mut self, batch: &[Entry]) -> PushedBy {
        let mut entries = Vec::new();
        for entry in batch {
            // No data and empty data are the same in the log: try both ways of saying it.
            let data = (!entry.data.is_empty() || entry.id % 2 == 0).then(|| entry.data.clone());
            match log::probe::entry(entry.id, data) {
                Ok(made) => entries.push(made),
                Err(error) => return PushedBy::Answered { number: number_of(&error), state: self.numbers() },
            }
        }
        match caught(|| log::probe::push(&mut self.file, &self.state, entries)) {
            Ok(Ok(())) => PushedBy::Answered { number: 0, state: self.numbers() },
            Ok(Err(error)) => PushedBy::Answered { number: number_of(&error), state: self.numbers() },
            Err(panic) => PushedBy::Panicked(panic),
        }
    }
}

/// The refusal's number for an error of the Rust's push.
fn number_of(error: &Error) -> u64 {
    match &error.kind {
        ErrorKind::TransactionPushedOutOfOrder => 2,
        ErrorKind::Message(text) if text == "transaction too large" => 3,
        ErrorKind::ValueTooLarge => 16,
        other => panic!("an error of the push that no refusal stands for: {other:?}"),
    }
}

/// Where the Rust's recovery finds its files: in memory where there is a folder for that, since it waits for the disk
/// each time that it cuts an excess off.
fn folder() -> &'static Path {
    static FOLDER: OnceLock<PathBuf> = OnceLock::new();
    FOLDER.get_or_init(|| {
        let memory = PathBuf::from("/dev/shm");
        let tried = memory.join(format!("beside-{}", std::process::id()));
        match std::fs::write(&tried, []).and_then(|()| std::fs::remove_file(&tried)) {
            Ok(()) => memory,
            Err(_) => std::env::temp_dir(),
        }
    })
}

/// The Rust's recovery of a file with these bytes, which it needs a path for.
pub fn recover(bytes: &[u8]) -> RecoveredBy {
    let path = folder().join(format!("beside-{:?}-{}", std::thread::current().id(), std::process::id()));
    std::fs::write(&path, bytes).unwrap();
    let state = nebari::transaction::State::from_path(&path);
    let ran = caught(|| TransactionLog::<DiskFile>::initialize_state(&state, &Context::<DiskManager>::default()));
    let file = std::fs::metadata(&path).unwrap().len();
    std::fs::remove_file(&path).unwrap();
    match ran {
        Ok(Ok(())) => {
            let (length, last, next) = state::probe::numbers(&state);
            RecoveredBy::At { state: Numbers { length, last, next }, file }
        }
        Ok(Err(error)) => RecoveredBy::Refused(format!("{}, file of {file} bytes", said(error))),
        Err(text) => RecoveredBy::Panicked { text, file },
    }
}
