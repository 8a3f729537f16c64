use std::{
    alloc::{alloc_zeroed, Layout},
    ops::RangeBounds,
};

use crate::{ffi, lent, Look, Recovered, Refusal, State, Step};

/// An entry as a scan hands it over, and as a push takes it.
#[derive(Clone, Debug, PartialEq, Eq)]
pub struct Entry {
    pub id: u64,
    pub data: Vec<u8>,
}

impl Entry {
    pub fn new(id: u64, data: impl Into<Vec<u8>>) -> Entry {
        Entry { id, data: data.into() }
    }
}

/// A push that was refused. The entries before the refused one were written and stay. After [`Refusal::TooLarge`] and
/// [`Refusal::NoRoom`] the refused one and those after it keep their ids, and can be pushed again until a greater id
/// is.
#[derive(Clone, Copy, Debug, PartialEq, Eq)]
pub struct PushRefused {
    pub refusal: Refusal,
    /// Entries of the batch that were written.
    pub written: usize,
}

impl std::fmt::Display for PushRefused {
    fn fmt(&self, f: &mut std::fmt::Formatter<'_>) -> std::fmt::Result {
        write!(f, "{}, after {} written", self.refusal, self.written)
    }
}

impl std::error::Error for PushRefused {
    fn source(&self) -> Option<&(dyn std::error::Error + 'static)> {
        Some(&self.refusal)
    }
}

/// What a recovery cut off a log's end: an entry that a crash stopped in the middle, or nothing.
#[derive(Clone, Copy, Debug, Default, PartialEq, Eq, Hash)]
pub struct CutOff {
    /// Bytes of a last page that is not whole: fewer than 1,024.
    pub excess: u64,
    /// Whole pages before those, from the start of the entry that is cut on.
    pub dropped: u64,
}

impl CutOff {
    /// All that was cut off, in bytes: what was given is this much longer than the log.
    pub fn bytes(self) -> u64 {
        1_024 * self.dropped + self.excess
    }
}

/// A log in memory: a store, which [`Log::grow`] makes larger, and the state of the log in its front.
///
/// Ids are handed out below the ceiling alone, and a new log's is 1: [`Log::raise`] comes before the first
/// [`Log::take`]. Where ids are to stay used across a restart, the caller keeps the ceiling, as
/// [`LogFile`](crate::LogFile) does in a file; who has no such ids may raise by 2^32 and give a recovery 0.
#[derive(Clone, Debug)]
pub struct Log {
    store: Vec<u8>,
    state: State,
}

impl Log {
    /// An empty log in a store of so many bytes. Its ceiling is 1: see [`Log::raise`].
    pub fn with_capacity(bytes: usize) -> Log {
        Log { store: vec![0; bytes], state: State::fresh() }
    }

    /// The log that the first `length` bytes of a store hold, by its last whole entry and the ceiling that was stored,
    /// and what was cut off its end. Its next id is not below that ceiling, and the ceiling is its next id: see
    /// [`Log::raise`].
    pub fn recover(store: Vec<u8>, length: u64, stored: u64) -> Result<(Log, CutOff), Refusal> {
        let Recovered { state, excess, dropped } = lent::recover(&store, length, stored)?;
        Ok((Log { store, state }, CutOff { excess, dropped }))
    }

    /// Goes on with a state of this log: an earlier one, which forgets what was pushed since, as a push writes beyond
    /// the length alone; or one with a raised ceiling.
    pub(crate) fn go_on_from(&mut self, state: State) {
        self.state = state;
    }

    /// Gives the log a store of so many bytes, so that what was refused for room can be pushed again with its id. A
    /// store that has as many already stays. If the library refuses one so long, with 1, the log is as it was. For a
    /// moment the old store and the new one stand side by side; without the memory for that the program stops, as
    /// wherever Rust asks for memory.
    pub fn grow(&mut self, capacity: usize) -> Result<(), Refusal> {
        if capacity > self.store.len() {
            let mut store = vec![0; capacity];
            test_store(&store)?;
            store[..self.bytes().len()].copy_from_slice(self.bytes());
            self.store = store;
        }
        Ok(())
    }

    /// Reads the whole log: whether it is sound.
    pub fn check(&self) -> Result<(), Refusal> {
        lent::check(&self.store, self.state.length)
    }

    /// The log's four numbers.
    pub fn state(&self) -> State {
        self.state
    }

    /// The log's bytes.
    pub fn bytes(&self) -> &[u8] {
        // A length above the store's size cannot come about: every state here came from the library.
        &self.store[..self.state.length as usize]
    }

    /// Takes the next id. One that is never pushed stays absent. At the ceiling it is refused with
    /// [`Refusal::CeilingReached`]: raise it first.
    pub fn take(&mut self) -> Result<u64, Refusal> {
        self.state.take()
    }

    /// Raises the ceiling by a step from 1 to 2^32, and says what it is now. The caller stores it, so that it outlives
    /// the process, before taking an id, and hands it to [`Log::recover`]: then no id is handed out twice.
    pub fn raise(&mut self, step: u64) -> Result<u64, Refusal> {
        self.state.raise(step)
    }

    /// Appends entries in ascending order of ids.
    pub fn push(&mut self, entries: &[Entry]) -> Result<(), PushRefused> {
        let mut ids = Vec::with_capacity(entries.len());
        let mut ends = Vec::with_capacity(entries.len());
        let mut data = Vec::new();
        for entry in entries {
            data.extend_from_slice(&entry.data);
            ids.push(entry.id);
            ends.push(data.len() as u64);
        }
        let pushed = lent::push(&mut self.store, self.state, &ids, &ends, &data);
        self.state = pushed.state;
        match pushed.refusal {
            None => Ok(()),
            Some(refusal) => Err(PushRefused { refusal, written: pushed.written as usize }),
        }
    }

    /// Where an id is, or where it would be.
    pub fn position(&self, id: u64) -> Result<Look, Refusal> {
        lent::find(&self.store, self.state, id)
    }

    /// The data of an id, or none if it is absent.
    pub fn get(&self, id: u64) -> Result<Option<Vec<u8>>, Refusal> {
        let mut data = Vec::new();
        let look = with_room(&mut data, |out| lent::lookup(&self.store, self.state, id, out))?;
        Ok(match look {
            Look::Absent { .. } => None,
            Look::Found { length, .. } => {
                data.truncate(length as usize);
                Some(data)
            }
        })
    }

    /// The entries whose ids are in a range, ascending.
    pub fn scan(&self, ids: impl RangeBounds<u64>) -> Result<Scan<'_>, Refusal> {
        let range = ffi::Range::of(&ids);
        let cursor = lent::scan(&self.store, self.state, range)?;
        Ok(Scan { log: self, range, cursor, buffer: Vec::new(), done: false })
    }
}

/// Refuses a store that is too long for the library, which alone knows how long one may be.
pub(crate) fn test_store(store: &[u8]) -> Result<(), Refusal> {
    lent::find(store, State::fresh(), 0).map(|_| ()) // tests the store's size, and reads no page
}

/// So many zeros, as `vec!` makes them, which touches no page of them; or none, where `vec!` would stop the program for
/// want of memory.
pub(crate) fn zeros(bytes: usize) -> Option<Vec<u8>> {
    let layout = Layout::array::<u8>(bytes).ok()?;
    if bytes == 0 {
        return Some(Vec::new());
    }
    let memory = unsafe { alloc_zeroed(layout) };
    // Of the global allocator, with the layout that a vector of this capacity has, and every byte of it is set.
    (!memory.is_null()).then(|| unsafe { Vec::from_raw_parts(memory, bytes, bytes) })
}

/// Calls with a buffer, and once more with a larger one where the library says how large.
fn with_room<T>(buffer: &mut Vec<u8>, mut call: impl FnMut(&mut [u8]) -> Result<T, Refusal>) -> Result<T, Refusal> {
    match call(buffer) {
        Err(Refusal::BufferSmall { needed }) => {
            buffer.resize(needed as usize, 0);
            call(buffer)
        }
        answer => answer,
    }
}

/// The entries of a range. A refusal, met on a damaged log, is handed out once and ends the scan.
#[derive(Debug)]
pub struct Scan<'a> {
    log: &'a Log,
    range: ffi::Range,
    cursor: u64,
    buffer: Vec<u8>,
    done: bool,
}

impl Iterator for Scan<'_> {
    type Item = Result<Entry, Refusal>;

    fn next(&mut self) -> Option<Self::Item> {
        if self.done {
            return None;
        }
        let Scan { log, range, cursor, buffer, .. } = self;
        match with_room(buffer, |out| lent::step(&log.store, log.state, *range, *cursor, out)) {
            Ok(Step::Entry { id, length, cursor }) => {
                self.cursor = cursor;
                Some(Ok(Entry { id, data: self.buffer[..length as usize].to_vec() }))
            }
            Ok(Step::End { cursor }) => {
                self.cursor = cursor;
                self.done = true;
                None
            }
            Err(refusal) => {
                self.done = true;
                Some(Err(refusal))
            }
        }
    }
}
