use std::{fmt, io, path::Path};

use crate::{
    ceiling,
    disk::{Disk, Files},
    log::{test_store, zeros},
    CeilingError, CutOff, Entry, Log, PushRefused, Refusal, State,
};

/// What can go wrong with a log in a file: the library refuses, the log's ceiling is not known, or a file does not do
/// what was asked. Where the system's error is told with what it was about, it is a source of the [`io::Error`].
#[derive(Debug)]
pub enum Error {
    Refused(Refusal),
    PushRefused(PushRefused),
    Ceiling(CeilingError),
    Io(io::Error),
}

impl fmt::Display for Error {
    fn fmt(&self, f: &mut fmt::Formatter<'_>) -> fmt::Result {
        match self {
            Error::Refused(refusal) => refusal.fmt(f),
            Error::PushRefused(refused) => refused.fmt(f),
            Error::Ceiling(error) => error.fmt(f),
            Error::Io(error) => error.fmt(f),
        }
    }
}

impl std::error::Error for Error {}

impl From<Refusal> for Error {
    fn from(refusal: Refusal) -> Error {
        Error::Refused(refusal)
    }
}

impl From<io::Error> for Error {
    fn from(error: io::Error) -> Error {
        Error::Io(error)
    }
}

/// By how much [`LogFile::take`] raises the ceiling, unless [`LogFile::set_step`] says another step.
const STEP: u64 = 1_024;

/// A log in a file. The library decides what the bytes are; this type reads, writes and syncs them. It answers nothing
/// before a sync that covers it has returned, so that a power failure takes no answer back; [`LogFile::push`] says what
/// a disk can do against that.
///
/// Beside the log stands its ceiling file, in the folder where the log really is and with `.ceiling` appended to the
/// log's name: one line of text, the number below which ids may have been handed out. So an id that was handed out
/// stays used, whether or not it was pushed, across restarts and power failures. The two files belong together: move
/// them together, and not while the log is open; and know that an older copy of them hands ids out again. Of a log with
/// two hard links only the name that it was made under has the ceiling.
#[derive(Debug)]
pub struct LogFile {
    disk: Box<dyn Disk>,
    log: Log,
    cut_off: CutOff,
    step: u64,
    /// A push failed: if it could not be cut back, the file has bytes that the memory has not.
    failed: bool,
}

impl LogFile {
    /// Opens a log, or makes an empty one with its ceiling file, for a store of so many bytes, or of as many as the
    /// file has if those are more. Recovers it, and cuts off the file's end what a crash in the middle of a write left
    /// there, an entry that is not whole: see [`LogFile::cut_off`]. Entries of a push that did not return may be there,
    /// the first ones that are whole.
    ///
    /// What the library refuses is left alone. It does not refuse everything that is no log: less than a page, or pages
    /// all of whose starts are cut, is a torn log with no whole entry, and the file is emptied. Nor can it tell damage
    /// from a cut: a length or a mark that was changed in the last entry may make it look cut (docs/RULES.md 12.8), and
    /// then the entry is dropped and cut off the file. So look at [`LogFile::cut_off`]: where no crash explains it, it
    /// is a sign of damage. What a disk may leave of bytes that were not synced and not kept in order: 12.7.
    ///
    /// A log with a missing or damaged ceiling file is left alone too, with [`Error::Ceiling`]: which ids were handed
    /// out is not known then, and [`LogFile::adopt`] is to be told. No crash loses a ceiling, or damages it. A ceiling
    /// file whose log is not there is used for the log that is made: the ids of one that was removed stay used.
    ///
    /// The log's file and the names are synced first, and a disk that does not sync is an error. One thing is passed
    /// over: files that were there already, in a folder that this process may search but not read, and so not sync;
    /// whoever made them had to sync their names. Errors too: the log is open already, here or elsewhere; the path
    /// leads to something other than a regular file, such as a device; there is no memory for the store.
    pub fn open(path: impl AsRef<Path>, capacity: usize) -> Result<LogFile, Error> {
        LogFile::open_on(Box::new(Files::at(path.as_ref())?), capacity)
    }

    pub(crate) fn open_on(mut disk: Box<dyn Disk>, capacity: usize) -> Result<LogFile, Error> {
        if !disk.open()? {
            ceiling::store_first(&mut *disk)?;
            disk.make()?;
        }
        // Only now, under the lock, is the ceiling the one that was stored last.
        let stored = ceiling::stored(&mut *disk)?;
        LogFile::recover(disk, capacity, stored)
    }

    /// Opens a log whose ceiling file is missing or damaged, or that was written before there were such files, with a
    /// ceiling that the caller knows: it must be above every id that was ever handed out. If the greatest of them is in
    /// the log, whole, 0 will do, as the ceiling is never below the last stored id + 1. An id whose entry a crash tore,
    /// or that was handed out and dropped, is not there: those after the last stored id would be handed out again.
    ///
    /// The ceiling is stored before this returns, and from then on [`LogFile::open`] opens the log. If there is a
    /// ceiling file that is well, or the log's file has a second hard link, it is an error, and nothing changes. So it
    /// is if there is no log, unless a damaged ceiling file has its place. All else is as in [`LogFile::open`].
    pub fn adopt(path: impl AsRef<Path>, capacity: usize, ceiling: u64) -> Result<LogFile, Error> {
        LogFile::adopt_on(Box::new(Files::at(path.as_ref())?), capacity, ceiling)
    }

    pub(crate) fn adopt_on(mut disk: Box<dyn Disk>, capacity: usize, ceiling: u64) -> Result<LogFile, Error> {
        if !disk.open()? {
            if !ceiling::to_replace(&mut *disk)? {
                return Err(io::Error::new(io::ErrorKind::NotFound, "there is no log to adopt").into());
            }
            disk.make()?;
        }
        // Once more under the lock: another process may have made the log just now.
        ceiling::to_replace(&mut *disk)?;
        ceiling::refuse_second_name(&mut *disk)?;
        let mut log = LogFile::recover(disk, capacity, ceiling)?;
        ceiling::store(&mut *log.disk, log.log.state().ceiling)?;
        Ok(log)
    }

    /// The log that a file holds, which is open, with the ceiling that was stored.
    fn recover(mut disk: Box<dyn Disk>, capacity: usize, stored: u64) -> Result<LogFile, Error> {
        // Whoever wrote the file, or made it, may have been stopped before the sync: the system then shows bytes, and a
        // name, that a power failure could still take away. Nothing tells such a file, so every opening syncs both.
        disk.sync()?;
        disk.sync_names()?;
        let length = disk.length()?;
        // A file that is too long for a store, or for the memory that there is, is not read at all.
        let mut store = usize::try_from(length)
            .ok()
            .and_then(|length| zeros(capacity.max(length)))
            .ok_or_else(|| io::Error::new(io::ErrorKind::OutOfMemory, "no memory for a store as long as the log"))?;
        test_store(&store)?;
        disk.read(&mut store[..length as usize])?;
        let (log, cut_off) = Log::recover(store, length, stored)?;
        if cut_off.bytes() > 0 {
            disk.cut(log.state().length)?;
            disk.sync()?;
        }
        Ok(LogFile { disk, log, cut_off, step: STEP, failed: false })
    }

    /// Appends entries; once it returns, those that were written are on the disk. What was refused for room can be
    /// pushed again, with the same ids, after [`LogFile::grow`]: see [`PushRefused`].
    ///
    /// If the file cannot be written or synced, the error is [`Error::Io`], and the log answers as it did before the
    /// push, from what the disk is known to have; ids that were taken stay taken. The file is cut back to that as well,
    /// if the disk lets it. This `LogFile` then takes no push any more: drop it, as it holds the file's lock, and open
    /// the log again. Once the cut is synced, nothing of the batch is left. Otherwise the opening may find the first
    /// entries of it that are whole, none or some or all, and drops one that is cut. Their ids are above the last
    /// written, so that nothing settled changes either way.
    ///
    /// One thing no opening can see: after a failed sync Linux may let a later one return though the disk never got
    /// the bytes. If the cut failed too, the log that is opened again then answers entries of the batch that a power
    /// failure can still take away, or leave zeros in place of. It is the same if a process is stopped before its sync
    /// and the sync of the next opening fails: there nobody knows where to cut. See that the disk is well before you
    /// open again.
    pub fn push(&mut self, entries: &[Entry]) -> Result<(), Error> {
        if self.failed {
            return Err(io::Error::other("an earlier push failed: drop this log, then open the log again").into());
        }
        let before = self.log.state();
        let pushed = self.log.push(entries);
        if self.log.state().length > before.length {
            if let Err(error) = self.write_from(before.length) {
                self.log.go_on_from(before);
                self.failed = true;
                // A later sync may return without what this one did not cover: no opening is to find those bytes.
                let _ = self.disk.cut(before.length).and_then(|()| self.disk.sync());
                return Err(error.into());
            }
        }
        pushed.map_err(Error::PushRefused)
    }

    /// Writes the log's bytes from a position on, and waits until the disk has them.
    fn write_from(&mut self, position: u64) -> io::Result<()> {
        self.disk.write(position, &self.log.bytes()[position as usize..])?;
        self.disk.sync()
    }

    /// Gives the log a larger store, as [`Log::grow`] does. Nothing of the file changes.
    pub fn grow(&mut self, capacity: usize) -> Result<(), Refusal> {
        self.log.grow(capacity)
    }

    /// Takes the next id. No other take of this log answers it, before or after a restart; it is never found unless an
    /// entry with it is pushed.
    ///
    /// Where no id is left below the ceiling, a higher one is stored first, a step above: the new file and the folder
    /// are synced. The other ids of the step cost nothing. If the ceiling cannot be stored, or the log is not where it
    /// was opened any more, the error is [`Error::Io`], no id is handed out, and the next take tries again. The step is
    /// smaller before the last id, 2^64-2; after that all takes are refused with [`Refusal::IdsUsedUp`].
    ///
    /// An opening does not know how many of a step's ids were taken, and begins at the ceiling. So at each restart
    /// fewer ids than the step are left out for good, or all of one step if a crash or a failure came while it was
    /// stored.
    pub fn take(&mut self) -> Result<u64, Error> {
        match self.log.take() {
            Err(Refusal::CeilingReached) => {
                self.raise()?;
                Ok(self.log.take()?)
            }
            taken => Ok(taken?),
        }
    }

    /// Stores a higher ceiling, and then goes on with it.
    fn raise(&mut self) -> Result<(), Error> {
        let mut raised = self.log.state();
        let ceiling = raised.raise(self.step.min(u64::MAX - raised.ceiling))?;
        ceiling::store(&mut *self.disk, ceiling)?;
        self.log.go_on_from(raised);
        Ok(())
    }

    /// By how much [`LogFile::take`] raises the ceiling from now on: 1 to 2^32, else [`Refusal::BadRaise`]. At first it
    /// is 1,024. A larger step stores the ceiling less often, a smaller one leaves fewer ids out at a restart.
    pub fn set_step(&mut self, step: u64) -> Result<(), Refusal> {
        State::fresh().raise(step)?; // the library alone knows which steps there are
        self.step = step;
        Ok(())
    }

    /// The log as it stands in memory, to look into.
    pub fn log(&self) -> &Log {
        &self.log
    }

    /// What the opening cut off the file's end; nothing of it is in the file any more.
    pub fn cut_off(&self) -> CutOff {
        self.cut_off
    }
}
