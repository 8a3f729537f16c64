//! A disk for tests: it keeps what was written apart from what was synced, of files and of their names, fails where it
//! is told to, and loses power. Everything follows from what a test asks for and from the seed that it gives, so each
//! run can be repeated.
use std::{
    io,
    path::Path,
    sync::{Arc, Mutex, MutexGuard},
};

use crate::{ceiling, disk::Disk, CeilingFault};

/// What a disk writes whole or not at all.
const SECTOR: usize = 512;

/// Numbers that follow from a seed alone (splitmix64).
pub(crate) struct Chance(pub(crate) u64);

impl Chance {
    /// A number from 0 to `most`.
    pub(crate) fn up_to(&mut self, most: usize) -> usize {
        self.0 = self.0.wrapping_add(0x9E37_79B9_7F4A_7C15);
        let mut n = self.0;
        n = (n ^ (n >> 30)).wrapping_mul(0xBF58_476D_1CE4_E5B9);
        n = (n ^ (n >> 27)).wrapping_mul(0x94D0_49BB_1331_11EB);
        ((n ^ (n >> 31)) % (most as u64 + 1)) as usize
    }
}

/// What is to happen at one operation, counted from 0.
#[derive(Clone, Copy, Debug)]
pub(crate) enum Fault {
    /// It fails after so many of its steps; they are in the file all the same. A sync has none: the next one covers
    /// all.
    Fails { after: usize },
    /// A sync fails and forgets: of what it was to cover the disk has the first steps and no more, and no later sync
    /// covers the rest, though reads show it. So Linux does where it takes pages for clean that could not be written.
    /// Neither cuts nor names are forgotten: a file system with a journal stops if it cannot write a file's length, or
    /// a folder.
    Forgets { after: usize },
    /// It is begun and the power is lost: neither it nor any later one returns well.
    LosesPower,
}

#[derive(Clone, Debug)]
enum Change {
    Write { position: usize, bytes: Vec<u8> },
    Cut { length: usize },
}

impl Change {
    /// In how many steps the change is made: one for each byte of a write.
    fn steps(&self) -> usize {
        match self {
            Change::Write { bytes, .. } => bytes.len(),
            Change::Cut { .. } => 1,
        }
    }

    fn make(&self, steps: usize, file: &mut Vec<u8>) {
        match self {
            Change::Write { position, bytes } => {
                file.resize(file.len().max(position + steps), 0);
                file[*position..][..steps].copy_from_slice(&bytes[..steps]);
            }
            Change::Cut { length } if steps > 0 => file.truncate(*length),
            Change::Cut { .. } => {}
        }
    }
}

/// The bytes of a file, whatever its name.
#[derive(Clone, Debug, Default)]
struct Bytes {
    /// What a power failure leaves.
    synced: Vec<u8>,
    /// What a read sees.
    shown: Vec<u8>,
    /// What was asked for since the last sync, in order. The next one covers it; a power failure keeps any part of it.
    unsynced: Vec<Change>,
}

impl Bytes {
    fn of(bytes: &[u8]) -> Bytes {
        Bytes { synced: bytes.to_vec(), shown: bytes.to_vec(), unsynced: Vec::new() }
    }

    fn change(&mut self, change: Change) {
        change.make(change.steps(), &mut self.shown);
        self.unsynced.push(change);
    }

    fn steps(&self) -> usize {
        self.unsynced.iter().map(Change::steps).sum()
    }

    /// What was synced, and of what was asked for since the first steps.
    fn after_steps(&self, mut steps: usize) -> Vec<u8> {
        let mut file = self.synced.clone();
        for change in &self.unsynced {
            let made = steps.min(change.steps());
            change.make(made, &mut file);
            steps -= made;
        }
        file
    }

    fn sync(&mut self) {
        self.synced = self.after_steps(usize::MAX);
        self.unsynced.clear();
    }

    /// Syncs the first steps and will not sync the others.
    fn forget(&mut self, after: usize) {
        self.synced = self.after_steps(after);
        self.unsynced.retain(|change| matches!(change, Change::Cut { .. }));
    }
}

/// Which of the disk's files a folder has as the log and as the ceiling.
#[derive(Clone, Copy, Debug, Default)]
struct Names {
    log: Option<usize>,
    ceiling: Option<usize>,
}

/// A name that was given to a file; the one that had it before has it no more.
#[derive(Clone, Copy, Debug)]
enum Naming {
    Log(usize),
    Ceiling(usize),
}

impl Names {
    fn give(&mut self, naming: Naming) {
        match naming {
            Naming::Log(file) => self.log = Some(file),
            Naming::Ceiling(file) => self.ceiling = Some(file),
        }
    }
}

/// What another process does.
type Other = fn(&Simulated);

#[derive(Clone, Debug, Default)]
struct Inside {
    files: Vec<Bytes>,
    /// The folder, as a power failure leaves it and as it is shown, and the names given since it was synced.
    synced: Names,
    shown: Names,
    unsynced: Vec<Naming>,
    locked: bool,
    operations: usize,
    faults: Vec<(usize, Fault)>,
    meanwhile: Option<(usize, Other)>,
    /// The steps that the first operation with a fault would have had, or what it was to cover.
    fault_steps: usize,
    off: bool,
}

impl Inside {
    fn log(&self) -> Option<&Bytes> {
        self.shown.log.map(|file| &self.files[file])
    }

    fn give(&mut self, naming: Naming) {
        self.shown.give(naming);
        self.unsynced.push(naming);
    }

    /// A new file, which has no name.
    fn make(&mut self) -> usize {
        self.files.push(Bytes::default());
        self.files.len() - 1
    }

    /// The folder after a power failure that kept some of the names, those whose bits are set.
    fn names_kept(&self, bits: usize) -> Names {
        let mut names = self.synced;
        for (bit, naming) in self.unsynced.iter().enumerate() {
            if bits >> bit & 1 == 1 {
                names.give(*naming);
            }
        }
        names
    }
}

/// The disk as a test holds it. A log has a [`Handle`] of it.
#[derive(Clone, Debug)]
pub(crate) struct Simulated(Arc<Mutex<Inside>>);

impl Simulated {
    /// A disk with nothing on it.
    pub(crate) fn new() -> Simulated {
        Simulated::holding(None, None)
    }

    /// A disk with a log of these bytes, and its ceiling.
    pub(crate) fn with(log: &[u8], ceiling: u64) -> Simulated {
        Simulated::holding(Some(log), Some(ceiling::line(ceiling).as_bytes()))
    }

    pub(crate) fn holding(log: Option<&[u8]>, ceiling: Option<&[u8]>) -> Simulated {
        let mut inside = Inside::default();
        for (bytes, naming) in [(log, Naming::Log as fn(usize) -> Naming), (ceiling, Naming::Ceiling)] {
            if let Some(bytes) = bytes {
                inside.synced.give(naming(inside.files.len()));
                inside.files.push(Bytes::of(bytes));
            }
        }
        inside.shown = inside.synced;
        Simulated(Arc::new(Mutex::new(inside)))
    }

    fn inside(&self) -> MutexGuard<'_, Inside> {
        self.0.lock().unwrap()
    }

    /// What a process has of the disk.
    pub(crate) fn handle(&self) -> Box<Handle> {
        Box::new(Handle { disk: self.clone(), locks: false, new: None })
    }

    /// Sets a fault, the earliest first.
    pub(crate) fn set_fault(&self, operation: usize, fault: Fault) {
        self.inside().faults.push((operation, fault));
    }

    /// Lets another process do something right before an operation.
    pub(crate) fn set_meanwhile(&self, operation: usize, other: Other) {
        self.inside().meanwhile = Some((operation, other));
    }

    /// What the first operation that failed said.
    pub(crate) fn first_error(&self) -> String {
        failed(self.inside().faults[0].0).to_string()
    }

    /// Whether an error is that of a fault.
    pub(crate) fn is_fault(&self, error: &io::Error) -> bool {
        let said = error.to_string();
        self.inside().faults.iter().any(|(at, _)| said.ends_with(&failed(*at).to_string()))
    }

    pub(crate) fn fault_steps(&self) -> usize {
        self.inside().fault_steps
    }

    /// How many operations there were.
    pub(crate) fn operations(&self) -> usize {
        self.inside().operations
    }

    /// Whether the power is lost.
    pub(crate) fn is_off(&self) -> bool {
        self.inside().off
    }

    /// The log's file as a read sees it; nothing, if there is none.
    pub(crate) fn bytes(&self) -> Vec<u8> {
        self.inside().log().map_or(Vec::new(), |log| log.shown.clone())
    }

    /// Whether a read sees what no sync will cover.
    pub(crate) fn forgot(&self) -> bool {
        self.inside().log().is_some_and(|log| log.after_steps(usize::MAX) != log.shown)
    }

    /// How many steps of the log's file are not synced: a power failure can come after any of them.
    pub(crate) fn steps(&self) -> usize {
        self.inside().log().map_or(0, Bytes::steps)
    }

    /// The disk after a power failure that kept what was synced, and of the log's other bytes the first steps.
    pub(crate) fn restart(&self, steps: usize) -> Simulated {
        self.restart_with(0, 0, |log| log.after_steps(steps))
    }

    /// Every disk that a power failure can leave: of the log's bytes that were not synced it kept the first steps, of
    /// the names any, and of the bytes of a file that got the ceiling's name the first, however many.
    pub(crate) fn restarts(&self, steps: usize) -> Vec<Simulated> {
        let names = self.inside().unsynced.len();
        let kept = (0..1 << names).flat_map(|names| (0..=self.ceiling_steps(names)).map(move |bytes| (names, bytes)));
        kept.map(|(names, bytes)| self.restart_with(names, bytes, |log| log.after_steps(steps))).collect()
    }

    fn ceiling_steps(&self, names: usize) -> usize {
        let inside = self.inside();
        inside.names_kept(names).ceiling.map_or(0, |file| inside.files[file].steps())
    }

    fn restart_with(&self, names: usize, ceiling: usize, log: impl FnOnce(&Bytes) -> Vec<u8>) -> Simulated {
        let inside = self.inside();
        let names = inside.names_kept(names);
        let log = names.log.map(|file| log(&inside.files[file]));
        let ceiling = names.ceiling.map(|file| inside.files[file].after_steps(ceiling));
        Simulated::holding(log.as_deref(), ceiling.as_deref())
    }

    /// The disk after a power failure that kept what was synced, and of the rest any names, and of the log any sectors,
    /// in a file of the new length or of one on the way to it. A sector that was not kept is as it was, or zeros where
    /// the file had none.
    pub(crate) fn restart_with_sectors(&self, chance: &mut Chance) -> Simulated {
        let names = chance.up_to(usize::MAX - 1);
        self.restart_with(names, 0, |log| {
            let (mut file, new) = (log.after_steps(0), &log.shown);
            let between = file.len().min(new.len()) + chance.up_to(file.len().abs_diff(new.len()));
            file.resize([new.len(), between][chance.up_to(1)], 0);
            for (kept, written) in file.chunks_mut(SECTOR).zip(new.chunks(SECTOR)) {
                if chance.up_to(1) == 1 {
                    let both = kept.len().min(written.len());
                    kept[..both].copy_from_slice(&written[..both]);
                }
            }
            file
        })
    }

    /// Counts an operation, a sync of a file or another: how much of it is done, and how it ends.
    fn begin(&self, steps: usize, synced: Option<usize>) -> (usize, io::Result<()>) {
        let meanwhile = {
            let mut inside = self.inside();
            let operation = inside.operations;
            inside.meanwhile.take_if(|(at, _)| *at == operation)
        };
        if let Some((_, other)) = meanwhile {
            other(self);
        }
        let mut inside = self.inside();
        let operation = inside.operations;
        inside.operations += 1;
        if inside.off {
            return (0, Err(failed(operation)));
        }
        let Some(&(_, fault)) = inside.faults.iter().find(|(at, _)| *at == operation) else { return (steps, Ok(())) };
        let covered = synced.map_or(0, |file| inside.files[file].steps());
        if operation == inside.faults[0].0 {
            inside.fault_steps = if let Fault::Forgets { .. } = fault { covered } else { steps };
        }
        let done = match fault {
            Fault::Fails { after } => after.min(steps),
            Fault::Forgets { after } => {
                if let Some(file) = synced {
                    inside.files[file].forget(after);
                }
                0
            }
            Fault::LosesPower => {
                inside.off = true;
                steps
            }
        };
        (done, Err(failed(operation)))
    }
}

fn failed(operation: usize) -> io::Error {
    io::Error::other(format!("operation {operation} failed"))
}

/// A process's disk: it holds the log's lock once it has opened the log, and the new file that it writes.
#[derive(Debug)]
pub(crate) struct Handle {
    disk: Simulated,
    locks: bool,
    new: Option<usize>,
}

impl Handle {
    fn lock(&mut self) -> io::Result<()> {
        let mut inside = self.disk.inside();
        if inside.locked {
            return Err(io::ErrorKind::WouldBlock.into());
        }
        inside.locked = true;
        self.locks = true;
        Ok(())
    }

    /// The log's file, which is open.
    fn log(&self) -> usize {
        assert!(self.locks);
        self.disk.inside().shown.log.unwrap()
    }

    fn change(&self, file: usize, change: Change) {
        self.disk.inside().files[file].change(change);
    }

    fn sync_file(&self, file: usize) -> io::Result<()> {
        self.disk.begin(0, Some(file)).1.map(|()| self.disk.inside().files[file].sync())
    }
}

impl Drop for Handle {
    fn drop(&mut self) {
        if self.locks {
            self.disk.inside().locked = false;
        }
    }
}

impl Disk for Handle {
    fn open(&mut self) -> io::Result<bool> {
        self.disk.begin(0, None).1?;
        let there = self.disk.inside().shown.log.is_some();
        if there {
            self.lock()?;
        }
        Ok(there)
    }

    fn make(&mut self) -> io::Result<()> {
        let (done, end) = self.disk.begin(1, None);
        if done > 0 && self.disk.inside().shown.log.is_none() {
            let mut inside = self.disk.inside();
            let file = inside.make();
            inside.give(Naming::Log(file));
        }
        end.and_then(|()| self.lock())
    }

    fn names(&mut self) -> io::Result<u64> {
        self.disk.begin(0, None).1.map(|()| 1)
    }

    fn length(&mut self) -> io::Result<u64> {
        self.disk.begin(0, None).1.map(|()| self.disk.bytes().len() as u64)
    }

    fn read(&mut self, bytes: &mut [u8]) -> io::Result<()> {
        self.disk.begin(0, None).1.map(|()| bytes.copy_from_slice(&self.disk.bytes()[..bytes.len()]))
    }

    fn write(&mut self, position: u64, bytes: &[u8]) -> io::Result<()> {
        // A write that fails may harm whatever it is over, so a log must write after its end alone.
        assert_eq!(position as usize, self.disk.bytes().len());
        let (done, end) = self.disk.begin(bytes.len(), None);
        self.change(self.log(), Change::Write { position: position as usize, bytes: bytes[..done].to_vec() });
        end
    }

    fn cut(&mut self, length: u64) -> io::Result<()> {
        let (done, end) = self.disk.begin(1, None);
        if done > 0 {
            self.change(self.log(), Change::Cut { length: length as usize });
        }
        end
    }

    fn sync(&mut self) -> io::Result<()> {
        self.sync_file(self.log())
    }

    fn sync_names(&mut self) -> io::Result<()> {
        let (_, end) = self.disk.begin(0, None);
        if end.is_ok() {
            let mut inside = self.disk.inside();
            inside.synced = inside.names_kept(usize::MAX);
            inside.unsynced.clear();
        }
        end
    }

    fn ceiling_path(&self) -> &Path {
        Path::new("log.ceiling")
    }

    fn read_ceiling(&mut self) -> io::Result<Result<Vec<u8>, CeilingFault>> {
        self.disk.begin(0, None).1?;
        let inside = self.disk.inside();
        Ok(inside.shown.ceiling.map(|file| inside.files[file].shown.clone()).ok_or(CeilingFault::Missing))
    }

    fn write_new(&mut self, bytes: &[u8]) -> io::Result<()> {
        let (done, end) = self.disk.begin(bytes.len(), None);
        let file = self.disk.inside().make();
        self.change(file, Change::Write { position: 0, bytes: bytes[..done].to_vec() });
        self.new = Some(file);
        end
    }

    fn sync_new(&mut self) -> io::Result<()> {
        self.sync_file(self.new.unwrap())
    }

    fn rename_new(&mut self) -> io::Result<()> {
        let (done, end) = self.disk.begin(1, None);
        if done > 0 {
            self.disk.inside().give(Naming::Ceiling(self.new.unwrap()));
        }
        end
    }

    fn link_new(&mut self) -> io::Result<()> {
        let (done, end) = self.disk.begin(1, None);
        if done > 0 && self.disk.inside().shown.ceiling.is_none() {
            self.disk.inside().give(Naming::Ceiling(self.new.unwrap()));
        }
        end
    }
}
