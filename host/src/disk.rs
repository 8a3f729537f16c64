//! Where a log's bytes are kept. [`LogFile`](crate::LogFile) asks for no more than this, so that its tests can put a
//! disk that fails and forgets in the files' place.
use std::{
    ffi::OsString,
    fmt,
    fs::{self, File, OpenOptions},
    io::{self, Read, Seek, SeekFrom, Write},
    os::unix::fs::{fchown, MetadataExt},
    path::{Path, PathBuf},
};

use crate::{ceiling, CeilingFault};

/// A log's file, its ceiling file, and their names in one folder. Until a sync returns, a crash may undo what was asked
/// for before it. The log's file is opened or made before its bytes are asked for, and is locked from then on.
pub(crate) trait Disk: fmt::Debug + Send + Sync {
    /// Opens the log's file: whether there is one. Fails while it is open elsewhere.
    fn open(&mut self) -> io::Result<bool>;
    /// Makes the log's file, empty, or opens one that another process just made.
    fn make(&mut self) -> io::Result<()>;
    /// How many names the log's file has: hard links.
    fn names(&mut self) -> io::Result<u64>;
    fn length(&mut self) -> io::Result<u64>;
    /// Reads the file's first bytes, as many as the buffer has.
    fn read(&mut self, bytes: &mut [u8]) -> io::Result<()>;
    /// Writes bytes from a position on. If it fails, a part of them may be there.
    fn write(&mut self, position: u64, bytes: &[u8]) -> io::Result<()>;
    /// Makes the file shorter.
    fn cut(&mut self, length: u64) -> io::Result<()>;
    /// Waits until the file's bytes and its length are on the disk, whoever wrote them. If it fails, a later one may
    /// return without the bytes that this one was to cover, although a read has them.
    fn sync(&mut self) -> io::Result<()>;
    /// Waits until the names are: the folder holds them, not the files. See [`sync_folder`] for where it does not.
    fn sync_names(&mut self) -> io::Result<()>;

    fn ceiling_path(&self) -> &Path;
    /// The bytes of the ceiling file, of a longer one than a ceiling takes only the first; or that there is no file.
    fn read_ceiling(&mut self) -> io::Result<Result<Vec<u8>, CeilingFault>>;
    /// Makes a new file with these bytes. Nobody reads it before it has the ceiling file's name.
    fn write_new(&mut self, bytes: &[u8]) -> io::Result<()>;
    /// Waits until the new file's bytes are on the disk.
    fn sync_new(&mut self) -> io::Result<()>;
    /// Gives the new file the ceiling file's name, in place of the file that has it.
    fn rename_new(&mut self) -> io::Result<()>;
    /// Gives the new file the ceiling file's name, unless a file has it: that one stays.
    fn link_new(&mut self) -> io::Result<()>;
}

/// The real files. Closing alone would not unlock the log's at once: a process that another thread is just starting
/// holds a copy of the descriptor, and with it the lock, until it runs its program.
#[derive(Debug)]
pub(crate) struct Files {
    path: PathBuf,
    ceiling: PathBuf,
    folder: PathBuf,
    log: Option<File>,
    new: Option<New>,
    /// There was no log, or a name was given here: nobody else has synced the folder for it.
    named: bool,
}

/// A file that is to become the ceiling file, under a name of its own, which goes when this does.
#[derive(Debug)]
struct New {
    file: File,
    path: PathBuf,
}

impl Drop for New {
    fn drop(&mut self) {
        let _ = fs::remove_file(&self.path); // not there any more if it was renamed
    }
}

impl Files {
    /// Opens and makes nothing yet.
    pub(crate) fn at(path: &Path) -> io::Result<Files> {
        let path = real_path(path)?;
        let mut folder = path.clone();
        folder.pop();
        Ok(Files { ceiling: appended(&path, ".ceiling"), folder, path, log: None, new: None, named: false })
    }

    fn hold(&mut self, file: File) -> io::Result<()> {
        // A device has no length that tells what is on it: it would be taken for an empty log.
        if !file.metadata()?.is_file() {
            return Err(io::Error::new(
                io::ErrorKind::InvalidInput,
                "a log is kept in a regular file, and this is none",
            ));
        }
        file.try_lock().map_err(io::Error::from)?;
        self.log = Some(file);
        self.test_place()
    }

    /// That the log which is held, if one is, has its name still: the lock is on the file, wherever that is moved to,
    /// but the ceiling is stored by the name, and there it may be another log's by now.
    fn test_place(&self) -> io::Result<()> {
        let Some(log) = &self.log else { return Ok(()) };
        let held = log.metadata()?;
        // A link to where it was moved is not its name: openings by the link look for the ceiling over there.
        match fs::symlink_metadata(&self.path) {
            Ok(found) if (found.dev(), found.ino()) == (held.dev(), held.ino()) => Ok(()),
            Err(error) if error.kind() != io::ErrorKind::NotFound => Err(error),
            _ => Err(io::Error::other(format!(
                "the log {} was moved, replaced or removed while it was open",
                self.path.display()
            ))),
        }
    }

    fn log(&mut self) -> &mut File {
        self.log.as_mut().expect("the log's file is opened or made first")
    }

    /// A new file. Under the log's lock it has always the same name, so that what a crash left there goes with the next
    /// ceiling. Without the lock another process may be at it too: then it has the first name that is free.
    fn make_new(&self) -> io::Result<New> {
        let name = appended(&self.ceiling, ".new");
        if self.log.is_none() {
            return New::make_free(&name);
        }
        match fs::remove_file(&name) {
            Err(error) if error.kind() != io::ErrorKind::NotFound => Err(error),
            _ => New::make(name),
        }
    }

    /// Lets those use the new file who may use the log, and no others, as far as a process can. The first ceiling is
    /// made as the log is right after it.
    fn share(&self, new: &File) -> io::Result<()> {
        let Some(log) = &self.log else { return Ok(()) };
        let (log, made) = (log.metadata()?, new.metadata()?);
        if log.mode() != made.mode() {
            new.set_permissions(log.permissions())?;
        }
        // Another owner than oneself only root can set, the group also its members.
        if (log.uid(), log.gid()) != (made.uid(), made.gid()) {
            let _ = fchown(new, Some(log.uid()), Some(log.gid())).or_else(|_| fchown(new, None, Some(log.gid())));
        }
        Ok(())
    }
}

impl New {
    fn make(path: PathBuf) -> io::Result<New> {
        Ok(New { file: File::create_new(&path)?, path })
    }

    fn make_free(name: &Path) -> io::Result<New> {
        let mut number = 0u64;
        loop {
            match New::make(appended(name, &format!(".{number}"))) {
                Err(error) if error.kind() == io::ErrorKind::AlreadyExists => number += 1,
                made => return made,
            }
        }
    }
}

fn options() -> OpenOptions {
    let mut options = OpenOptions::new();
    options.read(true).write(true);
    options
}

fn appended(path: &Path, end: &str) -> PathBuf {
    let mut name = OsString::from(path);
    name.push(end);
    name.into()
}

/// Where the file of a path is, or is to be made: the folder of a link to it need not be its own. Links are followed,
/// also one to a file that is not there.
fn real_path(path: &Path) -> io::Result<PathBuf> {
    let mut path = path.to_path_buf();
    loop {
        match fs::canonicalize(&path) {
            Err(error) if error.kind() == io::ErrorKind::NotFound => {}
            found => return found, // of links that lead nowhere an error too
        }
        let (Some(folder), Some(name)) = (path.parent(), path.file_name()) else {
            return Err(io::ErrorKind::NotFound.into());
        };
        let folder = fs::canonicalize(Path::new(".").join(folder))?; // the folder of a bare name is ""
        let here = folder.join(name);
        match fs::read_link(&here) {
            Ok(target) => path = folder.join(target),
            Err(_) => return Ok(here),
        }
    }
}

impl Disk for Files {
    fn open(&mut self) -> io::Result<bool> {
        match options().open(&self.path) {
            Err(error) if error.kind() == io::ErrorKind::NotFound => {
                self.named = true;
                Ok(false)
            }
            opened => self.hold(opened?).map(|()| true),
        }
    }

    fn make(&mut self) -> io::Result<()> {
        self.named = true;
        let made = options().create(true).open(&self.path)?;
        self.hold(made)
    }

    fn names(&mut self) -> io::Result<u64> {
        Ok(self.log().metadata()?.nlink())
    }

    fn length(&mut self) -> io::Result<u64> {
        Ok(self.log().metadata()?.len())
    }

    fn read(&mut self, bytes: &mut [u8]) -> io::Result<()> {
        self.log().seek(SeekFrom::Start(0))?;
        self.log().read_exact(bytes)
    }

    fn write(&mut self, position: u64, bytes: &[u8]) -> io::Result<()> {
        self.log().seek(SeekFrom::Start(position))?;
        self.log().write_all(bytes)
    }

    fn cut(&mut self, length: u64) -> io::Result<()> {
        self.log().set_len(length)
    }

    fn sync(&mut self) -> io::Result<()> {
        self.log().sync_all()
    }

    fn sync_names(&mut self) -> io::Result<()> {
        sync_folder(File::open(&self.folder), self.named)
    }

    fn ceiling_path(&self) -> &Path {
        &self.ceiling
    }

    fn read_ceiling(&mut self) -> io::Result<Result<Vec<u8>, CeilingFault>> {
        let is_file = match fs::metadata(&self.ceiling) {
            Err(error) if error.kind() == io::ErrorKind::NotFound => {
                // A link that leads nowhere has the name, and would keep a new file from it.
                if !fs::symlink_metadata(&self.ceiling).is_ok_and(|found| found.is_symlink()) {
                    return Ok(Err(CeilingFault::Missing));
                }
                false
            }
            found => found?.is_file(),
        };
        if !is_file {
            return Ok(Err(CeilingFault::NoFile)); // and not opened: a pipe would wait for a writer
        }
        let mut bytes = Vec::new();
        File::open(&self.ceiling)?.take(ceiling::LONGEST as u64 + 1).read_to_end(&mut bytes)?;
        Ok(Ok(bytes))
    }

    fn write_new(&mut self, bytes: &[u8]) -> io::Result<()> {
        self.new = None; // one that failed goes first
        self.test_place()?; // before the name of the new file is touched: it may be another log's
        self.new = Some(self.make_new()?);
        let mut file = &self.new.as_ref().expect(WRITTEN_FIRST).file;
        self.share(file)?;
        file.write_all(bytes)
    }

    fn sync_new(&mut self) -> io::Result<()> {
        self.new.as_ref().expect(WRITTEN_FIRST).file.sync_all()
    }

    fn rename_new(&mut self) -> io::Result<()> {
        self.test_place()?; // again, as the sync took its time
        self.named = true;
        fs::rename(&self.new.take().expect(WRITTEN_FIRST).path, &self.ceiling)
    }

    fn link_new(&mut self) -> io::Result<()> {
        match fs::hard_link(&self.new.take().expect(WRITTEN_FIRST).path, &self.ceiling) {
            Err(error) if error.kind() == io::ErrorKind::AlreadyExists => Ok(()),
            linked => linked,
        }
    }
}

/// The system's error with what it was about, and the error itself, with its code, as the source.
pub(crate) fn about(what: String, error: io::Error) -> io::Error {
    io::Error::new(error.kind(), About { what, error })
}

#[derive(Debug)]
struct About {
    what: String,
    error: io::Error,
}

impl fmt::Display for About {
    fn fmt(&self, f: &mut fmt::Formatter<'_>) -> fmt::Result {
        write!(f, "{}: {}", self.what, self.error)
    }
}

impl std::error::Error for About {
    fn source(&self) -> Option<&(dyn std::error::Error + 'static)> {
        Some(&self.error)
    }
}

const WRITTEN_FIRST: &str = "the new file is written first";

/// Syncs a log's folder, for the names. A process may be let search a folder and not read it, and then it cannot sync
/// it. Files that were there before are opened all the same: whoever made them had to sync their names. But no log is
/// made there, and no ceiling stored. No other failure is passed over.
fn sync_folder(opened: io::Result<File>, named: bool) -> io::Result<()> {
    match opened {
        Err(error) if error.kind() == io::ErrorKind::PermissionDenied && !named => Ok(()),
        opened => opened
            .and_then(|folder| folder.sync_all())
            .map_err(|error| about("the folder that the log is in could not be synced".into(), error)),
    }
}

impl Drop for Files {
    fn drop(&mut self) {
        self.new = None; // under the lock, without which the name may be another process's new file
        if let Some(log) = &self.log {
            let _ = log.unlock();
        }
    }
}

#[cfg(test)]
mod tests {
    use super::*;

    /// With real folders: `a_folder_that_may_not_be_read` of tests/file.rs, where the system's modes bind.
    #[test]
    fn only_a_folder_that_may_not_be_read_is_passed_over() {
        for kind in [io::ErrorKind::PermissionDenied, io::ErrorKind::NotFound, io::ErrorKind::Other] {
            for named in [false, true] {
                match sync_folder(Err(kind.into()), named) {
                    Ok(()) => assert!(kind == io::ErrorKind::PermissionDenied && !named),
                    Err(error) => {
                        assert!(kind != io::ErrorKind::PermissionDenied || named);
                        assert_eq!(error.kind(), kind);
                        assert!(error.to_string().contains("the folder that the log is in could not be synced"));
                    }
                }
            }
        }
        // A folder that opens, and does not sync: the failure is not passed over, whoever made the file.
        for named in [false, true] {
            sync_folder(File::open("."), named).unwrap();
            let error = sync_folder(File::open("/dev/full"), named).unwrap_err();
            assert!(error.to_string().contains("the folder that the log is in could not be synced"));
        }
    }

    /// Two processes that make a log at once, step by step beside each other: the first ceiling that is linked stays.
    #[test]
    fn a_link_does_not_replace() {
        let folder = std::env::temp_dir().join(format!("awirbesh-{}-links", std::process::id()));
        fs::create_dir(&folder).unwrap();
        let mut both = [(); 2].map(|()| Files::at(&folder.join("log")).unwrap());
        for (files, bytes) in both.iter_mut().zip([b"first", b"later"]) {
            assert!(!files.open().unwrap());
            files.write_new(bytes).unwrap();
        }
        for files in &mut both {
            files.sync_new().unwrap();
            files.link_new().unwrap();
            assert_eq!(files.read_ceiling().unwrap(), Ok(b"first".to_vec()));
        }
        assert_eq!(fs::read_dir(&folder).unwrap().count(), 1); // the names of their own are gone
        fs::remove_dir_all(&folder).unwrap();
    }

    /// Between any two steps: what is in the place of the log's ceiling stays. By whole calls: tests/file.rs.
    #[test]
    fn a_log_that_is_moved_stores_no_ceiling() {
        let folder = std::env::temp_dir().join(format!("awirbesh-{}-moved", std::process::id()));
        fs::create_dir(&folder).unwrap();
        let (log, old) = (folder.join("log"), folder.join("old"));
        let moved = |answer: io::Result<()>| assert!(answer.unwrap_err().to_string().contains("was moved"));
        fs::write(&log, "").unwrap();
        let mut files = Files::at(&log).unwrap();
        // After it was opened, and before it is locked.
        let opened = options().open(&log).unwrap();
        fs::rename(&log, &old).unwrap();
        moved(files.hold(opened));
        drop(files);
        fs::rename(&old, &log).unwrap();
        // Before the new file, and before it gets the name.
        for steps in 0..2 {
            let mut files = Files::at(&log).unwrap();
            assert!(files.open().unwrap());
            if steps > 0 {
                files.write_new(b"lower").unwrap();
                files.sync_new().unwrap();
            }
            fs::rename(&log, &old).unwrap();
            fs::write(&log, "").unwrap();
            fs::write(&files.ceiling, "another's").unwrap();
            moved(if steps > 0 { files.rename_new() } else { files.write_new(b"lower") });
            assert_eq!(files.read_ceiling().unwrap(), Ok(b"another's".to_vec()));
            drop(files);
            assert_eq!(fs::read_dir(&folder).unwrap().count(), 3);
            fs::rename(&old, &log).unwrap();
        }
        fs::remove_dir_all(&folder).unwrap();
    }
}
