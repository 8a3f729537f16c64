//! Shim for nebari's `io` module: the traits that the four files name, a file in memory and one on the disk.
use std::{
    fmt::Debug,
    io::{Read, Result, Seek, SeekFrom, Write},
    path::Path,
};

use crate::Error;

pub trait File: Debug + Send + Sync + Seek + Read + Write + 'static {
    fn length(&self) -> std::result::Result<u64, Error>;
}

pub trait ManagedFile: File + Sized {
    type Manager: FileManager<File = Self>;
}

pub trait FileManager: Debug + Clone + Default + Send + Sync + 'static {
    type File: ManagedFile<Manager = Self>;
    type FileHandle: OpenableFile<Self::File> + OperableFile<Self::File>;
    fn append(&self, path: impl AsRef<Path>) -> std::result::Result<Self::FileHandle, Error>;
    fn read(&self, path: impl AsRef<Path>) -> std::result::Result<Self::FileHandle, Error>;
    fn file_length(&self, path: impl AsRef<Path>) -> std::result::Result<u64, Error>;
}

pub trait FileOp<Output> {
    fn execute(self, file: &mut dyn File) -> Output;
}

pub trait OperableFile<F: ManagedFile> {
    fn execute<Output, Op: FileOp<Output>>(&mut self, operation: Op) -> Output;
}

pub trait OpenableFile<F: ManagedFile>: Debug + Sized {
    fn close(self) -> std::result::Result<(), Error>;
}

impl<F: ManagedFile> OperableFile<F> for F {
    fn execute<Output, Op: FileOp<Output>>(&mut self, operation: Op) -> Output {
        operation.execute(self)
    }
}

impl<F: ManagedFile> OpenableFile<F> for F {
    fn close(self) -> std::result::Result<(), Error> {
        Ok(())
    }
}

/// A file in memory, as cheap as one can be: plain bytes and a place. Writing appends, as nebari opens its log.
#[derive(Debug, Default, Clone)]
pub struct MemoryFile {
    pub bytes: Vec<u8>,
    place: usize,
}

impl MemoryFile {
    pub fn of(bytes: Vec<u8>) -> Self {
        MemoryFile { bytes, place: 0 }
    }
}

impl Seek for MemoryFile {
    fn seek(&mut self, to: SeekFrom) -> Result<u64> {
        self.place = match to {
            SeekFrom::Start(place) => place as usize,
            SeekFrom::Current(by) => (self.place as i64 + by) as usize,
            SeekFrom::End(by) => (self.bytes.len() as i64 + by) as usize,
        };
        Ok(self.place as u64)
    }
}

impl Read for MemoryFile {
    fn read(&mut self, into: &mut [u8]) -> Result<usize> {
        let from = self.place.min(self.bytes.len());
        let count = into.len().min(self.bytes.len() - from);
        into[..count].copy_from_slice(&self.bytes[from..from + count]);
        self.place += count;
        Ok(count)
    }
}

impl Write for MemoryFile {
    fn write(&mut self, bytes: &[u8]) -> Result<usize> {
        self.bytes.extend_from_slice(bytes);
        Ok(bytes.len())
    }

    fn flush(&mut self) -> Result<()> {
        Ok(())
    }
}

impl File for MemoryFile {
    fn length(&self) -> std::result::Result<u64, Error> {
        Ok(self.bytes.len() as u64)
    }
}

/// A file on the disk: `initialize_state` cuts an excess by the file's path, so it needs a real one.
#[derive(Debug)]
pub struct DiskFile(std::fs::File);

impl Seek for DiskFile {
    fn seek(&mut self, to: SeekFrom) -> Result<u64> {
        self.0.seek(to)
    }
}

impl Read for DiskFile {
    fn read(&mut self, into: &mut [u8]) -> Result<usize> {
        self.0.read(into)
    }
}

impl Write for DiskFile {
    fn write(&mut self, bytes: &[u8]) -> Result<usize> {
        self.0.write(bytes)
    }

    fn flush(&mut self) -> Result<()> {
        self.0.flush()
    }
}

impl File for DiskFile {
    fn length(&self) -> std::result::Result<u64, Error> {
        Ok(self.0.metadata()?.len())
    }
}

impl ManagedFile for DiskFile {
    type Manager = DiskManager;
}

#[derive(Debug, Clone, Default)]
pub struct DiskManager;

impl FileManager for DiskManager {
    type File = DiskFile;
    type FileHandle = DiskFile;

    fn append(&self, path: impl AsRef<Path>) -> std::result::Result<DiskFile, Error> {
        Ok(DiskFile(std::fs::OpenOptions::new().create(true).append(true).read(true).open(path)?))
    }

    fn read(&self, path: impl AsRef<Path>) -> std::result::Result<DiskFile, Error> {
        Ok(DiskFile(std::fs::File::open(path)?))
    }

    fn file_length(&self, path: impl AsRef<Path>) -> std::result::Result<u64, Error> {
        Ok(std::fs::metadata(path)?.len())
    }
}
