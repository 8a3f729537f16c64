//! The file that keeps a log's ceiling, so that used ids stay used across a restart.
//!
//! It holds one line, such as `awirbesh ceiling 1025 check 66194f6502b87a45` and a line feed: the ceiling in decimal
//! digits, none of them a zero in front, and in 16 hexadecimal digits the [`checksum`] of all before ` check`. Anything
//! else is damaged: another byte anywhere, one too few, one too many.
//!
//! Each new ceiling is a new file, whole and synced before it gets the name. So a crash leaves the one before it or the
//! new one, and never a part; and a file whose sync failed is not tried again.
use std::{fmt, io, path::PathBuf};

use crate::{
    disk::{about, Disk},
    Error, State,
};

/// What is wrong with the file that keeps a log's ceiling; its message says what to do.
#[derive(Clone, Debug, PartialEq, Eq)]
pub struct CeilingError {
    /// The ceiling file: the log's own name, where that really is, with `.ceiling` appended.
    pub file: PathBuf,
    pub fault: CeilingFault,
}

#[derive(Clone, Copy, Debug, PartialEq, Eq, Hash)]
pub enum CeilingFault {
    /// There is a log, and no ceiling file beside it.
    Missing,
    /// What has its name is no file, such as a folder, or a link that leads nowhere.
    NoFile,
    /// What it holds is no ceiling.
    Damaged,
    /// A log was to be adopted, and its ceiling file is well.
    Intact,
    /// A log was to be adopted, and its file has another name too, a hard link, which may have the ceiling.
    SecondName,
}

impl fmt::Display for CeilingError {
    fn fmt(&self, f: &mut fmt::Formatter<'_>) -> fmt::Result {
        let file = self.file.display();
        match self.fault {
            CeilingFault::Missing => write!(
                f,
                "the log has no ceiling file {file}: if the log was moved, move that file too; if it has a second \
                 name, a hard link, open it by the name that it was made under; else {ADOPT}"
            ),
            CeilingFault::NoFile => write!(
                f,
                "what is at {file} is no file, or a link that leads nowhere: remove what is there, and put the log's \
                 ceiling file there if you have it; then open the log"
            ),
            CeilingFault::Damaged => write!(f, "the ceiling file {file} is damaged: {ADOPT}"),
            CeilingFault::Intact => write!(f, "the ceiling file {file} is intact: open the log by LogFile::open"),
            CeilingFault::SecondName => write!(
                f,
                "the log has a second name, a hard link, and its ceiling may be beside that, not {file}: open it by \
                 the name that it was made under; a log is adopted once it has one name alone"
            ),
        }
    }
}

const ADOPT: &str = "adopt the log by LogFile::adopt, with a ceiling above every id that was ever handed out";

impl std::error::Error for CeilingError {}

/// The longest line, that of 2^64-1. As much as this and a byte more tells a file that is longer.
pub(crate) const LONGEST: usize = 61;

const WORDS: &str = "awirbesh ceiling ";

pub(crate) fn line(ceiling: u64) -> String {
    let said = format!("{WORDS}{ceiling}");
    format!("{said} check {:016x}\n", checksum(said.as_bytes()))
}

/// The ceiling of a file that holds these bytes, if it is not damaged.
fn ceiling_in(bytes: &[u8]) -> Option<u64> {
    let text = std::str::from_utf8(bytes).ok()?;
    let ceiling = text.strip_prefix(WORDS)?.split(' ').next()?.parse().ok()?;
    (text == line(ceiling)).then_some(ceiling)
}

/// FNV-1a in 64 bits. Each turn takes two sums to two, so that of two texts that differ in one byte the sums differ.
fn checksum(text: &[u8]) -> u64 {
    text.iter().fold(0xCBF2_9CE4_8422_2325, |sum, byte| (sum ^ u64::from(*byte)).wrapping_mul(0x0000_0100_0000_01B3))
}

/// The ceiling that is stored, or what is wrong with it.
fn read(disk: &mut dyn Disk) -> io::Result<Result<u64, CeilingFault>> {
    let bytes = disk.read_ceiling().map_err(|error| failed("read", disk, error))?;
    Ok(bytes.and_then(|bytes| ceiling_in(&bytes).ok_or(CeilingFault::Damaged)))
}

fn failed(what: &str, disk: &dyn Disk, error: io::Error) -> io::Error {
    about(format!("the ceiling file {} could not be {what}", disk.ceiling_path().display()), error)
}

/// What is wrong with the ceiling, as the error of an opening.
fn error(disk: &dyn Disk, fault: CeilingFault) -> Error {
    Error::Ceiling(CeilingError { file: disk.ceiling_path().to_path_buf(), fault })
}

/// The ceiling of a log that is opened.
pub(crate) fn stored(disk: &mut dyn Disk) -> Result<u64, Error> {
    read(disk)?.map_err(|fault| error(disk, fault))
}

/// For a log that is to be adopted: whether a damaged ceiling is to be replaced, or a missing one stored.
pub(crate) fn to_replace(disk: &mut dyn Disk) -> Result<bool, Error> {
    match read(disk)? {
        Ok(_) => Err(error(disk, CeilingFault::Intact)),
        Err(CeilingFault::Missing) => Ok(false),
        Err(CeilingFault::Damaged) => Ok(true),
        Err(fault) => Err(error(disk, fault)),
    }
}

/// For a log that is to be adopted and is open: with a ceiling beside each of two names ids would come twice.
pub(crate) fn refuse_second_name(disk: &mut dyn Disk) -> Result<(), Error> {
    match disk.names()? {
        0 | 1 => Ok(()),
        _ => Err(error(disk, CeilingFault::SecondName)),
    }
}

/// Stores a ceiling in place of the one before: once it returns, no power failure brings that back.
pub(crate) fn store(disk: &mut dyn Disk, ceiling: u64) -> io::Result<()> {
    write_whole(disk, ceiling)
        .and_then(|()| disk.rename_new())
        .and_then(|()| disk.sync_names())
        .map_err(|error| failed("stored", disk, error))
}

/// Sees to the ceiling of a log that is yet to be made. Nobody holds the log's lock, so another process may do the same
/// at once, and have raised its ceiling already: one that is there stays. It may also be there without a log, after a
/// crash in here or because the log was removed: then its ids stay used. Once this returns its name is there for good,
/// so that no crash leaves a log without it.
pub(crate) fn store_first(disk: &mut dyn Disk) -> Result<(), Error> {
    match read(disk)? {
        Err(CeilingFault::Missing) => write_whole(disk, State::fresh().ceiling)
            .and_then(|()| disk.link_new())
            .map_err(|error| failed("made", disk, error))?,
        Err(fault) => return Err(error(disk, fault)),
        Ok(_) => {}
    }
    Ok(disk.sync_names()?)
}

fn write_whole(disk: &mut dyn Disk, ceiling: u64) -> io::Result<()> {
    disk.write_new(line(ceiling).as_bytes())?;
    disk.sync_new()
}

#[cfg(test)]
mod tests {
    use super::*;

    const CEILINGS: [u64; 7] = [0, 1, 9, 1_025, 1 << 32, u64::MAX - 1, u64::MAX];

    #[test]
    fn the_line_is_as_documented() {
        assert_eq!(line(1_025), "awirbesh ceiling 1025 check 66194f6502b87a45\n");
        assert_eq!(line(u64::MAX).len(), LONGEST);
        assert_eq!(checksum(b""), 0xCBF2_9CE4_8422_2325); // these two as FNV's authors publish them
        assert_eq!(checksum(b"foobar"), 0x8594_4171_F739_67E8);
        assert!(CEILINGS.iter().all(|&ceiling| ceiling_in(line(ceiling).as_bytes()) == Some(ceiling)));
    }

    #[test]
    fn any_byte_changed_is_damage() {
        for ceiling in CEILINGS {
            let bytes = line(ceiling).into_bytes();
            for (at, byte) in (0..bytes.len()).flat_map(|at| (0..=255).map(move |byte| (at, byte))) {
                let mut changed = bytes.clone();
                changed[at] = byte;
                assert_eq!(ceiling_in(&changed), (byte == bytes[at]).then_some(ceiling), "byte {at} is {byte}");
            }
        }
    }

    #[test]
    fn a_byte_too_few_or_too_many_is_damage() {
        for ceiling in CEILINGS {
            let bytes = line(ceiling).into_bytes();
            for at in 0..bytes.len() {
                assert_eq!(ceiling_in(&bytes[..at]), None);
                assert_eq!(ceiling_in(&[&bytes[..at], &bytes[at + 1..]].concat()), None, "without byte {at}");
            }
            for (at, byte) in (0..=bytes.len()).flat_map(|at| (0..=255).map(move |byte| (at, byte))) {
                assert_eq!(ceiling_in(&[&bytes[..at], &[byte], &bytes[at..]].concat()), None, "{byte} before {at}");
            }
        }
    }

    #[test]
    fn what_is_written_otherwise_is_damage() {
        let with_check = |said: &str| format!("{said} check {:016x}\n", checksum(said.as_bytes()));
        assert_eq!(with_check("awirbesh ceiling 7"), line(7));
        for said in ["", "7", "ceiling 7", "awirbesh ceiling ", "awirbesh ceiling 07", "awirbesh ceiling +7"] {
            assert_eq!(ceiling_in(with_check(said).as_bytes()), None, "{said}");
        }
        for said in ["awirbesh ceiling 18446744073709551616", "awirbesh ceiling -1", "awirbesh ceiling 0x7"] {
            assert_eq!(ceiling_in(with_check(said).as_bytes()), None, "{said}");
        }
        assert_eq!(ceiling_in(line(7).to_uppercase().as_bytes()), None);
        assert_eq!(ceiling_in(&[&line(7), &*line(8)].concat().into_bytes()), None);
        assert_eq!(ceiling_in(&[0xFF; 40]), None);
    }
}
