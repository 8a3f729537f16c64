//! The log in a file and its ceiling beside it: what is written, synced, cut and refused; and the example's story. What
//! a disk can do to it that no test can make a real one do is in src/crashes.rs and src/restarts.rs.
use std::{
    collections::BTreeSet,
    env,
    error::Error as _,
    fs,
    io::{self, Write},
    os::unix::{
        fs::{chown, MetadataExt, PermissionsExt},
        process::{CommandExt, ExitStatusExt},
    },
    path::{Path, PathBuf},
    process::{Command, Output},
};

use awirbesh::{CeilingFault, CutOff, Entry, Error, Log, LogFile, PushRefused, Refusal, State};

const CAPACITY: usize = 64 * 1024;

/// What is asked of the disk for the ceiling of a log that is to be made, for an opening, and for a higher ceiling.
const MADE: &str = "write /log.ceiling.new.0\nsync /log.ceiling.new.0\nlink /log.ceiling\nsync \n";
const OPENED: &str = "sync /log\nsync \n";
const RAISED: &str = "write /log.ceiling.new\nsync /log.ceiling.new\nrename /log.ceiling\nsync \n";

/// The name of a log's ceiling file, or of one beside it.
fn beside(log: &Path, end: &str) -> PathBuf {
    let mut name = log.as_os_str().to_os_string();
    name.push(end);
    name.into()
}

fn ceiling_of(log: &Path) -> PathBuf {
    beside(log, ".ceiling")
}

/// A path of its own for each test, removed at the end.
struct Scratch(PathBuf);

impl Scratch {
    fn new(name: &str) -> Scratch {
        let path = env::temp_dir().join(format!("awirbesh-{}-{name}", std::process::id()));
        let scratch = Scratch(path);
        scratch.remove();
        scratch
    }

    fn remove(&self) {
        let _ = fs::remove_file(&self.0).or_else(|_| fs::remove_dir_all(&self.0));
        let _ = fs::remove_file(ceiling_of(&self.0));
    }
}

impl Drop for Scratch {
    fn drop(&mut self) {
        self.remove();
    }
}

/// Says that a part of a test was left out, past the harness, which keeps what a passing test prints to itself.
fn left_out(what: &str) {
    io::stderr().write_all(format!("LEFT OUT: {what}\n").as_bytes()).unwrap();
}

/// Names the log of a test that runs itself again in a process of its own.
const OWN_PROCESS: &str = "AWIRBESH_TEST_LOG";

/// In that process: the log.
fn own_process() -> Option<PathBuf> {
    env::var_os(OWN_PROCESS).map(PathBuf::from)
}

/// Runs a test of this file again, by a shell that first does what it is told to.
fn run_again(test: &str, log: &Path, first: &str, variables: &[(&str, &Path)]) -> Output {
    let mut shell = Command::new("sh");
    shell.args(["-c", &format!("{first}\nexec \"$@\""), "sh"]).arg(env::current_exe().unwrap());
    shell.args(["--exact", test]).env(OWN_PROCESS, log).envs(variables.iter().copied());
    shell.output().unwrap()
}

/// A folder for a log, with a list of what is asked of the disk for the files in it.
struct Recorder {
    folder: PathBuf,
    list: PathBuf,
    library: PathBuf,
    _scratch: Scratch,
}

impl Recorder {
    fn new(name: &str) -> Recorder {
        let scratch = Scratch::new(name);
        fs::create_dir_all(scratch.0.join("kept")).unwrap();
        let all = fs::canonicalize(&scratch.0).unwrap();
        let (folder, list, library) = (all.join("kept"), all.join("list"), all.join("record.so"));
        let source = Path::new(env!("CARGO_MANIFEST_DIR")).join("tests/record.c");
        let compile = "${CC:-cc} -std=c11 -Wall -Wextra -Werror -pedantic -shared -fPIC -o \"$@\"";
        let compiled = Command::new("sh").args(["-c", compile, "sh"]).args([&library, &source]).status().unwrap();
        assert!(compiled.success());
        Recorder { folder, list, library, _scratch: scratch }
    }

    /// Runs a test again: how it ended, and what it asked of the disk. For the variable see record.c.
    fn run(&self, test: &str, log: &Path, first: &str, variable: (&str, &str)) -> (Output, String) {
        let _ = fs::remove_file(&self.list);
        let variables = [
            ("LD_PRELOAD", &*self.library),
            ("RECORD_FOLDER", &*self.folder),
            ("RECORD_LIST", &*self.list),
            (variable.0, Path::new(variable.1)),
        ];
        let ran = run_again(test, log, first, &variables);
        (ran, fs::read_to_string(&self.list).unwrap())
    }

    /// Runs a test again, which passes, and says what it asked of the disk.
    fn run_again(&self, test: &str, log: &Path, first: &str) -> String {
        self.run_failing(test, log, first, "nothing")
    }

    /// The same, where one thing that it asks for fails.
    fn run_failing(&self, test: &str, log: &Path, first: &str, fails: &str) -> String {
        let (ran, asked) = self.run(test, log, first, ("RECORD_FAILS", fails));
        assert_passed(&ran);
        asked
    }
}

fn assert_passed(ran: &Output) {
    let said = String::from_utf8_lossy(&ran.stdout);
    assert!(ran.status.success(), "{said}{}", String::from_utf8_lossy(&ran.stderr));
    assert!(said.contains("1 passed"));
}

#[test]
fn what_was_pushed_is_in_the_file() {
    let path = Scratch::new("pushed");
    let mut log = LogFile::open(&path.0, CAPACITY).unwrap();
    assert_eq!(log.log().state(), State::fresh());
    for round in 0..3u64 {
        let ids = [log.take().unwrap(), log.take().unwrap()];
        log.push(&ids.map(|id| Entry::new(id, vec![id as u8; 700 * (round as usize + 1)]))).unwrap();
        assert_eq!(fs::read(&path.0).unwrap(), log.log().bytes());
    }
    let state = log.log().state();
    drop(log);
    let again = LogFile::open(&path.0, CAPACITY).unwrap();
    assert_eq!(again.log().state(), State { next: 1_025, ceiling: 1_025, ..state });
    assert_eq!(again.cut_off(), CutOff::default());
    assert_eq!(again.log().get(5).unwrap(), Some(vec![5; 2100]));
}

#[test]
fn a_refused_push_writes_what_came_before() {
    let path = Scratch::new("refused");
    let mut log = LogFile::open(&path.0, CAPACITY).unwrap();
    let Err(Error::PushRefused(refused)) = log.push(&[Entry::new(4, "four"), Entry::new(4, "again")]) else {
        panic!("not refused")
    };
    assert_eq!((refused.refusal, refused.written), (Refusal::OutOfOrder, 1));
    assert_eq!(fs::read(&path.0).unwrap(), log.log().bytes());
    assert_eq!(log.log().bytes().len(), 1024);
}

/// How what is to fail for a file's sake does.
fn io_error<T>(answer: Result<T, Error>) -> io::Error {
    match answer {
        Err(Error::Io(error)) => error,
        other => panic!("{:?}", other.map(|_| "well")),
    }
}

/// The code that the system gave, of an error that may say more.
fn system_code(error: &io::Error) -> Option<i32> {
    match error.source().and_then(|source| source.downcast_ref()) {
        Some(source) => system_code(source),
        None => error.raw_os_error(),
    }
}

/// Opens a log, or adopts it, which fails for its ceiling's sake, and leaves the log and its ceiling alone.
fn ceiling_fault(path: &Path, open: impl FnOnce(&Path) -> Result<LogFile, Error>) -> (CeilingFault, String) {
    let files = || [path, &ceiling_of(path)].map(|file| fs::read(file).ok());
    let before = files();
    match open(path) {
        Err(Error::Ceiling(error)) => {
            assert_eq!((&error.file, files()), (&ceiling_of(&fs::canonicalize(path).unwrap()), before));
            (error.fault, error.to_string())
        }
        other => panic!("{:?}", other.map(|log| log.log().state())),
    }
}

/// The same, where the ceiling is missing or damaged: the error says what to do.
fn opening_fault(path: &Path) -> CeilingFault {
    let (fault, said) = ceiling_fault(path, |path| LogFile::open(path, CAPACITY));
    assert!(said.contains(".ceiling") && said.contains("LogFile::adopt"), "{said}");
    fault
}

/// Puts bytes into a log's file, with a new log's ceiling beside it.
fn write_log(path: &Path, bytes: &[u8]) {
    if !path.exists() {
        LogFile::open(path, CAPACITY).unwrap();
    }
    fs::write(path, bytes).unwrap();
}

/// A log of three entries in a store of two pages: the third is refused for room.
fn three_in_two_pages(path: &Scratch) -> (LogFile, [Entry; 3]) {
    let mut log = LogFile::open(&path.0, 2 * 1024).unwrap();
    let entries = ["one", "two", "three"].map(|data| Entry::new(log.take().unwrap(), data));
    let Err(Error::PushRefused(refused)) = log.push(&entries) else { panic!("not refused") };
    assert_eq!((refused.refusal, refused.written), (Refusal::NoRoom, 2));
    assert_eq!(log.log().state(), State { length: 2048, last: 2, next: 4, ceiling: 1_025 });
    assert_eq!(fs::read(&path.0).unwrap(), log.log().bytes());
    (log, entries)
}

fn entries_of(log: &LogFile) -> Vec<Entry> {
    log.log().check().unwrap();
    log.log().scan(..).unwrap().map(|entry| entry.unwrap()).collect()
}

#[test]
fn what_was_refused_for_room_is_in_the_file_once_there_is_more() {
    let path = Scratch::new("grown");
    let (mut log, entries) = three_in_two_pages(&path);
    let before = fs::read(&path.0).unwrap();
    log.grow(CAPACITY).unwrap();
    assert_eq!(fs::read(&path.0).unwrap(), before);
    log.push(&entries[2..]).unwrap();
    let state = log.log().state();
    assert_eq!(state, State { length: 3072, last: 3, next: 4, ceiling: 1_025 });
    assert_eq!(fs::read(&path.0).unwrap(), log.log().bytes());
    drop(log);
    let again = LogFile::open(&path.0, CAPACITY).unwrap();
    assert_eq!(again.log().state(), State { next: 1_025, ..state });
    assert_eq!(again.cut_off(), CutOff::default());
    assert_eq!(entries_of(&again), entries);
}

#[test]
fn after_a_restart_the_refused_entry_still_has_its_id() {
    let path = Scratch::new("restart");
    let (log, entries) = three_in_two_pages(&path);
    drop(log);
    let mut log = LogFile::open(&path.0, CAPACITY).unwrap();
    assert_eq!(log.log().state(), State { length: 2048, last: 2, next: 1_025, ceiling: 1_025 });
    assert_eq!(entries_of(&log), entries[..2]);
    assert_eq!(log.take().unwrap(), 1_025);
    log.push(&entries[2..]).unwrap();
    assert_eq!(entries_of(&log), entries);
    assert_eq!(fs::read(&path.0).unwrap(), log.log().bytes());
}

#[test]
fn a_refused_growth_leaves_log_and_file_alone() {
    let path = Scratch::new("too-large");
    let (mut log, entries) = three_in_two_pages(&path);
    assert_eq!(log.grow((1 << 31) + 1), Err(Refusal::BadState));
    assert_eq!(fs::read(&path.0).unwrap(), log.log().bytes());
    assert_eq!(entries_of(&log), entries[..2]);
    log.grow(3 * 1024).unwrap();
    log.push(&entries[2..]).unwrap();
    assert_eq!(entries_of(&log), entries);
}

/// Of entries of 1, 2, 3 and 17 pages, about every page's end and in between. At every byte: src/crashes.rs.
#[test]
fn a_file_that_was_cut_opens() {
    let path = Scratch::new("cut");
    let ends = [0, 1, 3, 6, 23].map(|pages| pages * 1024);
    let mut log = LogFile::open(&path.0, CAPACITY).unwrap();
    let entries = [1, 2, 3, 17].map(|pages| Entry::new(log.take().unwrap(), vec![pages as u8; pages * 1023 - 100]));
    log.push(&entries).unwrap();
    drop(log);
    let bytes = fs::read(&path.0).unwrap();
    assert_eq!(bytes.len(), ends[4]);
    for length in (0..=bytes.len()).filter(|at| (at + 1) % 1024 <= 2 || at % 397 == 0) {
        fs::write(&path.0, &bytes[..length]).unwrap();
        let mut log = LogFile::open(&path.0, CAPACITY).unwrap();
        let whole = ends.iter().filter(|end| **end <= length).count() - 1;
        assert_eq!(entries_of(&log), entries[..whole], "cut to {length}");
        for (i, entry) in entries.iter().enumerate() {
            let data = log.log().get(entry.id).unwrap();
            assert_eq!(data.as_ref(), (i < whole).then_some(&entry.data));
        }
        let beyond = (length - ends[whole]) as u64;
        assert_eq!(log.cut_off(), CutOff { excess: beyond % 1024, dropped: beyond / 1024 });
        assert_eq!((log.cut_off().bytes(), log.log().state().length), (beyond, ends[whole] as u64));
        assert_eq!(fs::read(&path.0).unwrap(), bytes[..ends[whole]]);
        if (length + 1) % 1024 <= 2 {
            let next = [Entry::new(log.take().unwrap(), [9; 1500])];
            log.push(&next).unwrap();
            drop(log);
            let again = LogFile::open(&path.0, CAPACITY).unwrap();
            assert_eq!(entries_of(&again), [&entries[..whole], &next].concat());
            assert_eq!(again.cut_off(), CutOff::default());
        }
    }
}

/// For a file: 4,608 bytes, or 9,216 where the shell counts in blocks of 1,024. The entry does not fit.
const LIMIT: &str = "ulimit -f 9";

fn long(id: u64) -> Entry {
    Entry::new(id, [3; 9_000])
}

fn settled() -> [Entry; 2] {
    [Entry::new(1, "one"), Entry::new(2, "two")]
}

/// Opens a log after what was settled, and an entry that did not fit: so much was cut off, and now the entry goes in.
fn without_a_limit(path: &Path, beyond: u64, next: u64) {
    let mut log = LogFile::open(path, CAPACITY).unwrap();
    assert_eq!(log.cut_off(), CutOff { excess: beyond % 1024, dropped: beyond / 1024 });
    assert_eq!(log.log().state(), State { length: 2048, last: 2, next, ceiling: next });
    assert_eq!(entries_of(&log), settled());
    assert_eq!(fs::read(path).unwrap(), log.log().bytes());
    let long = long(log.take().unwrap());
    log.push(std::slice::from_ref(&long)).unwrap();
    drop(log);
    let again = LogFile::open(path, CAPACITY).unwrap();
    assert_eq!(entries_of(&again), [&settled()[..], &[long]].concat());
}

/// A write that the limit stops with an error: the log answers what it has, and the file is cut back to that and
/// synced.
#[test]
fn an_entry_stopped_by_a_file_size_limit_is_cut_back() {
    if let Some(path) = own_process() {
        let mut log = LogFile::open(&path, CAPACITY).unwrap();
        log.push(&settled()).unwrap();
        let (two, id) = ([log.take().unwrap(), log.take().unwrap()], log.take().unwrap());
        let before = log.log().state();
        assert_eq!((two, before), ([1, 2], State { length: 2048, last: 2, next: 4, ceiling: 1_025 }));
        match log.push(&[long(id)]) {
            Err(Error::Io(error)) => assert_eq!(error.kind(), io::ErrorKind::FileTooLarge),
            other => panic!("{other:?}"),
        }
        assert_eq!((log.log().get(id), log.log().state()), (Ok(None), before));
        assert_eq!(entries_of(&log), settled());
        match log.push(&[Entry::new(4, "four")]) {
            Err(Error::Io(error)) => assert!(error.to_string().contains("open the log again")),
            other => panic!("{other:?}"),
        }
        assert_eq!(fs::read(path).unwrap(), log.log().bytes());
        return;
    }
    let recorder = Recorder::new("limit");
    let log = recorder.folder.join("log");
    let test = "an_entry_stopped_by_a_file_size_limit_is_cut_back";
    let asked = recorder.run_again(test, &log, &format!("trap '' XFSZ; {LIMIT}"));
    let pushed = "write /log\nsync /log\n";
    let stopped = "write /log\nwrite /log\ncut /log\nsync /log\n"; // the first write is cut short, the second fails
    assert_eq!(asked, format!("{MADE}{OPENED}{pushed}{RAISED}{stopped}"));
    assert_eq!(fs::metadata(&log).unwrap().len(), 2048);
    without_a_limit(&log, 0, 1_025);
}

/// A process that is killed in the middle of a write, here by the limit's signal: nobody cuts back what it wrote, and
/// the next opening drops it.
#[test]
fn an_entry_whose_writer_was_killed_is_dropped() {
    if let Some(path) = own_process() {
        let mut log = LogFile::open(path, CAPACITY).unwrap();
        log.push(&settled()).unwrap();
        let _ = log.push(&[long(3)]);
        return;
    }
    let recorder = Recorder::new("killed");
    let log = recorder.folder.join("log");
    let (test, first) = ("an_entry_whose_writer_was_killed_is_dropped", format!("ulimit -c 0; {LIMIT}"));
    let (ran, asked) = recorder.run(test, &log, &first, ("RECORD_SIGXFSZ", "kills"));
    assert_eq!(ran.status.signal(), Some(25)); // SIGXFSZ
    assert_eq!(asked, format!("{MADE}{OPENED}write /log\nsync /log\nwrite /log\nwrite /log\n"));
    let beyond = fs::metadata(&log).unwrap().len() - 2048;
    assert!([2_560, 7_168].contains(&beyond));
    without_a_limit(&log, beyond, 3);
}

/// The real files' own syncs, in their order: at a first opening of the ceiling and of the folder, before there is a
/// log; at each of the log and of the folder that it is in; after a cut; for the first id; and after each push.
#[test]
fn the_file_and_its_folder_are_synced() {
    if let Some(path) = own_process() {
        let mut log = LogFile::open(path, CAPACITY).unwrap();
        for _ in 0..2 {
            let id = log.take().unwrap();
            log.push(&[Entry::new(id, [7; 3000])]).unwrap();
        }
        return;
    }
    let recorder = Recorder::new("synced");
    let (log, link) = (recorder.folder.join("log"), recorder.folder.join("../link"));
    std::os::unix::fs::symlink(&log, &link).unwrap();
    let recorded = || recorder.run_again("the_file_and_its_folder_are_synced", &link, "");
    let (push, cut) = ("write /log\nsync /log\n", "cut /log\nsync /log\n");
    assert_eq!(recorded(), format!("{MADE}{OPENED}{RAISED}{push}{push}"));
    fs::File::options().write(true).open(&log).unwrap().set_len(5 * 1024 + 5).unwrap();
    assert_eq!(recorded(), format!("{OPENED}{cut}{RAISED}{push}{push}"));
    assert_eq!(recorded(), format!("{OPENED}{RAISED}{push}{push}"));
    fs::remove_file(&log).unwrap();
    assert_eq!(recorded(), format!("sync \n{OPENED}{RAISED}{push}{push}")); // the ceiling is there
}

/// An id costs no sync but where the ceiling is raised: once for 1,024 of them.
#[test]
fn the_ceiling_is_synced_once_for_a_step() {
    if let Some(path) = own_process() {
        let mut log = LogFile::open(path, CAPACITY).unwrap();
        let first = log.log().state().next;
        for id in first..first + 2_049 {
            assert_eq!(log.take().unwrap(), id);
        }
        log.set_step(2).unwrap();
        for _ in 0..1_023 + 3 {
            log.take().unwrap();
        }
        return;
    }
    let recorder = Recorder::new("step");
    let recorded = || recorder.run_again("the_ceiling_is_synced_once_for_a_step", &recorder.folder.join("log"), "");
    assert_eq!(recorded(), format!("{MADE}{OPENED}{}", RAISED.repeat(3 + 2)));
    assert_eq!(recorded(), format!("{OPENED}{}", RAISED.repeat(3 + 2)));
}

/// An opening fails where a file, its folder or the file that was cut is not synced, and nothing more is asked then. A
/// log is not made before its ceiling is well.
#[test]
fn a_disk_that_does_not_sync_is_not_opened() {
    if let Some(path) = own_process() {
        let said = io_error(LogFile::open(path, CAPACITY)).to_string();
        let of_the_folder = env::var_os("RECORD_FAILS").unwrap() == "sync ";
        assert_eq!(said.contains("the folder that the log is in could not be synced"), of_the_folder, "{said}");
        return;
    }
    let recorder = Recorder::new("unsynced");
    let log = recorder.folder.join("log");
    let asked = |fails| recorder.run_failing("a_disk_that_does_not_sync_is_not_opened", &log, "", fails);
    let mut all = String::new();
    for line in MADE.lines() {
        all = format!("{all}{line}\n");
        assert_eq!(asked(line), all);
        assert!(!log.exists() && !beside(&log, ".ceiling.new.0").exists());
    }
    assert_eq!(asked("sync "), "sync \n");
    assert!(!log.exists());
    assert_eq!(asked("sync /log"), "sync \nsync /log\n");
    assert_eq!(asked("sync /log"), "sync /log\n");
    assert_eq!(asked("sync "), "sync /log\nsync \n");
    fs::write(&log, [1; 1023]).unwrap();
    assert_eq!(asked("cut /log"), "sync /log\nsync \ncut /log\n");
    assert_eq!(fs::metadata(&log).unwrap().len(), 1023);
}

/// A ceiling that cannot be stored: no id is handed out, and each take tries again from the start.
#[test]
fn an_id_whose_ceiling_is_not_stored_is_not_handed_out() {
    if let Some(path) = own_process() {
        let mut log = LogFile::open(path, CAPACITY).unwrap();
        let before = log.log().state();
        env::set_var("RECORD_FAILS", env::var_os("TAKE_FAILS").unwrap());
        for _ in 0..2 {
            let error = io_error(log.take());
            assert!(error.to_string().contains("log.ceiling could not be stored: "));
            assert_eq!(system_code(&error), Some(5)); // EIO, as record.c says
            assert_eq!(log.log().state(), before);
        }
        env::remove_var("RECORD_FAILS");
        assert_eq!(log.take().unwrap(), before.next);
        return;
    }
    let recorder = Recorder::new("unstored");
    let log = recorder.folder.join("log");
    LogFile::open(&log, CAPACITY).unwrap().push(&settled()).unwrap();
    let (test, mut all) = ("an_id_whose_ceiling_is_not_stored_is_not_handed_out", String::new());
    for (line, next) in RAISED.lines().zip((3..).step_by(1_024)) {
        assert_eq!(LogFile::open(&log, CAPACITY).unwrap().log().state().next, next);
        all = format!("{all}{line}\n");
        let (ran, asked) = recorder.run(test, &log, "", ("TAKE_FAILS", line));
        assert_passed(&ran);
        assert_eq!(asked, format!("{OPENED}{all}{all}{RAISED}"));
        assert!(!beside(&log, ".ceiling.new").exists());
    }
}

/// A new ceiling that failed is removed before the lock goes: after that its name may be that of another process's.
#[test]
fn a_new_ceiling_that_failed_goes_under_the_lock() {
    if let Some(path) = own_process() {
        let mut log = LogFile::open(path, CAPACITY).unwrap();
        io_error(log.take());
        env::set_var("RECORD_UNLOCKS", "");
        drop(log);
        return;
    }
    let recorder = Recorder::new("unlocked");
    let log = recorder.folder.join("log");
    LogFile::open(&log, CAPACITY).unwrap();
    let (test, fails) = ("a_new_ceiling_that_failed_goes_under_the_lock", "sync /log.ceiling.new");
    let asked = recorder.run_failing(test, &log, "", fails);
    let failed = format!("write /log.ceiling.new\n{fails}\n");
    assert_eq!(asked, format!("{OPENED}{failed}remove /log.ceiling.new\nunlock /log\n"));
}

const NOBODY: u32 = 65_534;

/// For a process that modes bind: if this is root's, one of another user's.
#[test]
fn a_folder_that_may_not_be_read() {
    if let Some(path) = own_process() {
        let mut log = LogFile::open(&path, CAPACITY).unwrap();
        assert_eq!(entries_of(&log), settled());
        log.push(&[Entry::new(3, "three")]).unwrap();
        let new = path.with_file_name("new");
        for error in [io_error(log.take()), io_error(LogFile::open(&new, CAPACITY))] {
            assert_eq!(error.kind(), io::ErrorKind::PermissionDenied);
            assert!(error.to_string().contains("the folder that the log is in could not be synced"), "{error}");
        }
        assert!(!new.exists());
        return;
    }
    in_a_folder_of_mode(0o300, "a_folder_that_may_not_be_read");
}

/// What is there is opened and pushed to; ids are handed out once the ceiling can be stored.
#[test]
fn a_folder_that_may_not_be_written() {
    if let Some(path) = own_process() {
        let mut log = LogFile::open(&path, CAPACITY).unwrap();
        assert_eq!(entries_of(&log), settled());
        log.push(&[Entry::new(3, "three")]).unwrap();
        let before = log.log().state();
        let new = path.with_file_name("new");
        for error in [io_error(log.take()), io_error(log.take()), io_error(LogFile::open(&new, CAPACITY))] {
            assert_eq!(error.kind(), io::ErrorKind::PermissionDenied);
            assert!(error.to_string().contains(".ceiling could not be "), "{error}");
        }
        assert_eq!(log.log().state(), before);
        assert!(!new.exists() && !ceiling_of(&new).exists());
        let folder = path.parent().unwrap();
        fs::set_permissions(folder, fs::Permissions::from_mode(0o700)).unwrap();
        assert_eq!(log.take().unwrap(), 3);
        return;
    }
    in_a_folder_of_mode(0o500, "a_folder_that_may_not_be_written");
}

/// Runs a test again for a log in such a folder, to which it adds a page, in a process that modes bind.
fn in_a_folder_of_mode(mode: u32, test: &str) {
    let scratch = Scratch::new(test);
    let folder = scratch.0.join("folder");
    let log = folder.join("log");
    let set_mode = |path: &Path, mode| fs::set_permissions(path, fs::Permissions::from_mode(mode)).unwrap();
    fs::create_dir_all(&folder).unwrap();
    set_mode(&scratch.0, 0o755);
    LogFile::open(&log, CAPACITY).unwrap().push(&settled()).unwrap();
    let mut again = Command::new(env::current_exe().unwrap());
    again.args(["--exact", test]).env(OWN_PROCESS, &log);
    if fs::metadata("/proc/self").unwrap().uid() == 0 {
        for path in [&folder, &log, &ceiling_of(&log)] {
            chown(path, Some(NOBODY), None).unwrap();
        }
        again.uid(NOBODY);
    }
    set_mode(&folder, mode);
    let ran = again.output();
    set_mode(&folder, 0o700);
    match ran {
        Ok(ran) => {
            assert_passed(&ran);
            assert_eq!(fs::metadata(&log).unwrap().len(), 3072);
        }
        Err(error) => left_out(&format!("{test}: as another user than root: {error}")),
    }
}

/// Whoever may use the log may use its ceiling, and nobody else, whichever process stored it.
#[test]
fn the_ceiling_has_the_log_s_mode_and_owner() {
    let path = Scratch::new("mode");
    let access = |path: &Path| {
        let found = fs::metadata(path).unwrap();
        (found.mode(), found.uid(), found.gid())
    };
    let mut log = LogFile::open(&path.0, CAPACITY).unwrap();
    log.set_step(1).unwrap();
    assert_eq!(access(&ceiling_of(&path.0)), access(&path.0));
    let mut owners = vec![(None, None)];
    if fs::metadata("/proc/self").unwrap().uid() == 0 {
        owners.extend([(Some(NOBODY), None), (Some(1), Some(NOBODY))]);
    } else {
        left_out("a log of another owner's, whose ceiling root stores");
    }
    for (uid, gid) in owners {
        for mode in [0o600, 0o660, 0o664, 0o606] {
            chown(&path.0, uid, gid).unwrap();
            fs::set_permissions(&path.0, fs::Permissions::from_mode(mode)).unwrap();
            log.take().unwrap();
            assert_eq!(access(&ceiling_of(&path.0)), access(&path.0));
        }
    }
    drop(log);
    fs::remove_file(ceiling_of(&path.0)).unwrap();
    LogFile::adopt(&path.0, CAPACITY, 99).unwrap();
    assert_eq!(access(&ceiling_of(&path.0)), access(&path.0));
}

/// Nothing of what is no file is locked, synced or written.
#[test]
fn what_is_no_regular_file_is_not_opened() {
    let pipe = Scratch::new("pipe");
    assert!(Command::new("mkfifo").arg(&pipe.0).status().unwrap().success());
    for path in [Path::new("/dev/full"), Path::new("/dev/null"), &pipe.0] {
        let error = io_error(LogFile::open(path, CAPACITY));
        assert_eq!(error.kind(), io::ErrorKind::InvalidInput);
        assert!(error.to_string().contains("regular file"), "{}: {error}", path.display());
    }
}

#[test]
fn what_the_library_refuses_is_left_alone() {
    let path = Scratch::new("none");
    let mut short = vec![1; 2048];
    short[1024..1028].copy_from_slice(&[1, 0, 0, 7]);
    for (bytes, refusal) in [
        (vec![9; 2048], Refusal::BadMark { page: 1 }),
        (vec![0; 2048], Refusal::NoEntries { page: 0 }),
        (short, Refusal::ShortEntry { page: 1 }),
    ] {
        write_log(&path.0, &bytes);
        match LogFile::open(&path.0, CAPACITY) {
            Err(Error::Refused(r)) => assert_eq!(r, refusal),
            other => panic!("{:?}", other.map(|log| log.log().state())),
        }
        assert_eq!(fs::read(&path.0).unwrap(), bytes);
    }
}

/// No log, and yet not to be told from a torn one of which no entry is whole: it is opened, and the file is emptied.
#[test]
fn what_has_no_whole_entry_is_a_torn_log_and_is_emptied() {
    let path = Scratch::new("emptied");
    let mut long = vec![0; 4096];
    long[..2].copy_from_slice(&[1, 0xFF]);
    for (bytes, excess, dropped) in [
        (b"no log at all\n".to_vec(), 14, 0),
        (vec![9; 1023], 1023, 0),
        (vec![1; 8192], 0, 8), // each page a start of 65,793 bytes
        (vec![1; 2500], 452, 2),
        (long, 0, 4), // a start of 16,711,680 bytes
    ] {
        write_log(&path.0, &bytes);
        let log = LogFile::open(&path.0, CAPACITY).unwrap();
        assert_eq!((log.log().state(), log.cut_off()), (State::fresh(), CutOff { excess, dropped }));
        assert_eq!(log.cut_off().bytes(), bytes.len() as u64);
        assert_eq!(fs::metadata(&path.0).unwrap().len(), 0);
    }
}

/// One bit of the last entry's length, and the entry is taken for a cut one: what was cut off tells of it, no more.
#[test]
fn damage_to_the_last_length_is_reported_as_cut_off() {
    let path = Scratch::new("damaged");
    let entries = [Entry::new(1, "one"), Entry::new(2, "two"), Entry::new(3, "three")];
    LogFile::open(&path.0, CAPACITY).unwrap().push(&entries).unwrap();
    let mut bytes = fs::read(&path.0).unwrap();
    assert_eq!((bytes.len(), &bytes[2048..2052]), (3072, &[1, 0, 0, 13][..]));
    bytes[2050] ^= 4; // 1,037 bytes of payload, so two pages
    fs::write(&path.0, &bytes).unwrap();
    let log = LogFile::open(&path.0, CAPACITY).unwrap();
    assert_eq!(log.log().state(), State { length: 2048, last: 2, next: 3, ceiling: 3 });
    assert_eq!(log.cut_off(), CutOff { excess: 0, dropped: 1 });
    assert_eq!(entries_of(&log), entries[..2]);
    assert_eq!(fs::read(&path.0).unwrap(), bytes[..2048]);
}

/// The capacity is what a log has at least: a file that grew beyond it is opened whole.
#[test]
fn a_file_that_outgrew_the_capacity_is_opened() {
    let path = Scratch::new("outgrown");
    let (mut log, entries) = three_in_two_pages(&path);
    log.grow(CAPACITY).unwrap();
    log.push(&entries[2..]).unwrap();
    drop(log);
    let mut log = LogFile::open(&path.0, 1024).unwrap();
    assert_eq!(entries_of(&log), entries);
    let refused = log.push(&[Entry::new(4, "")]);
    assert!(matches!(refused, Err(Error::PushRefused(PushRefused { refusal: Refusal::NoRoom, written: 0 }))));
}

/// The file is one hole, so that it takes no room on the disk.
#[test]
fn a_file_longer_than_any_store_is_refused_and_left_alone() {
    let path = Scratch::new("longest");
    write_log(&path.0, &[]);
    fs::File::create(&path.0).unwrap().set_len((1 << 31) + 1).unwrap();
    assert!(matches!(LogFile::open(&path.0, CAPACITY), Err(Error::Refused(Refusal::BadState))));
    assert_eq!(fs::metadata(&path.0).unwrap().len(), (1 << 31) + 1);
}

/// As long as no memory is: an error, whichever of the two says it first, and the program goes on.
#[test]
fn a_file_longer_than_memory_is_an_error_and_left_alone() {
    const LENGTH: u64 = 4 << 40;
    let path = Scratch::new("endless");
    write_log(&path.0, &[]);
    if let Err(error) = fs::File::create(&path.0).unwrap().set_len(LENGTH) {
        return left_out(&format!("a file of 4 TiB: {error}"));
    }
    match LogFile::open(&path.0, CAPACITY) {
        Err(Error::Refused(refusal)) => assert_eq!(refusal, Refusal::BadState),
        opened => assert_eq!(io_error(opened).kind(), io::ErrorKind::OutOfMemory),
    }
    assert_eq!(fs::metadata(&path.0).unwrap().len(), LENGTH);
    fs::remove_file(&path.0).unwrap();
    assert_eq!(io_error(LogFile::open(&path.0, usize::MAX)).kind(), io::ErrorKind::OutOfMemory);
}

#[test]
fn one_writer_at_a_time() {
    let path = Scratch::new("lock");
    let _first = LogFile::open(&path.0, CAPACITY).unwrap();
    assert!(matches!(LogFile::open(&path.0, CAPACITY), Err(Error::Io(_))));
    fs::remove_file(ceiling_of(&path.0)).unwrap();
    assert!(matches!(LogFile::open(&path.0, CAPACITY), Err(Error::Io(_))));
    assert!(matches!(LogFile::adopt(&path.0, CAPACITY, 9), Err(Error::Io(_))));
    assert!(!ceiling_of(&path.0).exists());
}

/// Whichever of them makes the log, and whoever opens it after that: some fail as another has the lock.
#[test]
fn a_log_that_many_make_at_once_hands_each_id_out_once() {
    for round in 0..20 {
        let path = Scratch::new(&format!("many-{round}"));
        let all_ready = std::sync::Barrier::new(4);
        let ids = std::thread::scope(|threads| {
            let make = || {
                all_ready.wait();
                loop {
                    match LogFile::open(&path.0, CAPACITY) {
                        Ok(mut log) => return log.take().unwrap(),
                        opened => assert_eq!(io_error(opened).kind(), io::ErrorKind::WouldBlock),
                    }
                }
            };
            let threads = [(); 4].map(|()| threads.spawn(make));
            threads.map(|thread| thread.join().unwrap())
        });
        assert_eq!(BTreeSet::from(ids), BTreeSet::from([1, 1_025, 2_049, 3_073]));
    }
}

/// The lock goes with the file, and the ceiling by the name: no id is handed out under a ceiling that is not beside the
/// log, and the ceiling of the log that now has the name stays.
#[test]
fn a_log_that_is_moved_while_it_is_open_hands_out_no_id() {
    let scratch = Scratch::new("moved-open");
    let (folder, old) = (scratch.0.join("folder"), scratch.0.join("old"));
    fs::create_dir_all(&folder).unwrap();
    let path = folder.join("log");
    let mut log = LogFile::open(&path, CAPACITY).unwrap();
    log.set_step(1).unwrap();
    let mut next = 1;
    let is_told = |log: &mut LogFile| {
        let (before, ceiling) = (log.log().state(), fs::read(ceiling_of(&path)).ok());
        let said = io_error(log.take()).to_string();
        assert!(said.contains("was moved, replaced or removed while it was open"), "{said}");
        assert_eq!((log.log().state(), fs::read(ceiling_of(&path)).ok()), (before, ceiling));
    };
    let mut goes_on = |log: &mut LogFile| {
        assert_eq!(log.take().unwrap(), next);
        next += 1;
    };
    goes_on(&mut log);
    // The log alone, away and back; a link leads to it, but not to its ceiling.
    fs::rename(&path, &old).unwrap();
    is_told(&mut log);
    std::os::unix::fs::symlink(&old, &path).unwrap();
    is_told(&mut log);
    fs::remove_file(&path).unwrap();
    fs::rename(&old, &path).unwrap();
    goes_on(&mut log);
    // Its folder, away and back.
    fs::rename(&folder, &old).unwrap();
    is_told(&mut log);
    fs::create_dir(&folder).unwrap();
    is_told(&mut log);
    assert_eq!(LogFile::open(&path, CAPACITY).unwrap().take().unwrap(), 1);
    is_told(&mut log);
    fs::remove_dir_all(&folder).unwrap();
    fs::rename(&old, &folder).unwrap();
    goes_on(&mut log);
    // Another log gets its name, and raises the ceiling that was left there.
    fs::rename(&path, &old).unwrap();
    let mut other = LogFile::open(&path, CAPACITY).unwrap();
    assert_eq!(other.take().unwrap(), 4);
    is_told(&mut log);
    drop(other);
    is_told(&mut log);
    assert_eq!(LogFile::open(&path, CAPACITY).unwrap().take().unwrap(), 4 + 1_024);
}

#[test]
fn a_dropped_id_is_not_handed_out_after_a_restart() {
    let path = Scratch::new("dropped");
    let mut log = LogFile::open(&path.0, CAPACITY).unwrap();
    assert_eq!(fs::read_to_string(ceiling_of(&path.0)).unwrap(), "awirbesh ceiling 1 check b45f65fb3991892c\n");
    let (build, what_if) = (log.take().unwrap(), log.take().unwrap());
    assert_eq!(fs::read_to_string(ceiling_of(&path.0)).unwrap(), "awirbesh ceiling 1025 check 66194f6502b87a45\n");
    log.push(&[Entry::new(build, "one")]).unwrap();
    drop(log);

    let mut log = LogFile::open(&path.0, CAPACITY).unwrap();
    assert_eq!(log.log().state(), State { length: 1024, last: 1, next: 1_025, ceiling: 1_025 });
    assert_eq!(log.take().unwrap(), 1_025);
    log.push(&[Entry::new(1_025, "two")]).unwrap();
    assert_eq!((log.log().get(what_if).unwrap(), log.log().get(1_025).unwrap()), (None, Some(b"two".to_vec())));
    fs::remove_file(&path.0).unwrap();
    drop(log);
    assert_eq!(LogFile::open(&path.0, CAPACITY).unwrap().take().unwrap(), 2_049);
    // though the log is gone
}

#[test]
fn a_small_step_leaves_few_ids_out() {
    let path = Scratch::new("small-step");
    let take_three = |step| {
        let mut log = LogFile::open(&path.0, CAPACITY).unwrap();
        log.set_step(step).unwrap();
        for bad in [0, (1 << 32) + 1, u64::MAX] {
            assert_eq!(log.set_step(bad), Err(Refusal::BadRaise)); // and the step stays
        }
        [(); 3].map(|()| log.take().unwrap())
    };
    assert_eq!([take_three(1), take_three(2), take_three(3)], [[1, 2, 3], [4, 5, 6], [8, 9, 10]]);
    assert_eq!([take_three(1 << 32), take_three(1)], [[11, 12, 13], [11, 12, 13].map(|id| id + (1 << 32))]);
}

/// Up to the last id, 2^64-2, and no further: the step is no hindrance.
#[test]
fn the_last_ids_are_handed_out() {
    let path = Scratch::new("last");
    fs::write(&path.0, []).unwrap();
    let mut log = LogFile::adopt(&path.0, CAPACITY, u64::MAX - 3).unwrap();
    log.set_step(2).unwrap();
    assert_eq!([(); 3].map(|()| log.take().unwrap()), [u64::MAX - 3, u64::MAX - 2, u64::MAX - 1]);
    assert!(fs::read_to_string(ceiling_of(&path.0)).unwrap().contains(&format!(" {} ", u64::MAX)));
    for _ in 0..2 {
        assert!(matches!(log.take(), Err(Error::Refused(Refusal::IdsUsedUp))));
        drop(log);
        log = LogFile::open(&path.0, CAPACITY).unwrap();
    }
}

#[test]
fn a_log_without_a_ceiling_file_is_not_opened() {
    let path = Scratch::new("missing");
    for bytes in [&[][..], b"torn", &one_entry()] {
        fs::write(&path.0, bytes).unwrap();
        assert_eq!(opening_fault(&path.0), CeilingFault::Missing);
    }
    // A log that is moved leaves its ceiling behind.
    let moved = Scratch::new("moved");
    LogFile::adopt(&path.0, CAPACITY, 5).unwrap();
    fs::rename(&path.0, &moved.0).unwrap();
    assert_eq!(opening_fault(&moved.0), CeilingFault::Missing);
    fs::rename(ceiling_of(&path.0), ceiling_of(&moved.0)).unwrap();
    assert_eq!(LogFile::open(&moved.0, CAPACITY).unwrap().take().unwrap(), 5);
}

/// A log with the entry 1.
fn one_entry() -> Vec<u8> {
    let mut log = Log::with_capacity(1024);
    log.push(&[Entry::new(1, "one")]).unwrap();
    log.bytes().to_vec()
}

/// Every byte with every other value: `any_byte_changed_is_damage` of src/ceiling.rs.
#[test]
fn a_log_with_a_damaged_ceiling_file_is_not_opened() {
    let path = Scratch::new("damaged-ceiling");
    write_log(&path.0, &one_entry());
    let ceiling = ceiling_of(&path.0);
    let line = fs::read(&ceiling).unwrap();
    let mut damaged: Vec<Vec<u8>> = (0..line.len()).map(|length| line[..length].to_vec()).collect();
    for at in 0..line.len() {
        for bit in [1, 4, 128] {
            damaged.push(line.clone());
            damaged.last_mut().unwrap()[at] ^= bit;
        }
    }
    damaged.extend([[&line[..], b"\n"].concat(), [&line[..], &line[..]].concat(), one_entry(), b"1025\n".to_vec()]);
    for bytes in damaged {
        fs::write(&ceiling, &bytes).unwrap();
        assert_eq!(opening_fault(&path.0), CeilingFault::Damaged, "{}", String::from_utf8_lossy(&bytes));
    }
    fs::File::create(&ceiling).unwrap().set_len(1 << 40).unwrap(); // read no further than a ceiling is long
    match LogFile::open(&path.0, CAPACITY) {
        Err(Error::Ceiling(error)) => assert_eq!(error.fault, CeilingFault::Damaged),
        other => panic!("{:?}", other.map(|log| log.log().state())),
    }
    assert_eq!(LogFile::adopt(&path.0, CAPACITY, 9).unwrap().take().unwrap(), 9);
    assert_eq!(fs::read(&path.0).unwrap(), one_entry());
}

/// A folder, a pipe or a link that leads nowhere in the ceiling file's place: the error says to remove it, with and
/// without a log, and no log is made.
#[test]
fn what_has_the_ceiling_file_s_name_and_is_no_file_is_left_alone() {
    let path = Scratch::new("no-file");
    let ceiling = ceiling_of(&path.0);
    let make_pipe = |ceiling: &Path| assert!(Command::new("mkfifo").arg(ceiling).status().unwrap().success());
    let makers: [&dyn Fn(&Path); 3] = [
        &|ceiling| fs::create_dir(ceiling).unwrap(),
        &make_pipe, // and nobody waits for a writer
        &|ceiling| std::os::unix::fs::symlink("nowhere", ceiling).unwrap(),
    ];
    for (make, bytes) in makers.into_iter().flat_map(|make| [(make, None), (make, Some(one_entry()))]) {
        make(&ceiling);
        if let Some(bytes) = &bytes {
            fs::write(&path.0, bytes).unwrap();
        }
        for opened in [LogFile::open(&path.0, CAPACITY), LogFile::adopt(&path.0, CAPACITY, 9)] {
            match opened {
                Err(Error::Ceiling(error)) => {
                    assert_eq!(error.fault, CeilingFault::NoFile);
                    assert!(error.to_string().contains("remove what is there"), "{error}");
                }
                other => panic!("{:?}", other.map(|log| log.log().state())),
            }
            assert_eq!(fs::read(&path.0).ok(), bytes);
            assert!(!fs::symlink_metadata(&ceiling).unwrap().is_file());
        }
        fs::remove_file(&ceiling).or_else(|_| fs::remove_dir(&ceiling)).unwrap();
        match bytes {
            Some(_) => assert_eq!(opening_fault(&path.0), CeilingFault::Missing),
            None => assert_eq!(LogFile::open(&path.0, CAPACITY).unwrap().take().unwrap(), 1),
        }
        path.remove();
    }
}

#[test]
fn a_log_from_before_is_adopted() {
    let path = Scratch::new("adopted");
    for (ceiling, next) in [(0, 2), (1, 2), (2, 2), (10, 10)] {
        let _ = fs::remove_file(ceiling_of(&path.0));
        fs::write(&path.0, one_entry()).unwrap();
        let log = LogFile::adopt(&path.0, CAPACITY, ceiling).unwrap();
        assert_eq!(log.log().state(), State { length: 1024, last: 1, next, ceiling: next });
        assert!(fs::read_to_string(ceiling_of(&path.0)).unwrap().contains(&format!(" {next} ")));
        drop(log);
        let adopt_again = |path: &Path| LogFile::adopt(path, CAPACITY, 99);
        let (fault, said) = ceiling_fault(&path.0, adopt_again);
        assert_eq!(fault, CeilingFault::Intact);
        assert!(said.contains("LogFile::open"), "{said}");
        assert_eq!(LogFile::open(&path.0, CAPACITY).unwrap().take().unwrap(), next);
    }
    // What the library refuses is left without a ceiling.
    fs::remove_file(ceiling_of(&path.0)).unwrap();
    fs::write(&path.0, [9; 1024]).unwrap();
    assert!(matches!(LogFile::adopt(&path.0, CAPACITY, 0), Err(Error::Refused(Refusal::BadMark { page: 0 }))));
    assert!(!ceiling_of(&path.0).exists());
}

/// A name that was mistyped adopts nothing, and makes nothing.
#[test]
fn what_is_not_there_is_not_adopted() {
    let path = Scratch::new("not-there");
    let error = io_error(LogFile::adopt(&path.0, CAPACITY, 5));
    assert_eq!((error.kind(), error.to_string().as_str()), (io::ErrorKind::NotFound, "there is no log to adopt"));
    assert!(!path.0.exists() && !ceiling_of(&path.0).exists());
    fs::write(ceiling_of(&path.0), "damaged").unwrap();
    assert_eq!(LogFile::adopt(&path.0, CAPACITY, 5).unwrap().take().unwrap(), 5);
}

/// By another name of its file a log has no ceiling, and gets none: with two of them ids would come twice.
#[test]
fn a_log_with_a_second_hard_link_is_not_adopted() {
    let (path, second) = (Scratch::new("first-link"), Scratch::new("second-link"));
    LogFile::open(&path.0, CAPACITY).unwrap().take().unwrap();
    fs::hard_link(&path.0, &second.0).unwrap();
    let (fault, said) = ceiling_fault(&second.0, |path| LogFile::open(path, CAPACITY));
    assert!(fault == CeilingFault::Missing && said.contains("hard link"), "{said}");
    for damaged in [false, true] {
        if damaged {
            fs::write(ceiling_of(&second.0), "").unwrap();
        }
        let (fault, said) = ceiling_fault(&second.0, |path| LogFile::adopt(path, CAPACITY, 0));
        assert!(fault == CeilingFault::SecondName && said.contains("hard link"), "{said}");
    }
    assert_eq!(LogFile::open(&path.0, CAPACITY).unwrap().take().unwrap(), 1_025);
    fs::remove_file(&path.0).unwrap();
    assert_eq!(LogFile::adopt(&second.0, CAPACITY, 2_049).unwrap().take().unwrap(), 2_049);
}

/// Every id was pushed, and still 0 is too low a ceiling where the last entry is not whole.
#[test]
fn the_id_of_a_torn_entry_is_known_by_the_ceiling_alone() {
    let path = Scratch::new("torn-adopted");
    let mut log = Log::with_capacity(CAPACITY);
    log.push(&settled()).unwrap();
    for length in [1_025, 2_047, 2_048] {
        for ceiling in [0, 3] {
            fs::write(&path.0, &log.bytes()[..length]).unwrap();
            let id = LogFile::adopt(&path.0, CAPACITY, ceiling).unwrap().take().unwrap();
            assert_eq!(id, if length < 2_048 && ceiling == 0 { 2 } else { 3 });
            fs::remove_file(ceiling_of(&path.0)).unwrap();
        }
    }
}

/// The ceiling is where the log is, also for a log that is made through a link, and nothing is where the link is.
#[test]
fn a_linked_log_has_its_ceiling_beside_it() {
    let scratch = Scratch::new("linked");
    let (kept, links) = (scratch.0.join("kept"), scratch.0.join("links"));
    fs::create_dir_all(&kept).unwrap();
    fs::create_dir_all(&links).unwrap();
    let (log, link, to_link) = (kept.join("log"), links.join("link"), links.join("to-link"));
    std::os::unix::fs::symlink("../kept/log", &link).unwrap();
    std::os::unix::fs::symlink(&link, &to_link).unwrap();
    for (path, id) in [(&to_link, 1), (&link, 1_025), (&log, 2_049)] {
        assert_eq!(LogFile::open(path, CAPACITY).unwrap().take().unwrap(), id);
        assert!(log.is_file() && ceiling_of(&log).is_file());
    }
    let names = |folder| {
        let names = fs::read_dir(folder).unwrap().map(|name| name.unwrap().file_name().into_string().unwrap());
        names.collect::<BTreeSet<_>>()
    };
    assert_eq!(names(&links), ["link", "to-link"].map(String::from).into());
    assert_eq!(names(&kept), ["log", "log.ceiling"].map(String::from).into());
    fs::remove_file(ceiling_of(&log)).unwrap();
    match LogFile::open(&link, CAPACITY) {
        Err(Error::Ceiling(error)) => assert_eq!(error.file, ceiling_of(&fs::canonicalize(&log).unwrap())),
        other => panic!("{:?}", other.map(|log| log.log().state())),
    }
    std::os::unix::fs::symlink("loop", links.join("loop")).unwrap();
    for nowhere in [links.join("loop"), links.join("none/log"), PathBuf::new(), PathBuf::from("/")] {
        io_error(LogFile::open(nowhere, CAPACITY));
    }
}

/// What a crash left of a ceiling that was on the way is neither read nor in the way, even if it is the ceiling's own
/// file under a second name.
#[test]
fn new_ceilings_that_a_crash_left_do_no_harm() {
    let path = Scratch::new("left");
    let left = [".ceiling.new", ".ceiling.new.0", ".ceiling.new.1"].map(|end| beside(&path.0, end));
    for file in &left {
        fs::write(file, "awirbesh ceiling 7").unwrap();
    }
    assert_eq!(LogFile::open(&path.0, CAPACITY).unwrap().take().unwrap(), 1);
    let kept = beside(&path.0, ".kept");
    for second_name in [&left[0], &kept] {
        fs::hard_link(ceiling_of(&path.0), second_name).unwrap();
    }
    assert_eq!(LogFile::open(&path.0, CAPACITY).unwrap().take().unwrap(), 1_025);
    let line = "awirbesh ceiling 1025 check 66194f6502b87a45\n"; // of the first id, and not written over
    assert_eq!(fs::read_to_string(&kept).unwrap(), line);
    fs::remove_file(kept).unwrap();
    assert!(!left[0].exists());
    for file in &left[1..] {
        assert_eq!(fs::read_to_string(file).unwrap(), "awirbesh ceiling 7");
        fs::remove_file(file).unwrap();
    }
}

#[test]
fn the_example_tells_its_story() {
    // Cargo builds the examples beside the tests: target/PROFILE/deps/THIS and target/PROFILE/examples/planners.
    let test = env::current_exe().unwrap();
    let example = test.parent().unwrap().parent().unwrap().join("examples/planners");
    let told = Command::new(example).output().unwrap();
    assert!(told.status.success());
    assert_eq!(String::from_utf8(told.stdout).unwrap(), include_str!("../examples/planners.txt"));
}
