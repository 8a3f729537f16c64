//! What a log in a file promises of a disk that fails or loses power, over a simulated one: every operation in turn,
//! and of what no sync has covered the first bytes, however many, and any names. That used ids stay used: restarts.rs.
//! A log's file is cut at every byte, and so is what a power failure leaves of a new one. Elsewhere the cuts are in a
//! page's first fields, before its last byte, at its end and at each 97th byte; or, where the cut of a failed push
//! fails too, at each half of a page. A disk that keeps later bytes and not the earlier has a test of its own, which
//! says what then holds.
use crate::{
    disk::Disk,
    simulated::{Chance, Fault, Simulated},
    CutOff, Entry, Error, Log, LogFile, Refusal,
};

const PAGE: usize = 1_024;
pub(crate) const CAPACITY: usize = 64 * PAGE;

/// The batches that each opening of the log pushes, by the pages of their entries; 0 is an id that was pushed before.
const STORY: [&[&[usize]]; 2] = [&[&[2, 1], &[1]], &[&[3, 1, 0], &[1, 1]]];

/// Says which case it was if the test fails in it.
pub(crate) struct Case(pub(crate) String);

impl Drop for Case {
    fn drop(&mut self) {
        if std::thread::panicking() {
            eprintln!("failed: {}", self.0);
        }
    }
}

/// An entry of so many pages, with a few bytes of filling or none.
pub(crate) fn entry(id: u64, pages: usize) -> Entry {
    let length = 1_023 * pages - 11 - 5 * (id as usize % 3);
    Entry::new(id, (0..length).map(|i| (i as u64 + 7 * id) as u8).collect::<Vec<_>>())
}

fn pages(entry: &Entry) -> usize {
    entry.data.len() / 1_023 + 1
}

pub(crate) fn open(disk: &Simulated) -> Result<LogFile, Error> {
    LogFile::open_on(disk.handle(), CAPACITY)
}

/// Every entry of a sound log, each by a scan and by a lookup.
pub(crate) fn entries_of(log: &LogFile) -> Vec<Entry> {
    let log = log.log();
    log.check().unwrap();
    let entries: Vec<Entry> = log.scan(..).unwrap().map(|entry| entry.unwrap()).collect();
    for entry in &entries {
        assert_eq!(log.get(entry.id).unwrap().as_ref(), Some(&entry.data));
    }
    entries
}

/// The bytes of a log of these entries.
fn bytes_of(entries: &[Entry]) -> Vec<u8> {
    let mut log = Log::with_capacity(CAPACITY);
    log.push(entries).unwrap();
    log.bytes().to_vec()
}

/// Where a story begins: a disk, and the entries that are whole on it. Nothing; a log; and logs whose last entry, of 9
/// pages, was cut after so many bytes.
fn beginnings() -> Vec<(Simulated, Vec<Entry>)> {
    let entries = [entry(1, 1), entry(2, 2), entry(3, 9)];
    let bytes = bytes_of(&entries);
    let cut = |pages, more| (Simulated::with(&bytes[..pages * PAGE + more], 4), entries[..2].to_vec());
    vec![(Simulated::new(), Vec::new()), cut(3, 0), cut(3, 700), cut(4, 0), cut(11, 1_023)]
}

/// What came of a story.
struct Told {
    /// Entries of the pushes that returned: the log said that the disk has them.
    settled: Vec<Entry>,
    /// Those of the push that failed.
    attempted: Vec<Entry>,
}

/// What an opening or a take answers, or nothing if it failed because the disk did.
fn unless_failed<T>(disk: &Simulated, answer: Result<T, Error>) -> Option<T> {
    match answer {
        Err(Error::Io(error)) => {
            assert!(error.to_string().ends_with(&disk.first_error()), "{error}");
            None
        }
        answer => Some(answer.unwrap()),
    }
}

/// Opens the log and pushes until the disk fails. The log answers what was pushed, and nothing of a push that failed.
fn tell(disk: &Simulated, mut settled: Vec<Entry>) -> Told {
    for session in STORY {
        let Some(mut log) = unless_failed(disk, open(disk)) else {
            return Told { settled, attempted: Vec::new() };
        };
        assert_eq!(entries_of(&log), settled);
        for pages in session {
            let mut batch: Vec<Entry> = Vec::new();
            for &pages in *pages {
                if pages == 0 {
                    batch.push(entry(log.log().state().last, 1));
                    continue;
                }
                let before = log.log().state();
                let Some(id) = unless_failed(disk, log.take()) else {
                    assert_eq!(log.log().state(), before);
                    return Told { settled, attempted: Vec::new() };
                };
                batch.push(entry(id, pages));
            }
            let before = log.log().state();
            let pushed = log.push(&batch);
            batch.retain(|entry| entry.id > before.last);
            match pushed {
                Ok(()) => settled.extend(batch),
                Err(Error::PushRefused(refused)) => {
                    assert_eq!((refused.refusal, refused.written), (Refusal::OutOfOrder, batch.len()));
                    settled.extend(batch);
                }
                Err(Error::Io(error)) => {
                    assert_eq!(error.to_string(), disk.first_error());
                    assert_eq!(log.log().state(), before);
                    assert_eq!(entries_of(&log), settled);
                    assert!(batch.iter().all(|entry| log.log().get(entry.id) == Ok(None)));
                    let operations = disk.operations();
                    let next = log.take().unwrap();
                    assert!(matches!(log.push(&[entry(next, 1)]), Err(Error::Io(_))));
                    assert_eq!((disk.operations(), entries_of(&log)), (operations, settled.clone()));
                    return Told { settled, attempted: batch };
                }
                Err(other) => panic!("{other}"),
            }
            assert_eq!(entries_of(&log), settled);
        }
    }
    Told { settled, attempted: Vec::new() }
}

/// A disk on which something stopped in the middle, opened again: the log is sound and has what was settled, and the
/// first entries of what was attempted that are whole.
fn open_again(disk: &Simulated, told: &Told) -> (LogFile, Vec<Entry>) {
    let given = disk.bytes().len();
    let mut whole = Vec::new();
    let mut length = 0;
    for entry in told.settled.iter().chain(&told.attempted) {
        if length + pages(entry) * PAGE > given {
            break;
        }
        length += pages(entry) * PAGE;
        whole.push(entry.clone());
    }
    assert!(whole.starts_with(&told.settled));

    let log = open(disk).unwrap();
    assert_eq!(entries_of(&log), whole);
    let beyond = (given - length) as u64;
    assert_eq!(log.cut_off(), CutOff { excess: beyond % 1_024, dropped: beyond / 1_024 });
    assert_eq!(log.cut_off().bytes(), beyond);
    assert_eq!(disk.bytes(), log.log().bytes());
    (log, whole)
}

/// The same, and what the log answers stays, and it goes on.
fn go_on(disk: &Simulated, told: &Told) {
    let (mut log, mut whole) = open_again(disk, told);
    assert_eq!(disk.restart(0).bytes(), log.log().bytes()); // what it answers, a power failure does not take away

    whole.push(entry(log.take().unwrap(), 2));
    log.push(&whole[whole.len() - 1..]).unwrap();
    drop(log);
    let again = open(&disk.restart(0)).unwrap();
    assert_eq!((entries_of(&again), again.cut_off()), (whole, CutOff::default()));
}

/// Tells the story from every beginning, with a fault at every operation in turn.
fn at_every_operation(mut fault: impl FnMut(&Simulated, usize, &[Entry])) {
    for (number, (beginning, entries)) in beginnings().into_iter().enumerate() {
        let unharmed = beginning.restart(0);
        let told = tell(&unharmed, entries.clone());
        assert_eq!(unharmed.bytes(), bytes_of(&told.settled));
        for operation in 0..unharmed.operations() {
            let _case = Case(format!("beginning {number}, operation {operation}"));
            fault(&beginning, operation, &entries);
        }
    }
}

/// Where a write of so many bytes is cut: at every byte, or in a page's first fields, about its end and between.
fn cuts(bytes: usize, every: bool) -> impl Iterator<Item = usize> {
    (0..=bytes).filter(move |at| every || at % PAGE <= 13 || at % PAGE == PAGE - 1 || at % 97 == 0)
}

#[test]
fn a_file_cut_at_every_byte_opens() {
    let told = Told { settled: Vec::new(), attempted: vec![entry(1, 1), entry(2, 2), entry(3, 3), entry(4, 17)] };
    let bytes = bytes_of(&told.attempted);
    for length in 0..=bytes.len() {
        let _case = Case(format!("{length} bytes"));
        go_on(&Simulated::with(&bytes[..length], 5), &told);
    }
}

/// Tells the story with faults, the first of which comes after any number of its steps.
fn after_any_step(
    beginning: &Simulated,
    entries: &[Entry],
    afters: impl Iterator<Item = usize>,
    faults: impl Fn(usize) -> Vec<(usize, Fault)>,
    mut then: impl FnMut(&Simulated, &Told),
) {
    let mut steps = 0;
    for after in afters {
        if after > steps {
            break;
        }
        let disk = beginning.restart(0);
        let faults = faults(after);
        let _case = Case(format!("{faults:?}"));
        for (operation, fault) in faults {
            disk.set_fault(operation, fault);
        }
        let told = tell(&disk, entries.to_vec());
        steps = disk.fault_steps();
        then(&disk, &told);
    }
}

/// What is left of a push that failed is cut off: so nothing is shown that a sync forgot.
#[test]
fn any_operation_may_fail() {
    at_every_operation(|beginning, operation, entries| {
        for fault in [|after| Fault::Fails { after }, |after| Fault::Forgets { after }] {
            let faults = |after| vec![(operation, fault(after))];
            after_any_step(beginning, entries, cuts(12 * PAGE, false), faults, |disk, told| {
                let pushed = !told.attempted.is_empty();
                assert_eq!(disk.operations(), operation + if pushed { 3 } else { 1 });
                let disks = [disk.restarts(0), disk.restarts(usize::MAX), vec![disk.clone()]].concat();
                if pushed {
                    let settled = bytes_of(&told.settled);
                    assert!(disks.iter().all(|disk| disk.bytes() == settled));
                }
                for disk in &disks {
                    go_on(disk, told);
                }
            });
        }
    });
}

/// The cut of a failed push may fail too, or its sync, or the power then: the log opens with the first entries of the
/// push that are whole in the file, and what it answers stays. Of one case that is not promised: the push's sync forgot
/// and the cut was not made. The log that is opened again then takes what reads show for what the disk has, and a power
/// failure takes entries of that push back, or leaves zeros in their place. What was settled before stays, and what is
/// pushed after them; and the log is sound, unless nothing was settled before and page 0 is lost.
#[test]
fn what_cuts_a_failed_push_back_may_fail() {
    let (mut forgot, mut taken_back) = (0, 0);
    let seconds = [
        (1, Fault::Fails { after: 0 }),
        (1, Fault::Fails { after: 1 }),
        (1, Fault::LosesPower),
        (2, Fault::Fails { after: 0 }),
        (2, Fault::Forgets { after: 0 }),
        (2, Fault::Forgets { after: 1_500 }),
        (2, Fault::LosesPower),
    ];
    at_every_operation(|beginning, operation, entries| {
        for (first, (later, second)) in [|after| Fault::Fails { after }, |after| Fault::Forgets { after }]
            .into_iter()
            .flat_map(|first: fn(usize) -> Fault| seconds.map(|second| (first, second)))
        {
            let faults = |after| vec![(operation, first(after)), (operation + later, second)];
            let afters = (0..12 * PAGE).step_by(PAGE / 2);
            after_any_step(beginning, entries, afters, faults, |disk, told| {
                if told.attempted.is_empty() {
                    return; // it was an opening that failed, and it cuts nothing back
                }
                assert_eq!(disk.operations(), operation + later + 1);
                for steps in (0..=disk.steps()).step_by(PAGE / 2).chain([usize::MAX]) {
                    for disk in disk.restarts(steps) {
                        go_on(&disk, told);
                    }
                }
                if disk.forgot() {
                    assert!(matches!((first(0), later, second), (Fault::Forgets { .. }, 1, Fault::Fails { after: 0 })));
                    forgot += 1;
                    let (mut log, answered) = open_again(disk, told);
                    let (_, kept) = open_again(&disk.restart(0), told);
                    taken_back += u32::from(kept.len() < answered.len());
                    let next = entry(log.take().unwrap(), 2);
                    log.push(std::slice::from_ref(&next)).unwrap();
                    let again = open(&disk.restart(0)).unwrap();
                    for entry in told.settled.iter().chain([&next]) {
                        assert_eq!(again.log().get(entry.id).unwrap().as_ref(), Some(&entry.data));
                    }
                    assert!(told.settled.is_empty() || again.log().check().is_ok());
                } else if !matches!(second, Fault::LosesPower) {
                    go_on(disk, told);
                }
            });
        }
    });
    assert!(forgot > 0 && taken_back > 0, "what the comment tells of does not come up");
}

/// A process was stopped between its write and the sync, and the sync of the next opening fails and forgets. Nobody
/// knows where to cut, so no more is promised than where a push could not be cut back.
#[test]
fn the_sync_of_an_opening_may_forget_what_another_wrote() {
    let told = Told { settled: vec![entry(1, 2)], attempted: vec![entry(2, 3), entry(3, 1)] };
    let (before, bytes) = (bytes_of(&told.settled), bytes_of(&[&*told.settled, &*told.attempted].concat()));
    let mut taken_back = 0;
    for after in cuts(bytes.len() - before.len(), false) {
        let _case = Case(format!("after {after} steps"));
        let disk = Simulated::with(&before, 4);
        let mut stopped = disk.handle();
        assert!(stopped.open().unwrap());
        stopped.write(before.len() as u64, &bytes[before.len()..]).unwrap();
        drop(stopped);
        disk.set_fault(disk.operations() + 2, Fault::Forgets { after }); // after the opening and the ceiling
        assert!(matches!(open(&disk), Err(Error::Io(_))));
        let (_, answered) = open_again(&disk, &told);
        let (_, kept) = open_again(&disk.restart(0), &told);
        taken_back += u32::from(kept.len() < answered.len());
    }
    assert!(taken_back > 0);
}

#[test]
fn the_power_may_fail_at_any_byte() {
    at_every_operation(|beginning, operation, entries| {
        let disk = beginning.restart(0);
        disk.set_fault(operation, Fault::LosesPower);
        let told = tell(&disk, entries.to_vec());
        assert_eq!(disk.operations(), operation + if told.attempted.is_empty() { 1 } else { 2 });
        let every_byte = entries.is_empty(); // the other beginnings differ in how they are opened
        for steps in cuts(disk.steps(), every_byte) {
            let _case = Case(format!("{steps} steps kept"));
            for disk in disk.restarts(steps) {
                go_on(&disk, &told);
            }
        }
    });
}

/// A disk that keeps any sectors of what no sync has covered, and zeros for the others, may keep an entry without all
/// of its data: the library has no checksum and answers it. But it answers of no id that was not pushed, and what was
/// settled stays: as soon as something was, the log opens and is sound. Before, page 0 may be lost, and that is
/// refused.
#[test]
fn sectors_that_come_out_of_order_leave_what_was_settled() {
    let (mut without_page_0, mut without_data) = (0, 0);
    at_every_operation(|beginning, operation, entries| {
        let disk = beginning.restart(0);
        disk.set_fault(operation, Fault::LosesPower);
        let told = tell(&disk, entries.to_vec());
        for seed in 0..100 {
            let _case = Case(format!("seed {seed}"));
            let lost = disk.restart_with_sectors(&mut Chance(seed));
            let sound = open(&lost).and_then(|log| Ok(log.log().check().map(|()| log)?));
            if let (true, Err(Error::Refused(refusal))) = (told.settled.is_empty(), &sound) {
                assert_eq!(*refusal, Refusal::NoEntries { page: 0 });
                without_page_0 += 1;
                continue;
            }
            let found = entries_of(&sound.unwrap());
            assert!(found.starts_with(&told.settled));
            for entry in &found[told.settled.len()..] {
                let pushed = told.attempted.iter().find(|pushed| pushed.id == entry.id).unwrap();
                assert_eq!(pushed.data.len(), entry.data.len());
                assert!(entry.data.iter().zip(&pushed.data).all(|(read, pushed)| read == pushed || *read == 0));
                without_data += u32::from(entry != pushed);
            }
        }
    });
    assert!(without_page_0 > 0 && without_data > 0, "the cases that the comment tells of do not come up");
}

/// Of other bytes after the log, which no push wrote, this alone is promised: the opening refuses, though not for a cut
/// entry, and leaves the file alone; or it cuts the file nowhere before the log's end.
#[test]
fn whatever_comes_after_a_log_none_of_its_bytes_is_lost() {
    let bytes = bytes_of(&[entry(1, 1), entry(2, 2), entry(3, 1)]);
    let mut refused = 0;
    for seed in 0..5_000 {
        let _case = Case(format!("seed {seed}"));
        let mut chance = Chance(seed);
        let mut file = bytes.clone();
        // Mostly marks and lengths that an entry can have, so that many of them are opened.
        for _ in 0..chance.up_to(5) {
            let mut page: Vec<u8> = (0..PAGE).map(|_| chance.up_to(255) as u8).collect();
            page[..3].copy_from_slice(&[[0, 0, 0, 1, 1, 1, 1, 2][chance.up_to(7)], 0, chance.up_to(16) as u8]);
            file.extend(page);
        }
        file.truncate(file.len() - chance.up_to((file.len() - bytes.len()).min(PAGE)));
        let disk = Simulated::with(&file, 4);
        match open(&disk) {
            Ok(log) => assert!(log.log().bytes() == disk.bytes() && file.starts_with(log.log().bytes())),
            Err(Error::Refused(refusal)) => {
                refused += 1;
                assert!(!matches!(refusal, Refusal::CutEntry { .. }));
                assert!(disk.bytes() == file);
            }
            Err(other) => panic!("{other}"),
        }
        assert!(disk.bytes().starts_with(&bytes));
    }
    assert!((100..4_900).contains(&refused), "{refused} were refused");
}
