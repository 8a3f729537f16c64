//! That used ids stay used, over a simulated disk that fails and loses power: over all that ever happens on it no id is
//! handed out twice, one that was dropped is never found, and every opening after a mere crash opens.
use std::collections::BTreeSet;

use crate::{
    ceiling,
    crashes::{entries_of, entry, open, Case, CAPACITY},
    simulated::{Chance, Fault, Simulated},
    CeilingError, CeilingFault, Entry, Error, LogFile,
};

/// What a session does with ids: takes one; pushes the first that it has, or drops it.
#[derive(Clone, Copy, Debug)]
enum Deed {
    Take,
    Push,
    Drop,
}
use Deed::{Drop, Push, Take};

/// Sessions that end with ids dropped, pushed and still in hand, below the ceiling and at it.
const SESSIONS: [&[Deed]; 3] = [&[Take, Take, Take, Push, Drop], &[Take, Drop, Take, Push], &[Take, Take]];
const STEP: u64 = 2;

const FAULTS: [Fault; 5] = [
    Fault::Fails { after: 0 },
    Fault::Fails { after: 1 },
    Fault::Fails { after: usize::MAX },
    Fault::Forgets { after: 1 },
    Fault::LosesPower,
];

/// All that happened on a disk, across its restarts.
#[derive(Clone, Default)]
struct Life {
    handed_out: BTreeSet<u64>,
    settled: Vec<Entry>,
    /// Of pushes that failed: they may be found, or not.
    attempted: Vec<Entry>,
}

impl Life {
    /// What the call answers, tried again where the disk failed and the power is on; nothing once that is lost.
    fn in_the_end<T>(&self, disk: &Simulated, mut call: impl FnMut() -> Result<T, Error>) -> Option<T> {
        loop {
            match call() {
                Err(Error::Io(_)) if disk.is_off() => return None,
                Err(Error::Io(error)) => assert!(disk.is_fault(&error), "{error}"),
                answer => return Some(answer.unwrap()),
            }
        }
    }

    /// Opens the log and does some deeds: whether there is power still.
    fn session(&mut self, disk: &Simulated, step: u64, deeds: &[Deed]) -> bool {
        let Some(mut log) = self.in_the_end(disk, || open(disk)) else { return false };
        log.set_step(step).unwrap();
        self.look_into(&log);
        let mut in_hand = Vec::new();
        for deed in deeds {
            match deed {
                Take => {
                    let Some(id) = self.take(disk, &mut log) else { return false };
                    in_hand.push(id);
                }
                _ if in_hand.is_empty() => {}
                Drop => drop(in_hand.remove(0)),
                Push => {
                    let entry = entry(in_hand.remove(0), 1);
                    if let Err(error) = log.push(std::slice::from_ref(&entry)) {
                        assert!(matches!(error, Error::Io(_)), "{error}");
                        self.attempted.push(entry);
                        break;
                    }
                    self.settled.push(entry);
                }
            }
            self.look_into(&log);
        }
        !disk.is_off()
    }

    fn take(&mut self, disk: &Simulated, log: &mut LogFile) -> Option<u64> {
        let id = self.in_the_end(disk, || {
            let before = log.log().state();
            log.take().inspect_err(|_| assert_eq!(log.log().state(), before))
        })?;
        assert!(self.handed_out.insert(id), "{id} is handed out again");
        Some(id)
    }

    /// What is found are entries that were pushed, all of them if the push returned.
    fn look_into(&self, log: &LogFile) {
        let found = entries_of(log);
        assert!(self.settled.iter().all(|entry| found.contains(entry)));
        assert!(found.iter().all(|entry| self.settled.contains(entry) || self.attempted.contains(entry)));
        assert!(self.handed_out.last() < Some(&log.log().state().next));
    }

    /// All sessions, with the process started again between them, until the power is lost.
    fn live(&mut self, disk: &Simulated) {
        for deeds in SESSIONS {
            if !self.session(disk, STEP, deeds) {
                return;
            }
        }
    }

    /// Lives on, after any power failure; of what a push wrote it kept nothing, a byte or all.
    fn live_on(&self, disk: &Simulated, mut then: impl FnMut(&Simulated, Life)) {
        for steps in BTreeSet::from([0, disk.steps().min(1), disk.steps()]) {
            for disk in disk.restarts(steps) {
                then(&disk, self.clone());
            }
        }
    }

    /// Lives on, after any power failure, on a disk that is well.
    fn live_on_well(&self, disk: &Simulated) {
        self.live_on(disk, |disk, mut life| {
            life.live(disk);
            assert!(!disk.is_off());
            life.live(&disk.restart(0));
        });
    }
}

/// How many operations there are in a life that goes well.
fn operations(disk: &Simulated, life: &Life) -> usize {
    let disk = disk.restart(0);
    life.clone().live(&disk);
    disk.operations()
}

#[test]
fn ids_go_on_after_a_restart() {
    let disk = Simulated::new();
    let mut life = Life::default();
    life.live(&disk);
    // Of each session's last step an id may be left out: here those of the second and the third are used up.
    assert_eq!(life.handed_out.iter().copied().collect::<Vec<_>>(), [1, 2, 3, 5, 6, 7, 8]);
    life.live_on_well(&disk);
}

/// One operation fails, and the power at any later one.
#[test]
fn any_operation_may_fail_and_then_the_power() {
    let new = Simulated::new();
    let operations = operations(&new, &Life::default());
    for (fault, operation) in FAULTS.into_iter().flat_map(|fault| (0..operations).map(move |at| (fault, at))) {
        for power in operation + 1.. {
            let _case = Case(format!("{fault:?} at {operation}, power lost at {power}"));
            let (disk, mut life) = (new.restart(0), Life::default());
            disk.set_fault(operation, fault);
            disk.set_fault(power, Fault::LosesPower);
            life.live(&disk);
            life.live_on_well(&disk);
            if disk.operations() <= power || matches!(fault, Fault::LosesPower) {
                break;
            }
        }
    }
}

/// The power fails at any operation, and once more at any operation of the life after that.
#[test]
fn the_power_may_fail_twice() {
    let new = Simulated::new();
    for first in 0..operations(&new, &Life::default()) {
        let (disk, mut life) = (new.restart(0), Life::default());
        disk.set_fault(first, Fault::LosesPower);
        life.live(&disk);
        life.live_on(&disk, |disk, life| {
            for second in 0..operations(disk, &life) {
                let _case = Case(format!("power lost at {first}, and then at {second}"));
                let (disk, mut life) = (disk.restart(0), life.clone());
                disk.set_fault(second, Fault::LosesPower);
                life.live(&disk);
                life.live_on_well(&disk);
            }
        });
    }
}

/// Long lives by chance: any steps, deeds and faults, with the power lost or only the process stopped.
#[test]
fn no_id_comes_twice_in_a_long_life() {
    let (mut handed_out, mut dropped) = (0, 0);
    for seed in 0..400 {
        let _case = Case(format!("seed {seed}"));
        let mut chance = Chance(seed);
        let (mut disk, mut life) = (Simulated::new(), Life::default());
        for _ in 0..12 {
            for _ in 0..chance.up_to(2) {
                disk.set_fault(disk.operations() + chance.up_to(40), FAULTS[chance.up_to(FAULTS.len() - 1)]);
            }
            let deeds: Vec<Deed> = (0..chance.up_to(12)).map(|_| [Take, Take, Push, Drop][chance.up_to(3)]).collect();
            let on = life.session(&disk, 1 + chance.up_to(3) as u64, &deeds);
            if !on || chance.up_to(2) == 0 {
                let mut left = disk.restarts([0, 1, usize::MAX][chance.up_to(2)]);
                disk = left.swap_remove(chance.up_to(left.len() - 1));
            }
        }
        handed_out += life.handed_out.len();
        dropped += life.handed_out.len() - life.settled.len() - life.attempted.len();
    }
    assert!(handed_out > 5_000 && dropped > 1_000, "{handed_out} handed out, {dropped} dropped");
}

/// What another process does at the same time: it opens the log, or makes it, takes two ids, pushes one and is gone. It
/// does nothing if it does not get the lock.
fn other(disk: &Simulated) {
    if let Ok(mut log) = open(disk) {
        let ids = [log.take().unwrap(), log.take().unwrap()];
        log.push(&[entry(ids[0], 1)]).unwrap();
    }
}

/// Before any operation of an opening; of an adoption, where it makes a log.
#[test]
fn another_process_may_open_the_log_at_the_same_time() {
    // With nothing on the disk the lock comes with the seventh operation, that makes the log; else with the first.
    for (beginning, before_the_lock) in [(Simulated::new(), 7), (Simulated::with(&[], 1), 1)] {
        let alone = beginning.restart(0);
        open(&alone).unwrap();
        for operation in 0..alone.operations() {
            let _case = Case(format!("before operation {operation}"));
            let disk = beginning.restart(0);
            disk.set_meanwhile(operation, other);
            let mut log = open(&disk).unwrap();
            let id = log.take().unwrap();
            match operation < before_the_lock {
                true => assert_eq!((entries_of(&log), id), (vec![entry(1, 1)], 1_025)),
                false => assert_eq!((entries_of(&log), id), (vec![], 1)),
            }
            drop(log);
            assert_eq!(open(&disk.restart(0)).unwrap().take().unwrap(), id + 1_024);
        }
    }
    // The third operation makes the log.
    for operation in 0..4 {
        let disk = Simulated::holding(None, Some(b"damaged"));
        disk.set_meanwhile(operation, |disk| drop(LogFile::adopt_on(disk.handle(), CAPACITY, 7)));
        let adopted = LogFile::adopt_on(disk.handle(), CAPACITY, 5);
        match operation < 3 {
            true => assert_eq!(fault_of(adopted), CeilingFault::Intact),
            false => assert_eq!(adopted.unwrap().take().unwrap(), 5),
        }
        assert_eq!(open(&disk).unwrap().take().unwrap(), if operation < 3 { 7 } else { 1_029 });
    }
    // Where nothing is to be adopted the second is the last.
    for operation in 0..2 {
        let disk = Simulated::new();
        disk.set_meanwhile(operation, other);
        assert_eq!(fault_of(LogFile::adopt_on(disk.handle(), CAPACITY, 5)), CeilingFault::Intact);
        assert_eq!(open(&disk).unwrap().take().unwrap(), 1_025);
    }
}

fn fault_of<T: std::fmt::Debug>(opened: Result<T, Error>) -> CeilingFault {
    match opened {
        Err(Error::Ceiling(CeilingError { fault, .. })) => fault,
        other => panic!("{other:?}"),
    }
}

/// Logs from before, or whose ceiling was lost: empty, whole and torn, with the ceiling missing or damaged.
fn without_a_ceiling() -> Vec<(Simulated, CeilingFault, Vec<Entry>)> {
    let mut log = crate::Log::with_capacity(CAPACITY);
    let entries = [entry(1, 1), entry(2, 1)];
    log.push(&entries).unwrap();
    let line = ceiling::line(9);
    let mut disks = Vec::new();
    for (length, whole) in [(0, 0), (1_024, 1), (1_500, 1), (2_048, 2)] {
        for (ceiling, fault) in [
            (None, CeilingFault::Missing),
            (Some(""), CeilingFault::Damaged),
            (Some(&line[..line.len() - 1]), CeilingFault::Damaged),
        ] {
            let disk = Simulated::holding(Some(&log.bytes()[..length]), ceiling.map(str::as_bytes));
            disks.push((disk, fault, entries[..whole].to_vec()));
        }
    }
    disks
}

/// Nothing is written, and the log is not read.
#[test]
fn a_log_without_its_ceiling_is_left_alone() {
    for (disk, fault, _) in without_a_ceiling() {
        let bytes = disk.bytes();
        assert_eq!(fault_of(open(&disk)), fault);
        assert_eq!((disk.operations(), disk.bytes(), disk.restarts(0).len()), (2, bytes, 1));
    }
}

/// Nothing is made for an adoption.
#[test]
fn neither_a_log_nor_a_ceiling() {
    let disk = Simulated::new();
    match LogFile::adopt_on(disk.handle(), CAPACITY, 5) {
        Err(Error::Io(error)) => assert_eq!(error.kind(), std::io::ErrorKind::NotFound),
        other => panic!("{other:?}"),
    }
    assert_eq!((disk.operations(), disk.restarts(0).len()), (2, 1));
    assert_eq!(open(&disk).unwrap().take().unwrap(), 1);
}

/// A ceiling that is damaged is told of before a log is made; one that is well is used.
#[test]
fn a_ceiling_without_its_log() {
    let disk = Simulated::holding(None, Some(b"awirbesh"));
    assert_eq!(fault_of(open(&disk)), CeilingFault::Damaged);
    assert_eq!(disk.operations(), 2);
    assert_eq!(LogFile::adopt_on(disk.handle(), CAPACITY, 9).unwrap().take().unwrap(), 9);
    let disk = Simulated::holding(None, Some(ceiling::line(9).as_bytes()));
    assert_eq!(fault_of(LogFile::adopt_on(disk.handle(), CAPACITY, 5)), CeilingFault::Intact);
    assert_eq!(disk.operations(), 2);
    assert_eq!(open(&disk).unwrap().take().unwrap(), 9);
}

/// Any operation of an adoption fails, or the power at it: the log is as it was without its ceiling, or is adopted.
#[test]
fn an_adoption_may_fail() {
    for ((disk, fault, entries), ceiling) in
        without_a_ceiling().into_iter().flat_map(|log| [(log.clone(), 0), (log, 7)])
    {
        let adopt = |disk: &Simulated| LogFile::adopt_on(disk.handle(), CAPACITY, ceiling);
        let next = ceiling.max(entries.len() as u64 + 1);
        let goes_on = |disk: &Simulated| {
            let mut log = open(disk).unwrap();
            assert_eq!((entries_of(&log), log.take().unwrap()), (entries.clone(), next));
            drop(log);
            assert_eq!(fault_of(adopt(disk)), CeilingFault::Intact);
        };
        let adopted = disk.restart(0);
        drop(adopt(&adopted).unwrap());
        let operations = adopted.operations();
        adopted.restarts(0).iter().for_each(goes_on);
        for (operation, how) in (0..operations).flat_map(|operation| FAULTS.map(|how| (operation, how))) {
            let _case = Case(format!("{fault:?}, {} entries, {how:?} at {operation}", entries.len()));
            let disk = disk.restart(0);
            disk.set_fault(operation, how);
            assert!(matches!(adopt(&disk), Err(Error::Io(_))));
            let mut left = [disk.restarts(0), disk.restarts(usize::MAX)].concat();
            if !disk.is_off() {
                left.push(disk);
            }
            for disk in left {
                if let Err(Error::Ceiling(error)) = open(&disk) {
                    assert_eq!(error.fault, fault);
                    adopt(&disk).unwrap();
                }
                goes_on(&disk);
            }
        }
    }
}
