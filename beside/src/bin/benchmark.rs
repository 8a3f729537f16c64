//! Times the library and nebari's Rust on the same inputs, in one run: `scripts/benchmark` prints the table of
//! docs/BENCHMARK.md; with --pushes, --recoveries or --takes it prints those rows alone. Build it with --release.
//!
//! Both sides work in memory: the Rust on a file that is a plain vector, reached through `&mut dyn File` as nebari
//! reaches its files; ours through the safe functions of the host crate. The two take turns, and the least time of all
//! turns counts, so that what else runs on the machine disturbs both alike and little.
use std::{hint::black_box, ops::Bound, time::Instant};

use awirbesh::{ffi, lent, IdSequence, Look, State, Step};
use beside::{chance::Chance, rust::Rust, Numbers};
use nebari::{
    io::MemoryFile,
    transaction::{
        log::{probe, LogEntry, ScanResult},
        manager::probe::Sequence,
        state::probe as state_probe,
    },
};

const TURNS: usize = 20;
/// About as long as the slower side's turn should take, in nanoseconds.
const TURN: f64 = 4e6;
const PAGE: usize = 1024;
/// Payload of an entry that takes one page: 100 bytes of data.
const SMALL: usize = 108;

/// The least time of one operation on either side, in nanoseconds. Each closure does `count` operations.
fn times(count: usize, mut rust: impl FnMut(), mut ours: impl FnMut()) -> (f64, f64) {
    let one = |run: &mut dyn FnMut()| {
        let start = Instant::now();
        run();
        start.elapsed().as_nanos() as f64 / count as f64
    };
    let (mut by_rust, mut by_ours) = (f64::MAX, f64::MAX);
    for _ in 0..TURNS {
        by_rust = by_rust.min(one(&mut rust));
        by_ours = by_ours.min(one(&mut ours));
    }
    (by_rust, by_ours)
}

fn row(what: &str, (rust, ours): (f64, f64), note: &str) {
    println!("| {what} | {rust:.0} | {ours:.0} | {:.1} | {note} |", rust / ours);
}

/// With a decimal for ours, where little is to be told apart.
fn fine_row(what: &str, (rust, ours): (f64, f64)) {
    println!("| {what} | {rust:.0} | {ours:.1} | {:.1} | |", rust / ours);
}

/// A log in memory on both sides.
struct Log {
    store: Vec<u8>,
    state: State,
    rust: Rust,
    ids: Vec<u64>,
}

fn log_of(ids: Vec<u64>, payload: usize, next: u64) -> Log {
    let pages = if payload <= 1020 { 1 } else { 1 + (payload - 1020).div_ceil(1023) };
    let mut store = vec![0; ids.len() * pages * PAGE];
    let mut state = State::fresh();
    let data = Chance::new(1).bytes(payload - 8);
    for &id in &ids {
        let pushed = lent::push(&mut store, state, &[id], &[data.len() as u64], &data);
        assert_eq!(pushed.refusal, None);
        state = pushed.state;
    }
    state.next = next;
    let rust = Rust::of(store[..state.length as usize].to_vec(), state.into());
    Log { store, state, rust, ids }
}

fn dense(count: u64) -> Vec<u64> {
    (1..=count).collect()
}

fn gapped(count: u64, widest: u64) -> Vec<u64> {
    let mut chance = Chance::new(widest);
    let mut last = 0;
    (0..count)
        .map(|_| {
            last += 1 + chance.below(widest);
            last
        })
        .collect()
}

/// Many ids of some, in no order.
fn shuffled(of: &[u64]) -> Vec<u64> {
    let mut chance = Chance::new(9);
    (0..4_000).map(|_| chance.pick(of)).collect()
}

/// How many of the ids the Rust looks up in a turn's time.
fn that_fit_a_turn(log: &mut Log, ids: &[u64]) -> usize {
    let start = Instant::now();
    for (done, &id) in ids.iter().enumerate() {
        black_box(probe::fetch(&mut log.rust.file, &log.rust.state, id).is_ok());
        if start.elapsed().as_nanos() as f64 > TURN {
            return done + 1;
        }
    }
    ids.len()
}

fn lookups(what: &str, log: &mut Log, ids: &[u64]) {
    let mut out = vec![0; 4 * PAGE];
    let (mut by_rust, mut by_ours) = (0, 0);
    let mut ids = shuffled(ids);
    ids.truncate(that_fit_a_turn(log, &ids));
    for &id in &ids {
        by_rust +=
            usize::from(matches!(probe::fetch(&mut log.rust.file, &log.rust.state, id), Ok(ScanResult::Found { .. })));
        by_ours += usize::from(matches!(lent::lookup(&log.store, log.state, id, &mut out), Ok(Look::Found { .. })));
    }
    let Log { store, state, rust, .. } = log;
    let timed = times(
        ids.len(),
        || {
            for &id in &ids {
                black_box(probe::fetch(&mut rust.file, &rust.state, black_box(id)).is_ok());
            }
        },
        || {
            for &id in &ids {
                black_box(lent::lookup(store, *state, black_box(id), &mut out).is_ok());
            }
        },
    );
    let percent = |count: usize| count as f64 * 100.0 / ids.len() as f64;
    let lost = percent(by_ours) - percent(by_rust);
    let note = if lost > 0.0 { format!("the Rust does not find {lost:.1} % of them") } else { String::new() };
    row(what, timed, &note);
}

/// Ids from 1 to below next that are not stored.
fn absent(log: &Log) -> Vec<u64> {
    (1..log.state.next).filter(|id| log.ids.binary_search(id).is_err()).collect()
}

fn all_lookups() {
    for (what, ids, payload) in [
        ("100 one-page entries, dense", dense(100), SMALL),
        ("10,000 one-page entries, dense", dense(10_000), SMALL),
        ("10,000 one-page entries, gaps 1 to 3", gapped(10_000, 3), SMALL),
        ("2,000 one-page entries, gaps 1 to 1,000", gapped(2_000, 1_000), SMALL),
        ("2,000 entries of payload 3,000, dense", dense(2_000), 3_000),
        ("2,000 full pages (payload 1,020), dense", dense(2_000), 1_020),
    ] {
        let last = *ids.last().unwrap();
        let is_dense = last == ids.len() as u64;
        let mut log = log_of(ids.clone(), payload, last + 1);
        lookups(&format!("lookup, stored: {what}"), &mut log, &ids);
        if is_dense {
            // Every id below next is stored: the absent ones are those not handed out yet ..
            lookups(&format!("lookup, absent, next or above: {what}"), &mut log, &[last + 1, last + 2, last + 9]);
            // .. or, with a later next, those that were taken and dropped since the last entry.
            log = log_of(ids, payload, last + 11);
        }
        let ids = absent(&log);
        lookups(&format!("lookup, absent, below next: {what}"), &mut log, &ids);
    }
}

fn scan_ours(log: &Log, range: ffi::Range, out: &mut [u8]) -> u64 {
    let mut cursor = lent::scan(&log.store, log.state, range).unwrap();
    let mut bytes = 0;
    while let Ok(Step::Entry { length, cursor: next, .. }) = lent::step(&log.store, log.state, range, cursor, out) {
        bytes += length;
        cursor = next;
    }
    bytes
}

fn scan_rust(rust: &mut Rust, ids: (Bound<u64>, Bound<u64>)) -> u64 {
    let mut bytes = 0;
    let read = |entry: LogEntry<'static>| {
        bytes += entry.data().map_or(0, |data| data.len() as u64);
        true
    };
    probe::scan(&mut rust.file, &rust.state, ids, read).unwrap();
    bytes
}

fn scans() {
    let mut out = vec![0; 4 * PAGE];
    for (what, count, payload) in
        [("10,000 one-page entries", 10_000, SMALL), ("2,000 entries of payload 3,000", 2_000, 3_000)]
    {
        let log = log_of(dense(count), payload, count + 1);
        let mut rust = Rust::of(log.store.clone(), log.state.into());
        let all = (Bound::Unbounded, Bound::Unbounded);
        assert_eq!(scan_ours(&log, ffi::Range::of(&all), &mut out), scan_rust(&mut rust, all));
        let timed = times(
            count as usize,
            || {
                black_box(scan_rust(&mut rust, all));
            },
            || {
                black_box(scan_ours(&log, ffi::Range::of(&all), &mut out));
            },
        );
        row(&format!("scan of all, an entry: {what}"), timed, "");
    }
    // The Rust goes on to the log's end where the caller does not stop it; so do we, by the steps.
    let log = log_of(dense(10_000), SMALL, 10_001);
    let mut rust = Rust::of(log.store.clone(), log.state.into());
    let ids = (Bound::Included(9_901), Bound::Excluded(9_911));
    assert_eq!(scan_ours(&log, ffi::Range::of(&ids), &mut out), scan_rust(&mut rust, ids));
    let timed = times(
        100,
        || {
            for _ in 0..100 {
                black_box(scan_rust(&mut rust, ids));
            }
        },
        || {
            for _ in 0..100 {
                black_box(scan_ours(&log, ffi::Range::of(&ids), &mut out));
            }
        },
    );
    row("scan of 10 ids, 100 before the end of 10,000, the whole scan", timed, "");
}

/// Pushes of batches of so many entries, each to the end of what is already there, until the room is used.
fn pushes(what: &str, entries: usize, length: usize, batches: usize) {
    let data = Chance::new(2).bytes(length * entries);
    let ends: Vec<u64> = (1..=entries).map(|i| (i * length) as u64).collect();
    let pages = if length + 8 <= 1020 { 1 } else { 1 + (length + 8 - 1020).div_ceil(1023) };
    let bytes = batches * entries * pages * PAGE;
    let mut store = vec![0; bytes];
    let mut last = 0;
    let mut rust = Rust::of(Vec::with_capacity(bytes), Numbers::FRESH);
    rust.file.bytes.resize(bytes, 0);
    let mut rust_last = 0;
    let (mut by_rust, mut by_ours) = (f64::MAX, f64::MAX);
    for _ in 0..TURNS {
        // The Rust's push takes entries that own their data: made before the clock starts.
        let made: Vec<Vec<LogEntry<'static>>> = (0..batches)
            .map(|_| {
                (0..entries)
                    .map(|i| {
                        rust_last += 1;
                        probe::entry(rust_last, Some(data[i * length..(i + 1) * length].to_vec())).unwrap()
                    })
                    .collect()
            })
            .collect();
        rust.file.bytes.clear();
        let numbers = rust.numbers();
        rust.set(Numbers { length: 0, ..numbers });
        let start = Instant::now();
        for batch in made {
            black_box(probe::push(&mut rust.file, &rust.state, batch).is_ok());
        }
        by_rust = by_rust.min(start.elapsed().as_nanos() as f64 / batches as f64);
        assert_eq!(rust.file.bytes.len(), bytes);

        let ids_of = |batch: usize| (1..=entries).map(move |i| last + (batch * entries + i) as u64).collect();
        let made: Vec<Vec<u64>> = (0..batches).map(ids_of).collect();
        let mut state = State { last, ..State::fresh() };
        let start = Instant::now();
        for ids in &made {
            state = black_box(lent::push(&mut store, state, ids, &ends, &data)).state;
        }
        by_ours = by_ours.min(start.elapsed().as_nanos() as f64 / batches as f64);
        assert_eq!(state.length as usize, bytes);
        last = state.last;
    }
    // But for the filling: the Rust's is stale, and an older archive's too.
    let payload_end = length + 11 + pages;
    for entry in store.chunks_mut(pages * PAGE).chain(rust.file.bytes.chunks_mut(pages * PAGE)) {
        entry[payload_end..].fill(0);
    }
    assert!(store == rust.file.bytes, "both wrote the same bytes, but for the filling");
    row(&format!("push: {what}"), (by_rust, by_ours), "");
}

fn all_pushes() {
    pushes("one entry of one page (100 bytes)", 1, 100, 2_000);
    pushes("16 entries of one page (100 bytes)", 16, 100, 200);
    pushes("16 entries of one page (no data)", 16, 0, 200);
    pushes("one full page (1,012 bytes)", 1, 1_012, 2_000);
    pushes("one entry of two pages (1,013 bytes)", 1, 1_013, 1_000);
    pushes("one entry of three pages (2,992 bytes)", 1, 2_992, 1_000);
    pushes("one entry of 1 MiB", 1, 1 << 20, 8);
}

fn recoveries() {
    for (what, count, payload) in
        [("10,000 one-page entries", 10_000, SMALL), ("2,000 entries of payload 3,000", 2_000, 3_000)]
    {
        let log = log_of(dense(count), payload, count + 1);
        let length = log.state.length;
        let mut file = MemoryFile::of(log.store.clone());
        let state = state_probe::state(0, 0, 0);
        let timed = times(
            1_000,
            || {
                for _ in 0..1_000 {
                    state_probe::set(&state, 0, 0, 0);
                    black_box(probe::initialize(&mut file, &state, length).is_ok());
                }
            },
            || {
                for _ in 0..1_000 {
                    black_box(lent::recover(black_box(&log.store), length, 0).is_ok());
                }
            },
        );
        fine_row(&format!("recovery: {what}"), timed);
    }
    torn_recovery();
    for (what, pages) in [("1,000", 1_000), ("10,000", 10_000), ("100,000", 100_000)] {
        cut_starts(what, pages);
    }
}

/// The least time of so many runs of one side, in nanoseconds.
fn least<T>(count: usize, mut run: impl FnMut() -> T) -> f64 {
    let mut least = f64::MAX;
    for _ in 0..TURNS {
        let start = Instant::now();
        for _ in 0..count {
            black_box(run());
        }
        least = least.min(start.elapsed().as_nanos() as f64 / count as f64);
    }
    least
}

const ERROR: &str = "the Rust answers an error";

fn fails_in_rust(bytes: &[u8]) -> bool {
    let length = bytes.len() as u64;
    probe::initialize(&mut MemoryFile::of(bytes.to_vec()), &state_probe::state(0, 0, 0), length).is_err()
}

/// A log that ends in an entry of 17 pages, of which the last is missing.
fn torn_recovery() {
    let Log { mut store, state, .. } = log_of(dense(10_000), SMALL, 10_001);
    store.resize(store.len() + 17 * PAGE, 0);
    let data = Chance::new(3).bytes(17_000);
    let pushed = lent::push(&mut store, state, &[10_001], &[data.len() as u64], &data);
    let cut = pushed.state.length - PAGE as u64;
    let left = State { ceiling: state.next, ..state };
    assert_eq!(lent::recover(&store, cut, 0), Ok(lent::Recovered { state: left, excess: 0, dropped: 16 }));
    assert!(fails_in_rust(&store[..cut as usize]));
    let ours = least(1_000, || lent::recover(black_box(&store), cut, 0).is_ok());
    println!("| recovery: 10,000 one-page entries and 16 pages of one of 17 | | {ours:.1} | | {ERROR} |");
}

/// Each page is a start whose entry has two: all are dropped, one after the other.
fn cut_starts(what: &str, pages: usize) {
    let mut store = vec![0; pages * PAGE];
    for page in store.chunks_mut(PAGE) {
        page[..4].copy_from_slice(&[1, 0, 4, 0]);
    }
    let length = store.len() as u64;
    let emptied = lent::Recovered { state: State::fresh(), excess: 0, dropped: pages as u64 };
    assert_eq!(lent::recover(&store, length, 0), Ok(emptied));
    assert!(fails_in_rust(&store));
    let count = 200_000 / pages;
    let ours = least(count, || lent::recover(black_box(&store), length, 0).is_ok()) / pages as f64;
    let number = |page: &[u8]| u32::from_be_bytes([page[0], page[1], page[2], page[3]]);
    let read = || black_box(&store).chunks(PAGE).rev().map(number).fold(0, u32::wrapping_add);
    let plain = least(count, read) / pages as f64;
    let note = format!("{ERROR}; to read the same bytes and no more: {plain:.1}");
    println!("| recovery, a page: a tail of {what} cut starts | | {ours:.1} | | {note} |");
}

/// An id costs us a raise's part too: the ceiling is raised once for each 1,024 of them, and nothing is stored.
fn takes() {
    const BLOCK: u64 = 1_024;
    const BLOCKS: u64 = 16;
    let (rust, mut state) = (Rust::of(Vec::new(), Numbers::FRESH), State::fresh());
    let timed = times(
        (BLOCK * BLOCKS) as usize,
        || {
            for _ in 0..BLOCK * BLOCKS {
                black_box(rust.take());
            }
        },
        || {
            for _ in 0..BLOCKS {
                state.raise(BLOCK).unwrap();
                for _ in 0..BLOCK {
                    black_box(state.take().unwrap());
                }
            }
        },
    );
    assert_eq!(state.next, rust.numbers().next);
    fine_row("take, our ceiling raised every 1,024 ids", timed);
}

fn notes() {
    let upwards: Vec<u64> = (1..=4_096).collect();
    let mut in_blocks = Vec::new();
    for block in upwards.chunks(48) {
        in_blocks.extend(block.iter().rev());
    }
    for (what, ids) in [("4,096 ids upwards", &upwards), ("4,096 ids, each 48 of them downwards", &in_blocks)] {
        let timed = times(
            ids.len(),
            || {
                let mut sequence = Sequence::new(1);
                ids.iter().for_each(|&id| sequence.note(black_box(id)));
                assert!(sequence.complete());
            },
            || {
                let mut sequence = IdSequence::new(1);
                ids.iter().for_each(|&id| sequence.note(black_box(id)).unwrap());
                assert!(sequence.complete());
            },
        );
        row(&format!("note: {what}"), timed, "");
    }
}

/// The sound check has nothing beside it.
fn checks() {
    let log = log_of(dense(10_000), SMALL, 10_001);
    let ours = least(1, || lent::check(black_box(&log.store), log.state.length).is_ok()) / 10_000.0;
    println!("| sound check, a page: 10,000 one-page entries | | {ours:.0} | | the Rust has none |");
}

fn machine() {
    let about = std::fs::read_to_string("/proc/cpuinfo").unwrap_or_default();
    let model = about.lines().find_map(|line| line.strip_prefix("model name")).unwrap_or("unknown");
    let cores = std::thread::available_parallelism().map_or(0, |n| n.get());
    println!("{}, {cores} cores\n", model.trim_start_matches([' ', '\t', ':']));
}

fn main() {
    let only = std::env::args().nth(1);
    machine();
    println!("| what | the Rust, ns | ours, ns | times as fast | |");
    println!("|---|---|---|---|---|");
    match only.as_deref() {
        Some("--pushes") => return all_pushes(),
        Some("--recoveries") => return recoveries(),
        Some("--takes") => return takes(),
        _ => {}
    }
    all_lookups();
    scans();
    all_pushes();
    recoveries();
    takes();
    notes();
    checks();
}
