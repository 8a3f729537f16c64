//! Every small log, every id and every range of ids around it, on both sides.
use std::ops::Bound;

use beside::{layout, Departure, Entry, Ids, Pair, Tally, PAGE};

/// Payloads for entries of one, two and three pages, two of each about the boundaries.
const PAYLOADS: [[usize; 2]; 3] = [[8, 1_020], [1_021, 2_043], [2_044, 3_000]];
/// Ids go up by these, and next lies these above the last.
const GAPS: [u64; 3] = [1, 2, 3];
const AHEAD: [u64; 3] = [1, 2, 4];

/// Calls `look` with every log of up to so many pages: entries of one to three pages, idle pages, gaps of one to three.
fn every_log(pair: &Pair, pages: u64, tally: &mut Tally, look: &mut dyn FnMut(&mut Pair, &mut Tally)) {
    let mut this = pair.copy();
    look(&mut this, tally);
    let left = pages - pair.pages();
    for (size, payloads) in (1..=left.min(3)).zip(PAYLOADS) {
        for gap in GAPS {
            let id = pair.state().last + gap;
            // The gap picks the payload, so that both come up with every size.
            let payload = payloads[(gap as usize + 1) % 2];
            let data = (0..payload - 8).map(|i| (i as u64 * 31 + id * 7 + size) as u8).collect();
            let mut longer = pair.copy();
            longer.push(&[Entry { id, data }], tally);
            every_log(&longer, pages, tally, look);
        }
    }
    if left > 0 && !pair.held.is_empty() {
        let mut longer = pair.copy();
        longer.add_idle_page(0x55);
        every_log(&longer, pages, tally, look);
    }
}

fn for_each_next(pair: &mut Pair, mut look: impl FnMut(&mut Pair)) {
    for ahead in AHEAD {
        pair.set_next(pair.state().last + ahead);
        pair.assert_in_domain();
        look(pair);
    }
}

#[test]
fn every_lookup_in_every_log_up_to_seven_pages() {
    let mut tally = Tally::default();
    let mut logs = 0;
    every_log(&Pair::with_capacity(7), 7, &mut tally, &mut |pair, tally| {
        logs += 1;
        for_each_next(pair, |pair| {
            for id in 0..=pair.state().next + 1 {
                pair.compare_lookup(id, tally);
            }
        });
    });
    tally.add_compared("logs", logs);
    tally.print("every log up to seven pages");

    // Each departure comes up, at the input that docs/DIFFERENCES.md gives as the smallest.
    assert_eq!(tally.smallest(Departure::LaterPages), "1 (payload 1021), 2 (payload 8); next 4; id 2");
    assert_eq!(tally.smallest(Departure::IdlePages), "1 (payload 8), idle, 2 (payload 8); next 4; id 2");
    assert_eq!(tally.smallest(Departure::AbsentPosition), "1 (payload 8), idle; next 3; id 2");
    assert_eq!(tally.times(Departure::FarApart), 0);
}

/// Both ends open, included or excluded, at every id from 0 to two past next.
fn every_range(next: u64) -> impl Iterator<Item = Ids> {
    let ends = move || {
        let closed = (0..=next + 1).flat_map(|id| [Bound::Included(id), Bound::Excluded(id)]);
        std::iter::once(Bound::Unbounded).chain(closed)
    };
    ends().flat_map(move |lower| ends().map(move |upper| (lower, upper)))
}

#[test]
fn every_scan_in_every_log_up_to_five_pages() {
    let mut tally = Tally::default();
    every_log(&Pair::with_capacity(5), 5, &mut tally, &mut |pair, tally| {
        for_each_next(pair, |pair| {
            for ids in every_range(pair.state().next) {
                pair.compare_scan(ids, tally);
            }
        });
    });
    tally.print("every log up to five pages, every range");
    assert!(tally.needed.keys().eq([&Departure::StaleFilling]), "scans agree everywhere");
}

#[test]
fn every_recovery_of_every_log_up_to_five_pages() {
    let mut tally = Tally::default();
    every_log(&Pair::with_capacity(5), 5, &mut tally, &mut |pair, tally| {
        pair.compare_recovery(&[], tally);
        if !pair.held.is_empty() {
            pair.compare_recovery(&[1], tally);
            pair.compare_recovery(&[0; 1_023], tally);
        }
    });
    tally.print("every log up to five pages, recovered");
}

/// Each log is cut at the front of each of its pages, about it, at the end, and where the whole log ends.
#[test]
fn every_log_up_to_four_pages_cut() {
    let mut tally = Tally::default();
    every_log(&Pair::with_capacity(4), 4, &mut tally, &mut |pair, tally| {
        pair.compare_cut(pair.state().length, tally);
        for page in 0..pair.pages() {
            for byte in [0, 1, 12, 1_023] {
                pair.compare_cut(page * PAGE + byte, tally);
            }
        }
    });
    tally.print("every log up to four pages, cut");
    // Each departure comes up, at the input that docs/DIFFERENCES.md gives as the smallest.
    assert_eq!(tally.smallest(Departure::TornEntry), "1 (payload 1021); next 1; cut at 1024");
    assert_eq!(tally.smallest(Departure::PartPage), "1 (payload 8); next 1; cut at 1");
}

/// Each log is opened again after none, one and three ids were taken and dropped.
#[test]
fn every_restart_of_every_log_up_to_four_pages() {
    let mut tally = Tally::default();
    every_log(&Pair::with_capacity(4), 4, &mut tally, &mut |pair, tally| {
        for_each_next(pair, |pair| {
            for dropped in [0, 1, 3] {
                pair.compare_restart(dropped, tally);
            }
        });
    });
    tally.print("every log up to four pages, opened again");
    // The id that docs/DIFFERENCES.md gives as the smallest; and each log shows it, but where nothing was dropped.
    assert_eq!(tally.smallest(Departure::UsedId), "; next 1; 1 taken and dropped");
    assert_eq!(tally.times(Departure::UsedId), tally.compared["restarts"] / 9 * 8);
}

/// Every list of up to three entries with payloads about the boundaries, cut into pushes in every way.
#[test]
fn every_list_of_up_to_three_entries_in_every_batch() {
    const PAYLOADS: [usize; 9] = [8, 9, 10, 500, 1_019, 1_020, 1_021, 2_043, 2_044];
    let entry = |id: u64, number: usize| {
        let payload = PAYLOADS[number / PAYLOADS.len().pow(id as u32 - 1) % PAYLOADS.len()];
        // No data byte is 0, so that each shows where it is kept.
        Entry { id, data: (0..payload - 8).map(|at| (at as u64 * 31 + id * 7) as u8 | 1).collect() }
    };
    let (mut tally, mut kept) = (Tally::default(), 0);
    for length in 1..=3 {
        for number in 0..PAYLOADS.len().pow(length) {
            let entries: Vec<Entry> = (1..=length).map(|id| entry(id.into(), number)).collect();
            for cuts in 0..1 << (length - 1) {
                let mut pair = Pair::with_capacity(9);
                for batch in entries.chunk_by(|_, entry| cuts >> (entry.id - 2) & 1 == 0) {
                    pair.push(batch, &mut tally);
                    // The Rust departs exactly where a front is shorter than one before it in the push.
                    let fronts = batch.iter().flat_map(|entry| layout::fronts(entry.id, &entry.data));
                    kept += u64::from(!fronts.is_sorted_by_key(|front| front.len()));
                }
                pair.set_next(pair.state().last + 1);
                pair.assert_in_domain();
                for id in 0..=pair.state().next {
                    pair.compare_lookup(id, &mut tally);
                }
                pair.compare_scan((Bound::Unbounded, Bound::Unbounded), &mut tally);
                pair.compare_recovery(&[], &mut tally);
            }
        }
    }
    tally.print("every list of up to three entries in every batch");
    assert_eq!(tally.times(Departure::StaleFilling), kept);
    assert_eq!(tally.smallest(Departure::StaleFilling), "push of [(1, 1), (2, 0)]");
}
