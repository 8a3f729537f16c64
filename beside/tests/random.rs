//! Random logs of hundreds of pages and random batches, on both sides. BESIDE_LOGS and BESIDE_SEED change how many logs
//! there are and which.
use std::ops::Bound;

use beside::{chance::Chance, Departure, Entry, Ids, Pair, PushedBy, Tally, PAGE, TOO_LARGE};

fn setting(name: &str, usual: u64) -> u64 {
    std::env::var(name).map_or(usual, |text| text.parse().expect(name))
}

/// How the ids of a log lie.
#[derive(Clone, Copy, Debug, PartialEq)]
enum Lie {
    Dense,
    Gapped,
    /// Gaps of up to 2^64 shifted right by so many bits.
    Apart(u32),
}

/// A payload about a boundary of the page layout, or any small one.
fn payload(chance: &mut Chance) -> usize {
    match chance.below(4) {
        0 | 1 => chance.pick(&[8, 9, 20, 500, 1_019, 1_020]),
        2 => {
            let pages = chance.below(4) as usize;
            1_020 + 1_023 * pages + chance.below(5) as usize - 2
        }
        _ => 8 + chance.below(3_500) as usize,
    }
}

fn gap(chance: &mut Chance, lie: Lie) -> u64 {
    match lie {
        Lie::Dense => 1,
        Lie::Gapped => 1 + chance.below(5),
        Lie::Apart(shift) => 1 + (chance.number() >> shift),
    }
}

/// A log of up to 400 pages by batches of one to eight entries, with idle pages where they are asked for.
fn some_log(chance: &mut Chance, lie: Lie, idle: bool, small: bool, tally: &mut Tally) -> Pair {
    let most = 20 + chance.below(380);
    let mut pair = Pair::with_capacity(most + 40);
    while pair.pages() < most && !(chance.one_in(60)) {
        let mut last = pair.state().last;
        let batch: Vec<Entry> = (0..1 + chance.below(8))
            .map(|_| {
                last += gap(chance, lie);
                let payload = if small { 8 + chance.below(1_013) as usize } else { payload(chance) };
                Entry { id: last, data: chance.bytes(payload - 8) }
            })
            .collect();
        pair.push(&batch, tally);
        while idle && chance.one_in(3) && pair.pages() < most {
            pair.add_idle_page(chance.number() as u8);
        }
    }
    let ahead = if lie == Lie::Dense { 1 } else { gap(chance, lie) };
    pair.set_next(pair.state().last + ahead);
    pair
}

/// An id worth asking for: stored, beside a stored one, or anywhere.
fn some_id(chance: &mut Chance, pair: &Pair) -> u64 {
    if !pair.held.is_empty() && !chance.one_in(4) {
        let id = pair.held[chance.below(pair.held.len() as u64) as usize].id;
        return match chance.below(4) {
            0 => id - 1,
            1 => id + 1,
            _ => id,
        };
    }
    chance.below(pair.state().next + 3)
}

fn some_range(chance: &mut Chance, pair: &Pair) -> Ids {
    let mut end = || match chance.below(3) {
        0 => Bound::Unbounded,
        1 => Bound::Included(some_id(chance, pair)),
        _ => Bound::Excluded(some_id(chance, pair)),
    };
    (end(), end())
}

/// A byte at which a log is cut: anywhere, about a page's end, or in an entry that was written last.
fn some_cut(chance: &mut Chance, pair: &Pair) -> u64 {
    let length = pair.state().length;
    match chance.below(3) {
        0 => chance.below(length + 1),
        1 => (chance.below(pair.pages() + 1) * PAGE + chance.below(3)).saturating_sub(1).min(length),
        _ => pair.held.last().map_or(0, |held| held.page * PAGE + chance.below(held.pages * PAGE + 1)),
    }
}

#[test]
fn random_logs() {
    let mut chance = Chance::new(setting("BESIDE_SEED", 1));
    let mut cuts = Chance::new(!setting("BESIDE_SEED", 1));
    let mut drops = Chance::new(setting("BESIDE_SEED", 1).rotate_left(32));
    let mut tally = Tally::default();
    for number in 0..setting("BESIDE_LOGS", 600) {
        // The narrower of those apart never overflow the Rust's product, the widest nearly always do.
        let apart = Lie::Apart(chance.pick(&[14, 30, 40, 44, 48, 52, 56]));
        let lie = chance.pick(&[Lie::Dense, Lie::Gapped, Lie::Gapped, apart]);
        let (idle, small) = (number % 2 == 0, chance.one_in(3));
        let mut pair = some_log(&mut chance, lie, idle, small, &mut tally);
        pair.assert_in_domain();
        for _ in 0..60 {
            let id = some_id(&mut chance, &pair);
            pair.compare_lookup(id, &mut tally);
        }
        for _ in 0..6 {
            let ids = some_range(&mut chance, &pair);
            pair.compare_scan(ids, &mut tally);
        }
        let excess = if pair.held.is_empty() { 0 } else { chance.below(1_024) as usize };
        let excess = chance.bytes(excess);
        pair.compare_recovery(&excess, &mut tally);
        for _ in 0..6 {
            let at = some_cut(&mut cuts, &pair);
            pair.compare_cut(at, &mut tally);
        }
        pair.compare_restart(drops.below(4), &mut tally);
        tally.compared("logs");
    }
    tally.print("random logs");
    use Departure::{AbsentPosition, IdlePages, LaterPages, PartPage, StaleFilling, TornEntry, UsedId};
    for departure in [LaterPages, IdlePages, AbsentPosition, StaleFilling, TornEntry, PartPage, UsedId] {
        assert!(tally.times(departure) > 0, "{departure:?} did not come up");
    }
}

/// Ids as far apart as powers of two are: with overflow checks the Rust panics, without them its product wraps to a
/// page that it has been at, and the id is lost.
#[test]
fn ids_far_apart() {
    let mut tally = Tally::default();
    for power in 20..60 {
        let step = 1u64 << power;
        for count in 1..=8 {
            let mut pair = Pair::with_capacity(8);
            for i in 0..count {
                pair.push(&[Entry { id: 1 + i * step, data: vec![i as u8; 3] }], &mut tally);
            }
            pair.set_next(1 + count * step);
            for i in 0..count {
                for id in [i * step, 1 + i * step, 2 + i * step, 1 + i * step + step / 2] {
                    pair.compare_lookup(id, &mut tally);
                    pair.compare_scan((Bound::Included(id), Bound::Unbounded), &mut tally);
                    pair.compare_scan((Bound::Excluded(id), Bound::Included(id + step)), &mut tally);
                }
            }
        }
    }
    tally.print("ids far apart");
    assert!(tally.times(Departure::FarApart) > 0);
}

/// Where ids are dense, entries have one page each and next is one past the last, the Rust loses nothing, whatever the
/// filling.
#[test]
fn dense_logs_of_one_page_entries_agree() {
    let mut chance = Chance::new(setting("BESIDE_SEED", 1));
    let mut tally = Tally::default();
    for _ in 0..40 {
        let mut pair = some_log(&mut chance, Lie::Dense, false, true, &mut tally);
        for id in 1..pair.state().next {
            pair.compare_lookup(id, &mut tally);
        }
    }
    tally.print("dense logs");
    assert!(tally.needed.keys().eq([&Departure::StaleFilling]));
}

/// Batches with ids that do not ascend, from states with any last written id.
#[test]
fn random_batches() {
    let mut chance = Chance::new(setting("BESIDE_SEED", 1));
    let mut tally = Tally::default();
    for _ in 0..3_000 {
        let mut pair = Pair::with_capacity(200);
        let (last, next) = (chance.number() >> chance.below(64), chance.number());
        pair.ours.state.last = last.min(u64::MAX - 200);
        pair.set_next(next);
        for _ in 0..3 {
            let mut id = pair.state().last;
            let batch: Vec<Entry> = (0..chance.below(7))
                .map(|_| {
                    id = match chance.below(12) {
                        0 => id,
                        1 => id.saturating_sub(chance.below(3)),
                        2 => 0,
                        _ => id + 1 + chance.below(3),
                    };
                    let payload = payload(&mut chance);
                    Entry { id, data: chance.bytes(payload - 8) }
                })
                .collect();
            pair.push(&batch, &mut tally);
        }
    }
    tally.print("random batches");
    assert!(tally.times(Departure::StaleFilling) > 0);
}

/// Each payload about each boundary up to six pages, alone and after a longer entry in the same batch.
#[test]
fn payloads_about_each_boundary() {
    let mut tally = Tally::default();
    for pages in 0..6 {
        for payload in (1_020 + 1_023 * pages - 3)..=(1_020 + 1_023 * pages + 3) {
            let entry = |id: u64, payload: usize| Entry { id, data: vec![id as u8 + 0x40; payload - 8] };
            let mut pair = Pair::with_capacity(40);
            pair.push(&[entry(1, 3_000), entry(2, payload), entry(3, 8)], &mut tally);
            pair.set_next(4);
            for id in 0..5 {
                pair.compare_lookup(id, &mut tally);
            }
            pair.compare_scan((Bound::Unbounded, Bound::Unbounded), &mut tally);
            pair.compare_recovery(&[], &mut tally);
        }
    }
    tally.print("payloads about each boundary");
    assert_eq!(tally.times(Departure::StaleFilling), tally.compared["pushes"]);
}

/// 0 or the number of the refusal.
fn number_of(answer: &PushedBy) -> u64 {
    match answer {
        PushedBy::Answered { number, .. } => *number,
        PushedBy::Panicked(text) => panic!("{text}"),
    }
}

/// Data about 2^24 - 8 bytes: refusals 3 and 16, the id that 3 leaves free, and the longest entry that there is.
#[test]
fn the_largest_data() {
    let mut tally = Tally::default();
    let mut pair = Pair::with_capacity(16_410);
    let mut chance = Chance::new(3);
    let bytes = chance.bytes(TOO_LARGE + 1);
    // The refusal, and length and last written after it.
    let mut push = |id: u64, length: usize| {
        let batch = [Entry { id, data: bytes[..length].to_vec() }];
        let number = number_of(&pair.push(&batch, &mut tally));
        (number, pair.state().length, pair.state().last)
    };
    assert_eq!(push(6, 5), (0, 1_024, 6));
    assert_eq!(push(7, TOO_LARGE), (3, 1_024, 6));
    assert_eq!(push(7, TOO_LARGE + 1), (16, 1_024, 6));
    assert_eq!(push(7, TOO_LARGE), (3, 1_024, 6));
    assert_eq!(push(7, 0), (0, 2_048, 7));
    assert_eq!(push(7, 0), (2, 2_048, 7));
    assert_eq!(push(7, TOO_LARGE), (2, 2_048, 7));
    assert_eq!(push(8, TOO_LARGE + 1), (16, 2_048, 7));
    assert_eq!(push(9, TOO_LARGE), (3, 2_048, 7));
    assert_eq!(push(9, TOO_LARGE - 1), (0, 16_403 * 1_024, 9));
    assert_eq!(tally.times(Departure::RefusedId), 3);
    pair.set_next(10);
    for id in 6..10 {
        pair.compare_lookup(id, &mut tally);
    }
    pair.compare_recovery(&[], &mut tally);
}

/// A log by a batch in which 3 refuses the entry at a place, and then by the rest of it with less data there.
fn log_after_a_refusal(first: u64, length: usize, place: usize, tally: &mut Tally) -> Pair {
    let mut pair = Pair::with_capacity(6);
    pair.ours.state.last = first - 1;
    pair.set_next(first + 3 * length as u64);
    let entry = |at: usize| Entry { id: first + 3 * at as u64, data: vec![0x41; [1_013, 506][at % 2]] };
    let mut batch: Vec<Entry> = (0..length).map(entry).collect();
    let less = std::mem::replace(&mut batch[place].data, vec![0x4C; TOO_LARGE]);
    pair.push(&batch, tally);
    // What stands before it is written, and last written is the last id of that.
    let last = batch[..place].last().map_or(first - 1, |entry| entry.id);
    assert_eq!((pair.held.len(), pair.state().last), (place, last));
    // That id is out of order, on both sides again.
    assert_eq!(number_of(&pair.push(&[Entry { id: last, data: Vec::new() }], tally)), 2);
    batch[place].data = less;
    assert_eq!(number_of(&pair.push(&batch[place..], tally)), 0);
    assert_eq!(pair.held.len(), length);
    pair
}

/// An entry that 3 refuses at each place of a batch of up to four, from several last written; then with less data.
#[test]
fn a_refused_entry_at_each_place() {
    let mut tally = Tally::default();
    for first in [1, 2, 1_000] {
        for (length, place) in (1..=4).flat_map(|length| (0..length).map(move |place| (length, place))) {
            let mut pair = log_after_a_refusal(first, length, place, &mut tally);
            pair.assert_in_domain();
            for id in first - 1..=pair.state().next {
                pair.compare_lookup(id, &mut tally);
            }
            pair.compare_scan((Bound::Unbounded, Bound::Unbounded), &mut tally);
            pair.compare_recovery(&[1], &mut tally);
            tally.compared("logs");
        }
    }
    tally.print("a refused entry at each place");
    assert_eq!(tally.times(Departure::RefusedId), tally.compared["logs"]);
}

#[test]
fn a_store_without_room() {
    let mut tally = Tally::default();
    let mut pair = Pair::with_capacity(2);
    let entry = |id: u64, length: usize| Entry { id, data: vec![id as u8; length] };
    pair.compare_without_room(&[entry(1, 5), entry(2, 1_013), entry(3, 0)], &mut tally);
    assert_eq!((pair.state().length, pair.state().last), (1_024, 1));
    assert_eq!((tally.times(Departure::NoRoom), tally.times(Departure::StaleFilling)), (1, 0));
    // The refused id with less data is written.
    pair.push(&[entry(2, 1_012)], &mut tally);
    assert_eq!((pair.state().length, pair.state().last), (2_048, 2));
    // An entry before the refused one keeps bytes of the one before it.
    let mut pair = Pair::with_capacity(3);
    pair.compare_without_room(&[entry(1, 5), entry(2, 0), entry(3, 1_013)], &mut tally);
    assert_eq!((pair.state().length, pair.state().last), (2_048, 2));
    assert_eq!((tally.times(Departure::NoRoom), tally.times(Departure::StaleFilling)), (2, 1));
    // The same entry is refused again in the same store, and written in a longer one.
    pair.compare_without_room(&[entry(3, 1_013)], &mut tally);
    assert_eq!((pair.state().length, pair.state().last), (2_048, 2));
    pair.ours.store.resize(4_096, 0xEE);
    pair.push(&[entry(3, 1_013)], &mut tally);
    assert_eq!((pair.state().length, pair.state().last), (4_096, 3));
    // 3 comes before 4: no room is asked of an entry that is too large.
    pair.push(&[entry(4, TOO_LARGE)], &mut tally);
    assert_eq!((pair.state().length, pair.state().last), (4_096, 3));
    assert_eq!((tally.times(Departure::NoRoom), tally.times(Departure::RefusedId)), (3, 1));
    pair.set_next(4);
    pair.assert_in_domain();
    for id in 0..=5 {
        pair.compare_lookup(id, &mut tally);
    }
    pair.compare_recovery(&[1], &mut tally);
}
