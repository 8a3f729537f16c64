//! Each entry of docs/DIFFERENCES.md at its smallest input: what the Rust does in this build, and what we do.
use awirbesh::{lent, IdSequence, Look, Refusal, State};
use beside::rust::{self, Rust};
use beside::{ours, Departure, Entry, Looked, Numbers, Pair, PushedBy, RecoveredBy, Scanned, Tally, PAGE, TOO_LARGE};
use nebari::transaction::{manager::probe::Sequence, state::probe};

const CHECKED: bool = cfg!(debug_assertions);

/// A log of entries with payloads; a payload of 0 stands for an idle page.
fn log_of(entries: &[(u64, usize)], next: u64) -> Pair {
    let mut tally = Tally::default();
    let mut pair = Pair::with_capacity(16);
    for &(id, payload) in entries {
        match payload {
            0 => pair.add_idle_page(0),
            _ => {
                pair.push(&[Entry { id, data: vec![0x61; payload - 8] }], &mut tally);
            }
        }
    }
    pair.set_next(next);
    pair.assert_in_domain();
    pair
}

/// The Rust's answer, after ours was found to be the truth.
fn looked(pair: &mut Pair, id: u64) -> Looked {
    assert_eq!(pair.ours.lookup(id), pair.truth(id));
    pair.rust.lookup(id)
}

fn found(pair: &Pair, id: u64) -> bool {
    matches!(pair.truth(id), Looked::Found { .. })
}

#[test]
fn a_stored_id_is_lost_behind_later_pages() {
    let mut smallest = log_of(&[(1, 1_021), (2, 8)], 4);
    assert!(found(&smallest, 2));
    assert_eq!(looked(&mut smallest, 2), Looked::Absent { position: 0 });
    // The log of six pages of the worked cases.
    let mut six = log_of(&[(1, 3_000), (2, 8), (3, 8), (4, 8)], 8);
    assert!(found(&six, 2));
    assert_eq!(looked(&mut six, 2), Looked::Absent { position: 0 });
}

#[test]
fn a_stored_id_is_lost_behind_idle_pages() {
    let mut smallest = log_of(&[(1, 8), (0, 0), (2, 8)], 4);
    assert!(found(&smallest, 2));
    assert_eq!(looked(&mut smallest, 2), Looked::Absent { position: 0 });
}

#[test]
fn ids_far_apart_overflow_the_page_product() {
    // With overflow checks one entry is enough, and the id need not be stored.
    let mut one = log_of(&[(1, 8)], 134_217_730);
    let answer = looked(&mut one, 134_217_729);
    if CHECKED {
        assert_eq!(answer, Looked::Panicked("attempt to multiply with overflow".into()));
    } else {
        assert_eq!(answer, Looked::Absent { position: 1_024 });
    }
    assert_eq!(looked(&mut log_of(&[(1, 8)], 134_217_729), 134_217_728), Looked::Absent { position: 1_024 });

    // Without them the product wraps to 0, and a stored id is lost.
    for (id, next) in [(177_927_642, 202_491_288), (134_217_729, 268_435_457)] {
        let mut two = log_of(&[(1, 8), (id, 8)], next);
        assert!(found(&two, id));
        let answer = looked(&mut two, id);
        if CHECKED {
            assert_eq!(answer, Looked::Panicked("attempt to multiply with overflow".into()));
        } else {
            assert_eq!(answer, Looked::Absent { position: 0 });
        }
    }
}

/// No smaller next than the one in docs/DIFFERENCES.md loses an id of a log of two pages without overflow checks:
/// the product, in pages, must be a multiple of 2^54 that is not 0.
#[test]
fn the_smallest_wrap_is_the_smallest() {
    let wraps = |id: u64, next: u64| {
        let pages = ((id - 1) as f64 * ((next - 1) as f64 / 2.0)).floor() as u64;
        pages > 0 && pages.is_multiple_of(1 << 54)
    };
    let first = (3u64..).find_map(|next| {
        let near = (1u64 << 55) / (next - 1) + 1;
        (near.saturating_sub(2)..=near + 2).find(|&id| id > 1 && id < next && wraps(id, next)).map(|id| (id, next))
    });
    assert_eq!(first, Some((177_927_642, 202_491_288)));
}

#[test]
fn the_position_of_an_absent_id() {
    let mut smallest = log_of(&[(1, 8), (0, 0)], 3);
    assert_eq!(smallest.truth(2), Looked::Absent { position: 2_048 });
    assert_eq!(looked(&mut smallest, 2), Looked::Absent { position: 0 });
}

/// The Rust keeps one page image over a push and begins each push with zeros; the rules want zeros after every payload.
#[test]
fn bytes_of_an_earlier_page_after_the_payload() {
    // The pages on both sides after these pushes; where they differ, it is by the departure.
    let pushed = |parts: &[&[Entry]]| {
        let (mut pair, mut tally) = (Pair::with_capacity(2), Tally::default());
        for part in parts {
            pair.push(part, &mut tally);
        }
        let (ours, rust) = (pair.ours.bytes().to_vec(), pair.rust.file.bytes);
        assert_eq!(tally.times(Departure::StaleFilling), u64::from(ours != rust));
        (ours, rust)
    };
    let entry = |id: u64, data: &[u8]| Entry { id, data: data.to_vec() };

    let (one, two) = (entry(1, &[0x61]), entry(2, &[]));
    let (ours, rust) = pushed(&[&[one.clone(), two.clone()]]);
    let differ: Vec<usize> = (0..2_048).filter(|&at| ours[at] != rust[at]).collect();
    assert_eq!(differ, [1_024 + 12]);
    assert_eq!((ours[1_024 + 12], rust[1_024 + 12]), (0, 0x61));

    // In two pushes the pages here are the same as in one, and there the same as here.
    assert_eq!(pushed(&[&[one], &[two]]), (ours.clone(), ours));
    // Nothing smaller shows it: no data, data of zeros, the longer entry last.
    for (first, second) in [(&[][..], &[][..]), (&[0], &[]), (&[], &[0x61])] {
        let (ours, rust) = pushed(&[&[entry(1, first), entry(2, second)]]);
        assert_eq!(ours, rust);
    }

    // One entry of two pages shows it alone: page 1 keeps of page 0 the length, the id and the data.
    let (ours, rust) = pushed(&[&[entry(1, &[0x61; 1_013])]]);
    assert_eq!(ours[1_024..], [&[0, 0x61][..], &[0; 1_022]].concat());
    assert_eq!(rust[1_024..], [&[0, 0x61, 0x03, 0xFD, 0, 0, 0, 0, 0, 0, 0, 1][..], &[0x61; 1_012]].concat());
}

/// The Rust sets last written to an entry's id before it tests the size; by the rules a refused entry keeps its id.
#[test]
fn the_id_of_a_refused_entry() {
    let entry = |id: u64, length: usize| [Entry { id, data: vec![0x61; length] }];
    let (large, small) = (entry(1, TOO_LARGE), entry(1, 0));
    let answered = |number: u64, length: u64, last: u64| {
        let state = Numbers { length, last, next: 1 };
        PushedBy::Answered { number, state }
    };

    // Each side alone: the same id with no data is written here, and out of order there.
    let mut pair = Pair::with_capacity(1);
    assert_eq!(pair.ours.push(&large), (answered(3, 0, 0), 0));
    assert_eq!(pair.rust.push(&large), answered(3, 0, 1));
    assert_eq!(pair.ours.push(&small), (answered(0, PAGE, 1), 1));
    assert_eq!(pair.rust.push(&small), answered(2, 0, 1));
    assert!(pair.rust.file.bytes.is_empty());

    // Compared: it has its name, the Rust gets our state, and then both write the entry.
    let (mut pair, mut tally) = (Pair::with_capacity(1), Tally::default());
    assert_eq!(pair.push(&large, &mut tally), answered(3, 0, 1));
    assert_eq!(tally.smallest(Departure::RefusedId), "push of [(1, 16777208)], last written 0");
    assert_eq!(pair.push(&small, &mut tally), answered(0, PAGE, 1));
    assert_eq!(tally.times(Departure::RefusedId), 1);
    pair.set_next(2);
    pair.assert_in_domain();
    assert!(found(&pair, 1));
    pair.compare_lookup(1, &mut tally);

    // Nothing smaller shows it: a byte less is written, and id 0 is refused with 2. Nor does a byte more, which is 16.
    for (id, length, number) in [(1, TOO_LARGE - 1, 0), (0, TOO_LARGE, 2), (1, TOO_LARGE + 1, 16)] {
        let (mut pair, mut tally) = (Pair::with_capacity(16_401), Tally::default());
        let answer = pair.push(&entry(id, length), &mut tally);
        assert!(matches!(answer, PushedBy::Answered { number: met, .. } if met == number), "{answer:?}");
        assert_eq!(tally.times(Departure::RefusedId), 0);
    }
}

/// A recovery of the first bytes of a log, after ours was found to be what the rules say: the Rust's answer.
fn recovered(pair: &Pair, at: u64, left: Numbers) -> RecoveredBy {
    let bytes = &pair.ours.bytes()[..at as usize];
    assert_eq!(ours::recover(bytes), RecoveredBy::At { state: left, file: left.length });
    assert_eq!(pair.left_by(at), left);
    rust::recover(bytes)
}

const FRESH: Numbers = Numbers::FRESH;

/// The last entry lost pages in a crash: the Rust cannot open the log any more, the library drops the entry.
#[test]
fn an_entry_that_was_cut_short() {
    let eof = |file: u64| {
        let text = r#"Io(Error { kind: UnexpectedEof, message: "failed to fill whole buffer" })"#;
        RecoveredBy::Refused(format!("{text}, file of {file} bytes"))
    };
    let smallest = log_of(&[(1, 1_021)], 2);
    assert_eq!(recovered(&smallest, 1_024, FRESH), eof(1_024));
    // All but one byte is there, and a part page is cut off before it fails.
    assert_eq!(recovered(&smallest, 2_047, FRESH), eof(1_024));
    let whole = Numbers { length: 2_048, last: 1, next: 2 };
    assert_eq!(recovered(&smallest, 2_048, whole), RecoveredBy::At { state: whole, file: 2_048 });
    let r = lent::recover(smallest.ours.bytes(), 2_047, 0).unwrap();
    assert_eq!((r.state, r.excess, r.dropped), (State::fresh(), 1_023, 1));

    // The entry before it, and an idle page, are what is left here.
    let longer = log_of(&[(1, 8), (0, 0), (2, 3_000)], 3);
    let left = Numbers { length: 2_048, last: 1, next: 2 };
    for (at, file) in [(3_072, 3_072), (4_000, 3_072), (4_096, 4_096), (5_119, 4_096)] {
        assert_eq!(recovered(&longer, at, left), eof(file));
    }
    let mut tally = Tally::default();
    for at in 1_024..=5_120 {
        assert_eq!(longer.cut_entry(at).is_some(), (3_072..5_120).contains(&at));
    }
    longer.compare_cut(5_119, &mut tally);
    assert_eq!(tally.times(Departure::TornEntry), 2);

    // Nothing shorter shows it: of fewer bytes no page is left, and an entry of one page is whole or not there.
    let one = log_of(&[(1, 1_020)], 2);
    for at in 0..=1_024 {
        assert_eq!((smallest.cut_entry(at).is_some(), one.cut_entry(at)), (at == 1_024, None));
    }
}

#[test]
fn less_than_a_page() {
    let pair = log_of(&[(1, 8)], 2);
    for at in [1, 1_023] {
        match recovered(&pair, at, FRESH) {
            RecoveredBy::Panicked { text, file } if CHECKED => {
                assert_eq!((&*text, file), ("attempt to subtract with overflow", 0));
            }
            RecoveredBy::Refused(text) if !CHECKED => {
                assert!(text.contains("No entries found"), "{text}");
                assert!(text.ends_with("file of 0 bytes"), "{text}");
            }
            other => panic!("{other:?}"),
        }
    }
    assert_eq!(lent::recover(&[1], 1, 0).unwrap().excess, 1);
    // No byte at all is a new log on both sides.
    assert_eq!(recovered(&pair, 0, FRESH), RecoveredBy::At { state: FRESH, file: 0 });
}

/// The Rust's recovery knows the last stored id alone, so an id that was dropped after it is handed out again; the
/// library's is given the ceiling, below which every id that was handed out lies.
#[test]
fn a_used_id_comes_again_after_a_restart() {
    // The smallest: nothing is stored, and 1 was handed out. Where nothing was, both sides go on with 1.
    let empty = Pair::with_capacity(0);
    assert_eq!((empty.restart(1), empty.restart(0)), ((2, 1), (1, 1)));
    // 9 was a what-if's.
    let dense: Vec<(u64, usize)> = (1..=8).map(|id| (id, 8)).collect();
    let mut tally = Tally::default();
    let mut pair = log_of(&dense, 9);
    assert_eq!(pair.restart(1), (10, 9));
    pair.compare_restart(0, &mut tally);
    assert_eq!(tally.times(Departure::UsedId), 0);
    pair.compare_restart(1, &mut tally);
    assert_eq!(tally.times(Departure::UsedId), 1);

    // The build that is handed 9 in its place pushes it, and whoever dropped 9 then finds the build's data.
    let real = [Entry { id: 9, data: b"real".to_vec() }];
    let State { length, .. } = pair.state();
    let mut rust = Rust::of(pair.rust.file.bytes.clone(), Numbers { length, last: 8, next: 9 });
    assert_eq!(rust::recover(&rust.file.bytes), RecoveredBy::At { state: rust.numbers(), file: length });
    assert_eq!(rust.take(), 9);
    let written = Numbers { length: length + PAGE, last: 9, next: 10 };
    assert_eq!(rust.push(&real), PushedBy::Answered { number: 0, state: written });
    assert!(matches!(rust.lookup(9), Looked::Found { data, .. } if data == b"real"));
    // Here the build is handed 10, and 9 is absent for good.
    pair.ours.state = lent::recover(pair.ours.bytes(), length, 10).unwrap().state;
    assert_eq!(pair.ours.state.take(), Err(Refusal::CeilingReached));
    pair.ours.state.raise(1).unwrap();
    assert_eq!(pair.ours.state.take(), Ok(10));
    assert_eq!(pair.ours.lookup(9), Looked::Absent { position: length });
    pair.ours.push(&[Entry { id: 10, ..real[0].clone() }]);
    assert_eq!(pair.ours.lookup(9), Looked::Absent { position: length });
    assert!(matches!(pair.ours.lookup(10), Looked::Found { position, .. } if position == length));
    // With no ceiling stored the library does as the Rust does.
    assert_eq!(lent::recover(&pair.ours.bytes()[..length as usize], length, 0).unwrap().state.next, 9);
}

#[test]
fn the_last_id_recovered() {
    let mut pair = Pair::with_capacity(1);
    pair.push(&[Entry { id: u64::MAX, data: Vec::new() }], &mut Tally::default());
    let bytes = pair.ours.bytes().to_vec();
    assert_eq!(lent::recover(&bytes, PAGE, 0), Err(Refusal::IdsUsedUp));
    match rust::recover(&bytes) {
        RecoveredBy::Panicked { text, .. } if CHECKED => assert_eq!(text, "attempt to add with overflow"),
        // It finds the log uninitialized: next is 0, which stands for that.
        RecoveredBy::At { state, .. } if !CHECKED => {
            assert_eq!(state, Numbers { length: PAGE, last: u64::MAX, next: 0 });
        }
        other => panic!("{other:?}"),
    }
}

#[test]
fn the_last_id_taken() {
    let mut ours = State { length: 0, last: 0, next: u64::MAX, ceiling: u64::MAX };
    assert_eq!(ours.take(), Err(Refusal::IdsUsedUp));
    let rust = probe::state(0, 0, u64::MAX);
    assert_eq!(rust.new_transaction(std::iter::empty::<&[u8]>()).id, u64::MAX);
    assert_eq!(rust.next_transaction_id(), 0);
}

#[test]
fn notes_that_panic() {
    for (start, id, refusal) in [(1, 0, Refusal::BelowStart), (1, u64::MAX, Refusal::OutsideWindow)] {
        assert_eq!(IdSequence::new(start).note(id), Err(refusal));
        let mut sequence = Sequence::new(start);
        rust::caught(|| sequence.note(id)).expect_err("the Rust panics");
    }
}

#[test]
fn a_note_outside_the_window() {
    assert_eq!(IdSequence::new(0).note(4_096), Err(Refusal::OutsideWindow));
    let mut sequence = Sequence::new(0);
    sequence.note(4_096);
    assert_eq!((sequence.start(), sequence.length()), (0, 4_097));
}

#[test]
fn a_store_has_an_end() {
    let mut pair = Pair::with_capacity(0);
    let entry = [Entry { id: 1, data: Vec::new() }];
    assert_eq!(pair.ours.push(&entry), (PushedBy::Answered { number: 4, state: FRESH }, 0));
    let written = PushedBy::Answered { number: 0, state: Numbers { length: PAGE, last: 1, next: 1 } };
    assert_eq!(pair.rust.push(&entry), written);
    // The id is kept: where there is room it is written.
    pair.ours.store.resize(PAGE as usize, 0xEE);
    assert_eq!(pair.ours.push(&entry), (written, 1));
    assert_eq!(pair.ours.bytes(), pair.rust.file.bytes);

    let (mut pair, mut tally) = (Pair::with_capacity(0), Tally::default());
    pair.compare_without_room(&entry, &mut tally);
    assert_eq!(tally.smallest(Departure::NoRoom), "a store of 0 bytes, push of [(1, 0)]");
    assert_eq!((pair.ours.numbers(), pair.rust.numbers()), (FRESH, FRESH));
}

/// Damaged logs: the Rust panics, fails or answers by bytes that are no entry; the library refuses.
#[test]
fn damaged_logs() {
    let damaged = |change: &dyn Fn(&mut Vec<u8>)| {
        let mut pair = log_of(&[(1, 8), (2, 8)], 3);
        change(&mut pair.ours.store);
        pair.rust.file.bytes = pair.ours.bytes().to_vec();
        (pair.ours.lookup(2), pair.rust.lookup(2))
    };
    let refused = |text: &str| Looked::Refused(text.into());

    let (by_ours, by_rust) = damaged(&|store| store[1_024] = 2);
    assert_eq!(by_ours, refused("refusal 5: bad mark on page 1"));
    assert_eq!(by_rust, Looked::Panicked("internal error: entered unreachable code: corrupt transaction log".into()));

    let (by_ours, by_rust) = damaged(&|store| store[1_027] = 7);
    assert_eq!(by_ours, refused("refusal 6: short entry on page 1"));
    assert!(matches!(by_rust, Looked::Refused(ref text) if text.contains("UnexpectedEof")), "{by_rust:?}");

    let (by_ours, by_rust) = damaged(&|store| store[1_026] = 4);
    assert_eq!(by_ours, refused("refusal 7: cut entry on page 1"));
    assert!(matches!(by_rust, Looked::Refused(ref text) if text.contains("UnexpectedEof")), "{by_rust:?}");
}

/// An id of the log that is not below next is outside the compared domain; both call it absent at the length.
#[test]
fn an_id_not_below_next_is_absent_on_both_sides() {
    let mut pair = log_of(&[(1, 8)], 2);
    pair.set_next(1);
    assert_eq!(pair.ours.lookup(1), Looked::Absent { position: PAGE });
    assert_eq!(pair.rust.lookup(1), Looked::Absent { position: PAGE });
    assert_eq!(lent::lookup(&pair.ours.store, pair.state(), 1, &mut []), Ok(Look::Absent { position: PAGE }));
}

/// Bytes past the length are no part of the log; the Rust's scan reads on to the file's end.
#[test]
fn bytes_past_the_length() {
    let mut pair = log_of(&[(1, 8), (2, 8)], 3);
    pair.ours.state.length = PAGE;
    pair.rust.set(pair.ours.numbers());
    let all = (std::ops::Bound::Unbounded, std::ops::Bound::Unbounded);
    assert_eq!(pair.ours.scan(all), Scanned::Entries(vec![(1, Vec::new())]));
    assert_eq!(pair.rust.scan(all), Scanned::Entries(vec![(1, Vec::new()), (2, Vec::new())]));
}

/// docs/DIFFERENCES.md has an entry for each departure.
#[test]
fn each_departure_names_an_entry() {
    let text = include_str!("../../docs/DIFFERENCES.md");
    for departure in Departure::ALL {
        let heading = format!("### {}", departure.heading());
        assert_eq!(text.lines().filter(|line| *line == heading).count(), 1, "{heading}");
    }
}
