//! The worked cases of docs/RULES.md 13, through the safe types.
use awirbesh::{lent, CutOff, Entry, IdSequence, Log, Look, Recovered, Refusal, State};

const PAGE: usize = 1024;

fn log_of(entries: &[(u64, usize)], next: u64) -> Log {
    let mut log = Log::with_capacity(64 * PAGE);
    while log.state().next < next {
        log.raise(1).unwrap();
        log.take().unwrap();
    }
    for &(id, payload) in entries {
        log.push(&[Entry::new(id, vec![id as u8; payload - 8])]).unwrap();
    }
    log
}

#[test]
fn pages_of_a_payload() {
    for (payload, pages) in [(8, 1), (1_020, 1), (1_021, 2), (2_043, 2), (2_044, 3), (3_000, 3), (16_777_215, 16_401)] {
        let mut log = Log::with_capacity(16_401 * PAGE);
        log.push(&[Entry::new(1, vec![7; payload - 8])]).unwrap();
        assert_eq!(log.state().length, pages * PAGE as u64, "payload {payload}");
    }
}

#[test]
fn two_entries_of_a_push_end_in_zeros() {
    let mut log = Log::with_capacity(4 * PAGE);
    log.push(&[Entry::new(1, "hello"), Entry::new(2, "")]).unwrap();
    let mut expected = vec![0; 2 * PAGE];
    expected[..17].copy_from_slice(b"\x01\0\0\x0d\0\0\0\0\0\0\0\x01hello");
    expected[PAGE..PAGE + 12].copy_from_slice(b"\x01\0\0\x08\0\0\0\0\0\0\0\x02");
    assert_eq!(log.bytes(), expected);
    assert_eq!(log.state(), State { length: 2048, last: 2, next: 1, ceiling: 1 });
    assert_eq!(log.position(1), Ok(Look::Absent { position: 2048 }));
}

/// The filling, docs/RULES.md 1.8: neither a longer entry before it nor the store leaves a byte in an entry's page.
#[test]
fn an_entry_has_the_same_page_in_any_batch_and_store() {
    let mut alone = Log::with_capacity(PAGE);
    alone.push(&[Entry::new(2, "short")]).unwrap();
    let (mut log, _) = Log::recover(vec![0xA5; 2 * PAGE], 0, 0).unwrap();
    log.push(&[Entry::new(1, [0xC7; 1_012]), Entry::new(2, "short")]).unwrap();
    assert_eq!(&log.bytes()[PAGE..], alone.bytes());
    let (mut log, _) = Log::recover(log.bytes().to_vec(), 0, 0).unwrap();
    log.push(&[Entry::new(2, "short")]).unwrap();
    assert_eq!(log.bytes(), alone.bytes());
}

#[test]
fn the_log_of_six_pages() {
    let log = log_of(&[(1, 3_000), (2, 8), (3, 8), (4, 8)], 8);
    assert_eq!(log.position(2), Ok(Look::Found { position: 3_072, length: 0 }));
    assert_eq!(log.position(5), Ok(Look::Absent { position: 6 * 1024 }));
    assert_eq!(log.get(1), Ok(Some(vec![1; 2_992])));
    log.check().unwrap();
}

#[test]
fn the_same_id_twice() {
    let mut log = log_of(&[(5, 8)], 1);
    let refused = log.push(&[Entry::new(6, ""), Entry::new(6, "")]).unwrap_err();
    assert_eq!((refused.refusal, refused.written), (Refusal::OutOfOrder, 1));
    assert_eq!(log.state(), State { length: 2048, last: 6, next: 1, ceiling: 1 });
}

#[test]
fn data_at_the_limit_keeps_its_id() {
    let mut log = Log::with_capacity(16_402 * PAGE);
    log.push(&[Entry::new(6, "")]).unwrap();
    let bytes = log.bytes().to_vec();
    let refused = log.push(&[Entry::new(7, vec![0; 16_777_208])]).unwrap_err();
    assert_eq!((refused.refusal, refused.written), (Refusal::TooLarge, 0));
    assert_eq!(log.state(), State { length: 1024, last: 6, next: 1, ceiling: 1 });
    assert_eq!(log.bytes(), bytes);

    // One byte more is refused for the whole batch, before any id is looked at.
    let refused = log.push(&[Entry::new(7, ""), Entry::new(8, vec![0; 16_777_209])]).unwrap_err();
    assert_eq!((refused.refusal, refused.written), (Refusal::ValueTooLarge, 0));
    assert_eq!(log.state().last, 6);

    // The same id with far fewer bytes.
    let mut fewer = log.clone();
    fewer.push(&[Entry::new(7, "fewer")]).unwrap();
    assert_eq!(fewer.state(), State { length: 2048, last: 7, next: 1, ceiling: 1 });

    // One byte less is not too large: 16,401 pages, which just fit.
    let data: Vec<u8> = (0..16_777_207u32).map(|i| (i % 251) as u8).collect();
    log.push(&[Entry::new(7, data.clone())]).unwrap();
    assert_eq!(log.state().length, 16_402 * 1024);
    let (again, cut_off) = Log::recover(log.bytes().to_vec(), log.state().length, 0).unwrap();
    assert_eq!((again.state().next, cut_off), (8, CutOff::default()));
    assert!(again.get(7) == Ok(Some(data)));
}

/// Pages of 1, 2, 2 and 1 in a store of 4: refused for room at the third.
fn crowd() -> (Log, [Entry; 4]) {
    let mut log = Log::with_capacity(4 * PAGE);
    assert_eq!(log.raise(4), Ok(5));
    let entries = [(1, 100), (2, 1_100), (3, 1_200), (4, 200)].map(|(id, length)| {
        assert_eq!(log.take(), Ok(id));
        Entry::new(id, vec![id as u8; length])
    });
    let refused = log.push(&entries).unwrap_err();
    assert_eq!((refused.refusal, refused.written), (Refusal::NoRoom, 2));
    assert_eq!(log.state(), State { length: 3 * 1024, last: 2, next: 5, ceiling: 5 });
    (log, entries)
}

fn entries_of(log: &Log) -> Vec<Entry> {
    log.check().unwrap();
    log.scan(..).unwrap().map(|entry| entry.unwrap()).collect()
}

#[test]
fn what_was_refused_for_room_goes_in_once_there_is_more() {
    let (mut log, entries) = crowd();
    let refused = log.push(&entries[2..]).unwrap_err();
    assert_eq!((refused.refusal, refused.written), (Refusal::NoRoom, 0));
    log.grow(6 * PAGE).unwrap();
    assert_eq!(log.state(), State { length: 3 * 1024, last: 2, next: 5, ceiling: 5 });
    assert_eq!(entries_of(&log), entries[..2]);
    log.push(&entries[2..]).unwrap();
    assert_eq!(log.state(), State { length: 6 * 1024, last: 4, next: 5, ceiling: 5 });
    assert_eq!(entries_of(&log), entries);
    assert_eq!(log.get(3), Ok(Some(vec![3; 1_200])));
}

#[test]
fn what_was_refused_for_room_goes_in_with_less_data() {
    let (mut log, entries) = crowd();
    log.push(&[Entry::new(3, "less")]).unwrap();
    assert_eq!(log.state(), State { length: 4 * 1024, last: 3, next: 5, ceiling: 5 });
    assert_eq!(log.get(3), Ok(Some(b"less".to_vec())));
    assert_eq!(entries_of(&log)[..2], entries[..2]);
    assert_eq!(log.push(&entries[2..]).unwrap_err().refusal, Refusal::OutOfOrder); // 3 is written now
    assert_eq!(log.push(&entries[3..]).unwrap_err().refusal, Refusal::NoRoom);
}

#[test]
fn a_store_never_shrinks() {
    let (mut log, _) = crowd();
    for capacity in [4 * PAGE, 4 * PAGE - 1, PAGE, 0] {
        log.grow(capacity).unwrap();
    }
    log.push(&[Entry::new(3, "the fourth page")]).unwrap();
    assert_eq!(log.state().length, 4 * 1024);
}

/// Of the stores of about 2^31 bytes only a few pages are touched, so that the system finds memory for those alone.
#[test]
fn a_store_that_the_library_refuses_is_not_kept() {
    let (mut log, entries) = crowd();
    assert_eq!(log.grow((1 << 31) + 1), Err(Refusal::BadState));
    assert_eq!(log.push(&entries[2..]).unwrap_err().refusal, Refusal::NoRoom);
    log.grow(1 << 31).unwrap();
    assert_eq!(log.grow((1 << 31) + 1), Err(Refusal::BadState));
    log.push(&entries[2..]).unwrap();
    assert_eq!(entries_of(&log), entries);
}

#[test]
fn recovery_cuts_an_excess() {
    let mut log = log_of(&[(9, 8)], 1);
    log.push(&[Entry::new(10, "")]).unwrap();
    let (cut, cut_off) = Log::recover(log.bytes().to_vec(), 1_030, 0).unwrap();
    assert_eq!(cut.state(), State { length: 1024, last: 9, next: 10, ceiling: 10 });
    assert_eq!((cut_off, cut_off.bytes()), (CutOff { excess: 6, dropped: 0 }, 6));
    assert_eq!(lent::recover(&[], 0, 0).unwrap().state, State::fresh());
    assert_eq!(lent::recover(&[], 1, 0), Err(Refusal::BadState));
}

#[test]
fn recovery_drops_an_entry_that_is_cut() {
    let log = log_of(&[(1, 8), (2, 3_000)], 3);
    let (cut, cut_off) = Log::recover(log.bytes().to_vec(), 3 * 1024 + 6, 0).unwrap();
    assert_eq!(cut.state(), State { length: 1024, last: 1, next: 2, ceiling: 2 });
    assert_eq!((cut_off, cut_off.bytes()), (CutOff { excess: 6, dropped: 2 }, 2_054));
    assert_eq!((cut.check(), cut.get(1), cut.get(2)), (Ok(()), Ok(Some(vec![])), Ok(None)));

    let (none, cut_off) = Log::recover(log.bytes()[1024..].to_vec(), 2 * 1024, 0).unwrap();
    assert_eq!((none.state(), cut_off), (State::fresh(), CutOff { excess: 0, dropped: 2 }));
}

#[test]
fn two_entries_cut_at_three_places() {
    let mut log = Log::with_capacity(4_096);
    log.push(&[Entry::new(1, "hello"), Entry::new(2, [7; 2_992])]).unwrap();
    assert_eq!(log.state(), State { length: 4_096, last: 2, next: 1, ceiling: 1 });
    for (cut, excess, dropped, state) in [
        (4_096, 0, 0, State { length: 4_096, last: 2, next: 3, ceiling: 3 }),
        (3_500, 428, 2, State { length: 1_024, last: 1, next: 2, ceiling: 2 }),
        (2_047, 1_023, 0, State { length: 1_024, last: 1, next: 2, ceiling: 2 }),
        (1_023, 1_023, 0, State { length: 0, last: 0, next: 1, ceiling: 1 }),
    ] {
        assert_eq!(lent::recover(log.bytes(), cut, 0), Ok(Recovered { state, excess, dropped }), "cut at {cut}");
        let (left, cut_off) = Log::recover(log.bytes()[..cut as usize].to_vec(), cut, 0).unwrap();
        assert_eq!((left.state(), cut_off), (state, CutOff { excess, dropped }), "cut at {cut}");
        assert_eq!(left.get(1).unwrap().as_deref(), (cut > 1_023).then_some(&b"hello"[..]), "cut at {cut}");
    }
}

/// Not what one crash leaves: a cut entry, and after it another.
#[test]
fn recovery_drops_again_what_is_cut_then() {
    let log = log_of(&[(1, 8), (2, 3_000)], 3);
    let after = log_of(&[(3, 2_000)], 4);
    let bytes = [&log.bytes()[..3 * PAGE], &after.bytes()[..PAGE]].concat();
    let (cut, cut_off) = Log::recover(bytes, 4 * 1024, 0).unwrap();
    assert_eq!(cut.state(), State { length: 1024, last: 1, next: 2, ceiling: 2 });
    assert_eq!(cut_off, CutOff { excess: 0, dropped: 3 });
}

#[test]
fn the_sequence_of_four() {
    let mut sequence = IdSequence::new(1);
    assert!(sequence.complete());
    let answers = [3, 1, 2, 4].map(|id| {
        sequence.note(id).unwrap();
        sequence.complete()
    });
    assert_eq!(answers, [false, false, true, true]);
    assert_eq!(sequence.note(0), Err(Refusal::BelowStart));
    assert_eq!(sequence.note(sequence.start() + 4_096), Err(Refusal::OutsideWindow));
    assert_eq!(sequence.note(u64::MAX), Err(Refusal::OutsideWindow));
    assert_eq!((sequence.start(), sequence.after()), (5, 5));
}

#[test]
fn a_dropped_id_is_not_handed_out_again() {
    let mut log = Log::with_capacity(2 * PAGE);
    assert_eq!((log.state(), log.take()), (State::fresh(), Err(Refusal::CeilingReached)));
    assert_eq!(log.raise(2), Ok(3));
    assert_eq!(log.state(), State { length: 0, last: 0, next: 1, ceiling: 3 });
    assert_eq!([(); 3].map(|()| log.take()), [Ok(1), Ok(2), Err(Refusal::CeilingReached)]);
    log.push(&[Entry::new(1, "hello")]).unwrap();

    let recover = |stored| Log::recover(log.bytes().to_vec(), 1_024, stored).unwrap().0;
    let mut again = recover(3);
    assert_eq!(again.state(), State { length: 1_024, last: 1, next: 3, ceiling: 3 });
    assert_eq!((again.take(), again.raise(1), again.take()), (Err(Refusal::CeilingReached), Ok(4), Ok(3)));
    assert_eq!(again.position(2), Ok(Look::Absent { position: 1_024 }));

    let mut forgetful = recover(0);
    assert_eq!(forgetful.state(), State { length: 1_024, last: 1, next: 2, ceiling: 2 });
    assert_eq!((forgetful.raise(1), forgetful.take()), (Ok(3), Ok(2)));
}

#[test]
fn steps_and_sums_that_no_ceiling_is_raised_by() {
    for (state, step, raised) in [
        (State::fresh(), 0, Err(Refusal::BadRaise)),
        (State::fresh(), 1 << 32, Ok((1 << 32) + 1)),
        (State::fresh(), (1 << 32) + 1, Err(Refusal::BadRaise)),
        (State::fresh(), u64::MAX, Err(Refusal::BadRaise)),
        (State { ceiling: u64::MAX - 1, ..State::fresh() }, 1, Ok(u64::MAX)),
        (State { ceiling: u64::MAX - 1, ..State::fresh() }, 2, Err(Refusal::BadRaise)),
    ] {
        let mut after = state;
        assert_eq!(after.raise(step), raised);
        assert_eq!(after, State { ceiling: raised.unwrap_or(state.ceiling), ..state });
    }
}

#[test]
fn ids_run_out() {
    let mut state = State { length: 0, last: 0, next: u64::MAX - 1, ceiling: u64::MAX };
    assert_eq!(state.take(), Ok(u64::MAX - 1));
    assert_eq!(state.take(), Err(Refusal::IdsUsedUp));
    assert_eq!(state.next, u64::MAX);
    state.ceiling = 0;
    assert_eq!(state.take(), Err(Refusal::IdsUsedUp)); // before the ceiling is looked at
}

#[test]
fn scans_of_every_kind_of_range() {
    let log = log_of(&[(2, 8), (3, 3_000), (5, 1_021), (9, 8)], 12);
    let ids = |scan: awirbesh::Scan| scan.map(|e| e.unwrap().id).collect::<Vec<_>>();
    assert_eq!(ids(log.scan(..).unwrap()), [2, 3, 5, 9]);
    assert_eq!(ids(log.scan(3..).unwrap()), [3, 5, 9]);
    assert_eq!(ids(log.scan(..=5).unwrap()), [2, 3, 5]);
    assert_eq!(ids(log.scan(4..9).unwrap()), [5]);
    let after_3 = (std::ops::Bound::Excluded(3), std::ops::Bound::Included(9));
    assert_eq!(ids(log.scan(after_3).unwrap()), [5, 9]);
    assert_eq!(ids(log.scan(12..).unwrap()), [] as [u64; 0]);
    let data: Vec<usize> = log.scan(..).unwrap().map(|e| e.unwrap().data.len()).collect();
    assert_eq!(data, [0, 2_992, 1_013, 0]);
}

#[test]
fn a_scan_hands_a_refusal_out_once() {
    let log = log_of(&[(1, 8), (2, 8), (3, 8)], 4);
    let mut bytes = log.bytes().to_vec();
    bytes[PAGE] = 7;
    let (damaged, _) = Log::recover(bytes, 3 * 1024, 0).unwrap();
    let seen: Vec<_> = damaged.scan(..).unwrap().map(|e| e.map(|e| e.id)).collect();
    assert_eq!(seen, [Ok(1), Err(Refusal::BadMark { page: 1 })]);
    assert_eq!(damaged.check(), Err(Refusal::BadMark { page: 1 }));
}

#[test]
fn every_refusal_has_its_number_and_says_it() {
    let all = [
        Refusal::BadState,
        Refusal::OutOfOrder,
        Refusal::TooLarge,
        Refusal::NoRoom,
        Refusal::BadMark { page: 3 },
        Refusal::ShortEntry { page: 3 },
        Refusal::CutEntry { page: 3 },
        Refusal::NoEntries { page: 3 },
        Refusal::IdsUsedUp,
        Refusal::BufferSmall { needed: 3 },
        Refusal::BelowStart,
        Refusal::OutsideWindow,
        Refusal::BadBatch,
        Refusal::Overlap { page: 3 },
        Refusal::NotAscending { page: 3 },
        Refusal::ValueTooLarge,
        Refusal::CeilingReached,
        Refusal::BadRaise,
    ];
    for (refusal, number) in all.iter().zip((1..=16).chain([30, 31])) {
        assert_eq!(refusal.number(), number);
        assert!(refusal.to_string().starts_with(&format!("refusal {number}: ")));
    }
    assert!(Refusal::CeilingReached.to_string().contains("raise it, store it, then take"));
}
