//! The id sequence and the id counter, on both sides.
use awirbesh::{IdSequence, Refusal, State};
use beside::{chance::Chance, rust::caught, Departure, Tally};
use nebari::transaction::{manager::probe::Sequence, state::probe};

struct Both {
    ours: IdSequence,
    rust: Sequence,
}

impl Both {
    fn new(start: u64) -> Both {
        Both { ours: IdSequence::new(start), rust: Sequence::new(start) }
    }

    /// Notes an id on both sides; says whether the two can still be compared.
    fn note(&mut self, id: u64, tally: &mut Tally) -> bool {
        tally.compared("notes");
        let start = self.ours.start();
        let size = (start, id, 0);
        match self.ours.note(id) {
            Ok(()) => self.rust.note(id),
            Err(Refusal::BelowStart) => {
                // The Rust panics and changes nothing.
                caught(|| self.rust.note(id)).expect_err("a low id");
                tally.name(Departure::LowNote, size, || format!("start {start}, note {id}"));
            }
            Err(Refusal::OutsideWindow) if id == u64::MAX => {
                caught(|| self.rust.note(id)).expect_err("the last id");
                tally.name(Departure::LastNote, size, || format!("start {start}, note {id}"));
            }
            Err(Refusal::OutsideWindow) => {
                // The Rust takes it and grows; far above the start it would not end well, so not there.
                if id - start < 1 << 20 {
                    self.rust.note(id);
                }
                tally.name(Departure::WideNote, size, || format!("start {start}, note {id}"));
                return false;
            }
            Err(other) => panic!("{other}"),
        }
        assert_eq!(self.ours.complete(), self.rust.complete(), "complete after {id}");
        assert_eq!(self.ours.start(), self.rust.start(), "start after {id}");
        assert_eq!(self.ours.after(), self.rust.start() + self.rust.length(), "highest after {id}");
        true
    }
}

/// Every list of up to six notes of seven ids, two of them below the start.
#[test]
fn every_short_list_of_notes() {
    let mut tally = Tally::default();
    for length in 0..=6u32 {
        for number in 0..7u64.pow(length) {
            let mut both = Both::new(3);
            let mut rest = number;
            for _ in 0..length {
                both.note(1 + rest % 7, &mut tally);
                rest /= 7;
            }
        }
    }
    tally.print("every short list of notes");
    assert_eq!(tally.smallest(Departure::LowNote), "start 3, note 1");
}

#[test]
fn random_notes() {
    let mut chance = Chance::new(1);
    let mut tally = Tally::default();
    for _ in 0..1_000 {
        let start = match chance.below(3) {
            0 => chance.below(200),
            1 => u64::MAX - 1 - chance.below(3_000),
            _ => (chance.number() >> chance.below(60)).min(u64::MAX - 10_000),
        };
        let spread = chance.pick(&[3, 64, 65, 130, 1_000, 4_100]);
        let mut both = Both::new(start);
        for _ in 0..200 {
            let first = both.ours.start();
            let id = match chance.below(8) {
                0 => first.saturating_sub(1),
                1 if start > 1 << 63 => u64::MAX,
                2..=4 => first,
                _ => first.saturating_add(chance.below(spread)),
            };
            if !both.note(id, &mut tally) {
                break;
            }
        }
    }
    tally.print("random notes");
    for departure in [Departure::LowNote, Departure::WideNote, Departure::LastNote] {
        assert!(tally.times(departure) > 0, "{departure:?} did not come up");
    }
}

/// nebari's own test of the sequence, on both sides.
#[test]
fn notes_downwards() {
    let mut tally = Tally::default();
    for (start, highest) in [(0, 65), (1, 1_024), (1, 4_096)] {
        let mut both = Both::new(start);
        for id in (start..=highest).rev() {
            assert!(both.note(id, &mut tally));
            assert_eq!(both.ours.complete(), id == start);
        }
    }
}

#[test]
fn takes() {
    let mut chance = Chance::new(1);
    let mut tally = Tally::default();
    for _ in 0..1_000 {
        let next = if chance.one_in(3) { u64::MAX - chance.below(4) } else { chance.number() >> chance.below(64) };
        // The Rust has no ceiling: under the highest one every id is handed out.
        let mut ours = State { length: 1_024, last: 5, next, ceiling: u64::MAX };
        let rust = probe::state(1_024, 5, next);
        for _ in 0..5 {
            tally.compared("takes");
            let id = rust.new_transaction(std::iter::empty::<&[u8]>()).id;
            match ours.take() {
                Ok(taken) => {
                    assert_eq!(taken, id);
                    assert_eq!((ours.length, ours.last, ours.next), probe::numbers(&rust));
                }
                Err(Refusal::IdsUsedUp) => {
                    // The Rust hands the last id out and begins again at 0.
                    assert_eq!((id, rust.next_transaction_id()), (u64::MAX, 0));
                    tally.name(Departure::LastTake, (0, next, 0), || format!("next {}", ours.next));
                    break;
                }
                Err(other) => panic!("{other}"),
            }
        }
    }
    tally.print("takes");
    assert!(tally.times(Departure::LastTake) > 0);
}
