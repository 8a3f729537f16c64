//! Why the Rust departs: each departure is an entry of docs/DIFFERENCES.md, told by its cause, not its answer alone.
use nebari::transaction::log::probe::guess;

use crate::{layout, rust::caught, Entry, Held, Looked, Numbers, Pair, Push, PushedBy, RecoveredBy, PAGE, TOO_LARGE};

/// An entry of docs/DIFFERENCES.md that explains a disagreement on the compared domain.
#[derive(Clone, Copy, Debug, PartialEq, Eq, PartialOrd, Ord)]
pub enum Departure {
    LaterPages,
    IdlePages,
    FarApart,
    AbsentPosition,
    StaleFilling,
    RefusedId,
    NoRoom,
    TornEntry,
    PartPage,
    UsedId,
    LowNote,
    WideNote,
    LastNote,
    LastTake,
}

impl Departure {
    pub const ALL: [Departure; 14] = [
        Departure::LaterPages,
        Departure::IdlePages,
        Departure::FarApart,
        Departure::AbsentPosition,
        Departure::StaleFilling,
        Departure::RefusedId,
        Departure::NoRoom,
        Departure::TornEntry,
        Departure::PartPage,
        Departure::UsedId,
        Departure::LowNote,
        Departure::WideNote,
        Departure::LastNote,
        Departure::LastTake,
    ];

    /// The heading of its entry.
    pub fn heading(self) -> &'static str {
        match self {
            Departure::LaterPages => "A stored id is lost behind later pages",
            Departure::IdlePages => "A stored id is lost behind idle pages",
            Departure::FarApart => "Ids far apart overflow the page product",
            Departure::AbsentPosition => "The position of an absent id",
            Departure::StaleFilling => "Bytes of an earlier page after the payload",
            Departure::RefusedId => "The id of a refused entry",
            Departure::NoRoom => "A store has an end",
            Departure::TornEntry => "An entry that was cut short",
            Departure::PartPage => "Less than a page",
            Departure::UsedId => "A used id comes again after a restart",
            Departure::LowNote => "An id noted below the start",
            Departure::WideNote => "An id noted outside the window",
            Departure::LastNote => "The last id noted",
            Departure::LastTake => "The last id taken",
        }
    }
}

/// How the Rust's search for an id goes on a log whose entries are known, by the Rust's own guesses.
#[derive(Debug, Default)]
struct Search {
    /// Some guess's product does not fit in 64 bits.
    overflowed: bool,
    /// The page guessed last, and the lower entry at that time.
    last: Option<(u64, Option<Held>)>,
}

/// The product inside `guess_page`, between a lower entry and an upper place, is 2^64 or more.
fn product_overflows(id: u64, lower: &Held, upper_page: u64, upper_id: u64) -> bool {
    let per_page = (upper_id - lower.id) as f64 / (upper_page - lower.page) as f64;
    let pages = ((id - lower.id) as f64 * per_page).floor() as u64;
    let bytes = u128::from(pages.max(1)) * u128::from(PAGE);
    bytes + u128::from(lower.page * PAGE) > u128::from(u64::MAX)
}

fn follow(pair: &Pair, id: u64) -> Search {
    let mut search = Search::default();
    let (mut upper_page, mut upper_id) = (pair.pages(), pair.state().next);
    let mut lower: Option<Held> = None;
    loop {
        if let Some(low) = &lower {
            search.overflowed |= product_overflows(id, low, upper_page, upper_id);
        }
        let location = lower.as_ref().map(|low| low.page * PAGE);
        let guessed = caught(|| guess(id, location, lower.as_ref().map(|low| low.id), upper_page * PAGE, upper_id));
        let Ok(Some(position)) = guessed else { return search };
        let page = position / PAGE;
        if page >= upper_page {
            return search;
        }
        search.last = Some((page, lower.clone()));
        let Some(met) = pair.met_walking_back(page) else { return search };
        if met.id == id {
            return search;
        }
        if met.id < id {
            if lower.as_ref().is_some_and(|low| met.id <= low.id) {
                return search;
            }
            lower = Some(met.clone());
        } else {
            if met.id >= upper_id {
                return search;
            }
            (upper_page, upper_id) = (met.page, met.id);
        }
    }
}

/// The departure for a lookup on which the Rust does not give the truth; none if no entry names the cause.
pub fn of_lookup(pair: &Pair, id: u64, rust: &Looked, truth: &Looked) -> Option<Departure> {
    let search = follow(pair, id);
    match (rust, truth) {
        (Looked::Panicked(text), _) => (cfg!(debug_assertions) && search.overflowed && text.contains("with overflow"))
            .then_some(Departure::FarApart),
        (Looked::Absent { .. }, Looked::Found { .. }) if search.overflowed => Some(Departure::FarApart),
        (Looked::Absent { .. }, Looked::Found { .. }) => {
            let (page, lower) = search.last?;
            let lower = lower?;
            // The walk back from the guess met the lower entry once more, and the Rust took that for the end.
            if pair.met_walking_back(page)?.id != lower.id {
                return None;
            }
            Some(if page < lower.page + lower.pages { Departure::LaterPages } else { Departure::IdlePages })
        }
        // Before the right place, at an entry below the id: a scan from there still meets every entry above it.
        (Looked::Absent { position }, Looked::Absent { position: right }) => {
            let met = pair.held.iter().find(|held| held.page * PAGE == *position)?;
            (position < right && met.id < id).then_some(Departure::AbsentPosition)
        }
        _ => None,
    }
}

/// The departure for a scan in which the Rust does not give the truth.
pub fn of_scan(pair: &Pair, lower: Option<u64>, rust_panic: Option<&str>) -> Option<Departure> {
    let overflowed = lower.is_some_and(|id| id > 0 && id < pair.state().next && follow(pair, id).overflowed);
    (cfg!(debug_assertions) && overflowed && rust_panic?.contains("with overflow")).then_some(Departure::FarApart)
}

/// The departure for the pages that the Rust has of the entries of one push, if they are not as the rules lay them out:
/// its page image was kept, so each byte of the filling is the one that the page before has at that place.
pub fn of_written(written: &[Entry], rust: &[u8]) -> Option<Departure> {
    (rust == layout::stale(written)).then_some(Departure::StaleFilling)
}

/// The departure for a push to which the Rust's answer is not ours: both refuse the same entry with 3, after the same
/// pages, and the Rust has the entry's id for last written, which it sets before it tests the size.
pub fn of_push(push: &Push, ours: &PushedBy, rust: &PushedBy) -> Option<Departure> {
    let (kept, refused) = (push.state_after(), push.refused()?);
    let answer = |last: u64| PushedBy::Answered { number: 3, state: Numbers { last, ..kept } };
    let met_by_three = refused.id > kept.last && refused.data.len() == TOO_LARGE;
    let departs = *ours == answer(kept.last) && *rust == answer(refused.id);
    (met_by_three && departs).then_some(Departure::RefusedId)
}

/// The departure that the Rust's recovery of the first bytes of a log must show, if any: they end in an entry of which
/// pages are missing, or they are less than a page.
pub fn due_at_cut(pair: &Pair, at: u64) -> Option<Departure> {
    if at > 0 && at < PAGE {
        return Some(Departure::PartPage);
    }
    pair.cut_entry(at).map(|_| Departure::TornEntry)
}

/// Whether the Rust's answer to such a recovery is just what the departure says. In either case it has cut the excess
/// off the file before it fails.
pub fn is_at_cut(departure: Departure, at: u64, rust: &RecoveredBy) -> bool {
    let file = at - at % PAGE;
    match departure {
        // It reads the entry whole, and comes to the file's end.
        Departure::TornEntry => {
            let eof = r#"Io(Error { kind: UnexpectedEof, message: "failed to fill whole buffer" })"#;
            *rust == RecoveredBy::Refused(format!("{eof}, file of {file} bytes"))
        }
        // It takes a page off a length of 0: the difference overflows, or is a place past the file's end.
        Departure::PartPage if cfg!(debug_assertions) => {
            *rust == RecoveredBy::Panicked { text: "attempt to subtract with overflow".into(), file }
        }
        Departure::PartPage => {
            let none = r#"DataIntegrity(Error { kind: Message("No entries found in an existing transaction log") })"#;
            *rust == RecoveredBy::Refused(format!("{none}, file of {file} bytes"))
        }
        _ => false,
    }
}

/// The departure for the id that the Rust hands out after a restart: one past the last stored id, by which alone its
/// recovery goes on, though that one was handed out before.
pub fn of_restart(stored: u64, unused: u64, rust: u64) -> Option<Departure> {
    (rust == stored + 1 && rust < unused).then_some(Departure::UsedId)
}

/// A departure names its cause and nothing else: answers that no cause explains stay without a name.
#[cfg(test)]
mod tests {
    use super::*;
    use crate::Tally;

    fn dense_log() -> Pair {
        let mut pair = Pair::with_capacity(8);
        let batch: Vec<Entry> = (1..=4).map(|id| Entry { id, data: Vec::new() }).collect();
        pair.push(&batch, &mut Tally::default());
        pair.set_next(5);
        pair
    }

    #[test]
    fn a_lost_id_without_a_cause_has_no_rule() {
        let pair = dense_log();
        for id in 1..=4 {
            for position in [0, 1_024, 4_096] {
                assert_eq!(of_lookup(&pair, id, &Looked::Absent { position }, &pair.truth(id)), None);
            }
        }
    }

    #[test]
    fn a_wrong_find_has_no_rule() {
        let pair = dense_log();
        let wrong = Looked::Found { position: 0, length: 0, data: Vec::new() };
        assert_eq!(of_lookup(&pair, 2, &wrong, &pair.truth(2)), None);
        assert_eq!(of_lookup(&pair, 5, &wrong, &pair.truth(5)), None);
    }

    #[test]
    fn an_absent_id_at_a_later_place_has_no_rule() {
        let mut pair = dense_log();
        pair.set_next(7);
        assert_eq!(pair.truth(5), Looked::Absent { position: 4_096 });
        assert_eq!(of_lookup(&pair, 5, &Looked::Absent { position: 5_120 }, &pair.truth(5)), None);
        assert_eq!(of_lookup(&pair, 5, &Looked::Absent { position: 512 }, &pair.truth(5)), None);
    }

    #[test]
    fn a_panic_without_an_overflow_has_no_rule() {
        let pair = dense_log();
        let panic = Looked::Panicked("attempt to multiply with overflow".into());
        assert_eq!(of_lookup(&pair, 2, &panic, &pair.truth(2)), None);
        assert_eq!(of_scan(&pair, Some(2), Some("attempt to multiply with overflow")), None);
        assert_eq!(of_scan(&pair, None, None), None);
    }

    /// Entries of two pages and of one: page 1 keeps bytes of page 0, page 2 of both.
    fn stale_log() -> (Pair, [Entry; 2]) {
        let mut pair = Pair::with_capacity(4);
        let batch = [Entry { id: 1, data: vec![0x61; 1_030] }, Entry { id: 2, data: vec![0x62] }];
        let mut tally = Tally::default();
        pair.push(&batch, &mut tally);
        assert_eq!(tally.times(Departure::StaleFilling), 1);
        (pair, batch)
    }

    /// What the comparison of its pages says once they are changed.
    fn said_of(change: impl Fn(&mut Pair)) -> Result<(), String> {
        let (mut pair, batch) = stale_log();
        change(&mut pair);
        caught(|| pair.compare_written(&batch, 0, &mut Tally::default()))
    }

    #[test]
    fn any_other_byte_of_the_rusts_pages_has_no_rule() {
        let (pair, batch) = stale_log();
        let (ours, rust) = (pair.ours.bytes(), pair.rust.file.bytes.as_slice());
        assert_eq!(of_written(&batch, rust), Some(Departure::StaleFilling));
        for at in 0..rust.len() {
            // Zero, the entries' data, what the page before has there, a bit changed.
            for byte in [0, 0x61, 0x62, rust[at.saturating_sub(1_024)], rust[at] ^ 1] {
                let changed = [&rust[..at], &[byte], &rust[at + 1..]].concat();
                assert_eq!(of_written(&batch, &changed).is_some(), byte == rust[at], "{byte} at {at}");
            }
        }
        // A mark, a length, an id, data, and filling that is neither zero nor the kept byte; zero in one place alone.
        for (at, byte) in [(1_024, 2), (2_051, 8), (2_059, 1), (12, 0x62), (2_061, 0x63), (2_061, 0)] {
            let said = said_of(|pair| pair.rust.file.bytes[at] = byte).unwrap_err();
            assert!(said.starts_with("no departure names it"), "{said}");
        }
        // Zeros in all of the filling are not what the Rust leaves here.
        assert_eq!(of_written(&batch, ours), None);
        let said = said_of(|pair| pair.rust.file.bytes = pair.ours.bytes().to_vec()).unwrap_err();
        assert!(said.starts_with("no departure names it"), "{said}");
        // Filling that was kept from an earlier push is none that a push may leave.
        let (first, second) = batch.split_at(1);
        assert_eq!(of_written(second, &rust[2_048..]), None);
        assert_eq!(of_written(first, &rust[..2_048]), Some(Departure::StaleFilling));
    }

    #[test]
    fn any_other_byte_of_our_pages_has_no_rule() {
        assert_eq!(said_of(|_| ()), Ok(()));
        let (pair, _) = stale_log();
        for at in 0..pair.ours.bytes().len() {
            let said = said_of(|pair| pair.ours.store[at] ^= 1).unwrap_err();
            assert!(said.starts_with("the library's pages"), "{said}");
        }
        // The bytes that the Rust keeps are excused in the Rust's pages only.
        let said = said_of(|pair| pair.ours.store[..3_072].copy_from_slice(&pair.rust.file.bytes)).unwrap_err();
        assert!(said.starts_with("the library's pages"), "{said}");
    }

    const BEFORE: Numbers = Numbers { length: 1_024, last: 4, next: 12 };

    fn batch_of<const N: usize>(entries: [(u64, usize); N]) -> [Entry; N] {
        entries.map(|(id, length)| Entry { id, data: vec![0; length] })
    }

    fn answered(number: u64, length: u64, last: u64, next: u64) -> PushedBy {
        PushedBy::Answered { number, state: Numbers { length, last, next } }
    }

    /// Whether answers to a push of so many entries have a name.
    fn named(batch: &[Entry], count: usize, ours: &PushedBy, rust: &PushedBy) -> bool {
        of_push(&Push { before: BEFORE, batch, count }, ours, rust).is_some()
    }

    #[test]
    fn any_other_answer_to_a_refused_entry_has_no_rule() {
        // 6 is written, 8 is too large, 10 is not looked at.
        let batch = batch_of([(6, 5), (8, TOO_LARGE), (10, 0)]);
        let (ours, rust) = (answered(3, 2_048, 6, 12), answered(3, 2_048, 8, 12));
        assert!(named(&batch, 1, &ours, &rust));
        for number in 0..=16 {
            for length in [0, 1_024, 2_048, 3_072] {
                for next in [0, 11, 12, 13] {
                    for last in 0..=12 {
                        let other = answered(number, length, last, next);
                        assert_eq!(named(&batch, 1, &ours, &other), other == rust, "the Rust {other:?}");
                        assert_eq!(named(&batch, 1, &other, &rust), other == ours, "ours {other:?}");
                        assert!(!named(&batch, 1, &other, &other), "both {other:?}");
                    }
                    let both = [6, 8].map(|last| answered(number, length, last, next));
                    assert_eq!(named(&batch, 1, &both[0], &both[1]), both[0] == ours, "both {both:?}");
                }
            }
        }
        let panic = PushedBy::Panicked("transaction too large".into());
        assert!(!named(&batch, 1, &ours, &panic) && !named(&batch, 1, &panic, &rust));
    }

    #[test]
    fn a_refused_entry_at_another_place_has_no_rule() {
        let batch = batch_of([(6, 5), (8, TOO_LARGE), (10, 0)]);
        let (ours, rust) = (answered(3, 2_048, 6, 12), answered(3, 2_048, 8, 12));
        for count in 0..=3 {
            assert_eq!(named(&batch, count, &ours, &rust), count == 1, "{count} entries");
        }
        // Answers that fit the place, but the entry there is not one that 3 meets.
        assert!(!named(&batch, 0, &answered(3, 1_024, 4, 12), &answered(3, 1_024, 6, 12)));
        let length = 2_048 + 16_401 * 1_024;
        assert!(!named(&batch, 2, &answered(3, length, 8, 12), &answered(3, length, 10, 12)));
        for data in [0, TOO_LARGE - 1, TOO_LARGE + 1] {
            assert!(!named(&batch_of([(6, 5), (8, data)]), 1, &ours, &rust), "{data} bytes");
        }
        // 2 comes before 3, so the refused id is above last written.
        assert!(!named(&batch_of([(6, 5), (5, TOO_LARGE)]), 1, &ours, &answered(3, 2_048, 5, 12)));
        assert!(!named(&batch_of([(4, TOO_LARGE)]), 0, &answered(3, 1_024, 4, 12), &answered(3, 1_024, 4, 12)));
    }

    #[test]
    fn after_a_refused_entry_nothing_else_may_differ() {
        let batch = batch_of([(5, 0), (6, TOO_LARGE)]);
        // The Rust has other numbers than we have before the push.
        let said_of = |change: &dyn Fn(&mut Numbers)| {
            let (mut pair, mut tally) = (dense_log(), Tally::default());
            let mut state = pair.ours.numbers();
            change(&mut state);
            pair.rust.set(state);
            caught(|| pair.push(&batch, &mut tally)).map(|answer| (answer, pair.rust.numbers() == pair.ours.numbers()))
        };
        // Afterwards it has ours again.
        assert_eq!(said_of(&|_| ()), Ok((answered(3, 5_120, 6, 5), true)));
        let changes: [&dyn Fn(&mut Numbers); 4] =
            [&|state| state.length += PAGE, &|state| state.next += 1, &|state| state.last = 5, &|state| state.last = 6];
        for change in changes {
            let said = said_of(change).unwrap_err();
            assert!(said.starts_with("no departure names it"), "{said}");
        }
    }

    /// That both sides say the same is not enough: our last written stays where the rules leave it.
    #[test]
    fn our_state_is_that_of_the_rules() {
        let batch = batch_of([(6, 5), (8, TOO_LARGE)]);
        let said_of = |ours: PushedBy, rust: PushedBy| {
            let push = Push { before: BEFORE, batch: &batch, count: 1 };
            caught(|| dense_log().compare_answers(&push, &ours, &rust, &mut Tally::default()))
        };
        let rust = answered(3, 2_048, 8, 12);
        assert_eq!(said_of(answered(3, 2_048, 6, 12), rust.clone()), Ok(()));
        for ours in [rust.clone(), answered(3, 2_048, 4, 12), answered(3, 1_024, 6, 12), answered(3, 2_048, 6, 13)] {
            for rust in [&ours, &rust] {
                let said = said_of(ours.clone(), rust.clone()).unwrap_err();
                assert!(said.contains("the library's state"), "{said}");
            }
        }
    }

    /// Entries 1 (page 0) and 2 (pages 2 to 4), an idle page between them; and what either side says of a cut.
    fn cut_log() -> Pair {
        let (mut pair, mut tally) = (Pair::with_capacity(8), Tally::default());
        pair.push(&[Entry { id: 1, data: vec![0x61; 5] }], &mut tally);
        pair.add_idle_page(0);
        pair.push(&[Entry { id: 2, data: vec![0x62; 3_000] }], &mut tally);
        pair.set_next(3);
        pair
    }

    fn at(length: u64, last: u64, file: u64) -> RecoveredBy {
        RecoveredBy::At { state: Numbers { length, last, next: last + 1 }, file }
    }

    fn cut_said(cut: u64, ours: &RecoveredBy, rust: &RecoveredBy) -> Result<u64, String> {
        let mut tally = Tally::default();
        caught(|| cut_log().compare_recovered(cut, ours, rust, &mut tally))?;
        Ok(tally.needed.values().map(|needed| needed.times).sum())
    }

    fn end_of_file(file: u64) -> RecoveredBy {
        let text = r#"Io(Error { kind: UnexpectedEof, message: "failed to fill whole buffer" })"#;
        RecoveredBy::Refused(format!("{text}, file of {file} bytes"))
    }

    #[test]
    fn any_other_answer_to_a_cut_has_no_rule() {
        let (ours, rust) = (at(2_048, 1, 2_048), end_of_file(4_096));
        assert_eq!(cut_said(4_500, &ours, &rust), Ok(1));
        let other = |text: &str| RecoveredBy::Refused(format!("{text}, file of 4096 bytes"));
        let panic = RecoveredBy::Panicked { text: "attempt to subtract with overflow".into(), file: 4_096 };
        let others = [end_of_file(4_500), end_of_file(2_048), other("No entries found"), panic, at(4_096, 2, 4_096)];
        // What we answer is no departure either: the Rust does not answer it.
        for rust in others.iter().chain([&ours]) {
            let said = cut_said(4_500, &ours, rust).unwrap_err();
            assert!(said.starts_with("no departure names it"), "{said}");
        }
        // Where the entry is whole, or none of its pages is there, nothing is due.
        for (cut, left) in [(5_120, at(5_120, 2, 5_120)), (3_071, at(2_048, 1, 2_048)), (1_024, at(1_024, 1, 1_024))] {
            assert_eq!(cut_said(cut, &left, &left), Ok(0));
            let said = cut_said(cut, &left, &end_of_file(cut / PAGE * PAGE)).unwrap_err();
            assert!(said.contains("the Rust's recovery"), "{said}");
        }
    }

    #[test]
    fn any_other_id_after_a_restart_has_no_rule() {
        // 4 is stored, 5 and 6 were handed out.
        for id in 0..9 {
            assert_eq!(of_restart(4, 7, id).is_some(), id == 5, "{id}");
        }
        // Nothing was dropped: 5 is new.
        assert_eq!(of_restart(4, 5, 5), None);
    }

    /// A library that hands out a dropped id, or that passes over one more, is not let through.
    #[test]
    fn our_id_after_a_restart_is_that_of_the_rules() {
        // 1 to 4 are stored, 5 and 6 were handed out.
        let said_of = |ours: u64, rust: u64| {
            let mut tally = Tally::default();
            caught(|| dense_log().compare_restarted(2, ours, rust, &mut tally))?;
            Ok::<u64, String>(tally.times(Departure::UsedId))
        };
        assert_eq!((said_of(7, 5), said_of(7, 7)), (Ok(1), Ok(0)));
        for ours in [0, 1, 4, 5, 6, 8] {
            for rust in [5, ours] {
                let said = said_of(ours, rust).unwrap_err();
                assert!(said.contains("the library's id"), "{said}");
            }
        }
        for rust in [0, 1, 4, 6, 8] {
            let said = said_of(7, rust).unwrap_err();
            assert!(said.starts_with("no departure names it"), "{said}");
        }
    }

    /// A library that answers as the Rust does, or as one without the change did, is not let through.
    #[test]
    fn our_recovery_is_that_of_the_rules() {
        let rust = end_of_file(4_096);
        let seven = RecoveredBy::Refused("refusal 7: cut entry on page 2".into());
        let kept = [at(4_096, 2, 4_096), at(4_096, 1, 4_096), at(2_048, 2, 2_048)];
        // The idle page dropped too, everything dropped, the file not cut, or cut to more or less than the log.
        let others = [at(1_024, 1, 1_024), at(0, 0, 0), at(2_048, 1, 4_096), at(2_048, 1, 3_072), at(2_048, 1, 1_024)];
        for ours in [rust.clone(), seven].iter().chain(&kept).chain(&others) {
            for rust in [&rust, ours] {
                let said = cut_said(4_500, ours, rust).unwrap_err();
                assert!(said.contains("the library's recovery"), "{said}");
            }
        }
    }
}
