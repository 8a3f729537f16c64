//! One log on both sides, and the entries that it really has.
use std::ops::{Bound, RangeBounds};

use awirbesh::{lent, State};

use crate::{departures, layout, ours::Ours, rust::Rust};
use crate::{Departure, Entry, Held, Ids, Looked, Numbers, Push, PushedBy, RecoveredBy, Scanned, Tally, PAGE};

pub struct Pair {
    pub ours: Ours,
    pub rust: Rust,
    pub held: Vec<Held>,
    /// For each page of the log, which entry a walk back from it meets.
    walk_back: Vec<usize>,
}

impl Pair {
    pub fn with_capacity(pages: u64) -> Pair {
        let ours = Ours::with_capacity((pages * PAGE) as usize);
        let rust = Rust::of(Vec::new(), ours.numbers());
        Pair { ours, rust, held: Vec::new(), walk_back: Vec::new() }
    }

    pub fn copy(&self) -> Pair {
        Pair {
            ours: self.ours.clone(),
            rust: Rust::of(self.rust.file.bytes.clone(), self.ours.numbers()),
            held: self.held.clone(),
            walk_back: self.walk_back.clone(),
        }
    }

    pub fn state(&self) -> State {
        self.ours.state
    }

    pub fn pages(&self) -> u64 {
        self.ours.state.length / PAGE
    }

    /// The log in words, for a report.
    pub fn words(&self) -> String {
        let mut words: Vec<String> = Vec::new();
        let mut end = 0;
        for held in &self.held {
            words.extend((end..held.page).map(|_| "idle".to_string()));
            words.push(format!("{} (payload {})", held.id, held.data.len() + 8));
            end = held.page + held.pages;
        }
        words.extend((end..self.pages()).map(|_| "idle".to_string()));
        format!("{}; next {}", words.join(", "), self.state().next)
    }

    pub fn set_next(&mut self, next: u64) {
        self.ours.state.next = next;
        self.rust.set(self.ours.numbers());
    }

    /// A page with mark 0 after the last entry, which neither side writes but both must read past.
    pub fn add_idle_page(&mut self, filler: u8) {
        let from = self.ours.state.length as usize;
        let page = &mut self.ours.store[from..from + PAGE as usize];
        page.fill(filler);
        page[0] = 0;
        self.rust.file.bytes.extend_from_slice(page);
        self.ours.state.length += PAGE;
        self.rust.set(self.ours.numbers());
        self.walk_back.push(self.held.len() - 1);
    }

    /// Pushes a batch on both sides and compares the refusal, the count, the state and every byte; the Rust's answer.
    pub fn push(&mut self, batch: &[Entry], tally: &mut Tally) -> PushedBy {
        let (store, file) = (self.ours.store.clone(), self.rust.file.bytes.clone());
        let before = self.ours.numbers();
        let from = before.length as usize;
        let (by_ours, count) = self.ours.push(batch);
        let by_rust = self.rust.push(batch);
        let push = Push { before, batch, count: count as usize };
        self.compare_answers(&push, &by_ours, &by_rust, tally);
        let written = push.written();
        self.compare_written(written, from, tally);
        self.assert_kept(&store, from);
        assert!(self.rust.file.bytes[..from] == file, "bytes of the Rust's log changed");
        assert_eq!(self.rust.file.bytes.len() as u64, self.ours.state.length, "the Rust's file");
        self.hold_written(written, from);
        tally.compared("pushes");
        by_rust
    }

    /// Compares what the two sides answered to a push: ours must have the state of the rules, and the Rust's must be
    /// ours or depart by a name. Then the Rust gets our state, so that what follows is compared again.
    pub fn compare_answers(&self, push: &Push, by_ours: &PushedBy, by_rust: &PushedBy, tally: &mut Tally) {
        let input = || format!("push of {:?}, last written {}", ids_of(push.batch), push.before.last);
        let truth = push.state_after();
        let PushedBy::Answered { state, .. } = by_ours else { panic!("{by_ours:?}") };
        assert_eq!(*state, truth, "the library's state after a {}", input());
        if by_rust == by_ours {
            return;
        }
        match departures::of_push(push, by_ours, by_rust) {
            Some(departure) => {
                let data = push.batch.iter().map(|entry| entry.data.len() as u64).sum();
                tally.name(departure, (push.batch.len() as u64, data, push.before.last), input);
                self.rust.set(truth);
            }
            None => panic!("no departure names it: {}: the Rust {by_rust:?}, ours {by_ours:?}", input()),
        }
    }

    /// Compares the pages that a push has added from a place on: ours, all of them, and as many of the Rust's.
    pub fn compare_written(&self, written: &[Entry], from: usize, tally: &mut Tally) {
        let truth = layout::clean(written);
        assert!(self.ours.bytes()[from..] == truth, "the library's pages of {:?}", ids_of(written));
        let by_rust = &self.rust.file.bytes[from..from + truth.len()];
        // Where an image that is kept leaves zeros, there is nothing to name.
        if by_rust == truth && truth == layout::stale(written) {
            return;
        }
        match departures::of_written(written, by_rust) {
            Some(departure) => {
                let data = written.iter().map(|entry| entry.data.len() as u64).sum();
                let size = (truth.len() as u64, data, written.len() as u64);
                tally.name(departure, size, || format!("push of {:?}", ids_of(written)));
            }
            None => panic!("no departure names it: the Rust's pages of {:?}", ids_of(written)),
        }
    }

    /// Our push changed neither the log that it was given nor the bytes after the pages that it added.
    fn assert_kept(&self, store: &[u8], from: usize) {
        let end = self.ours.state.length as usize;
        assert!(self.ours.store[..from] == store[..from], "bytes of the log changed");
        assert!(self.ours.store[end..] == store[end..], "bytes past the log changed");
    }

    /// Takes the entries that were written into what is known.
    fn hold_written(&mut self, written: &[Entry], from: usize) {
        let mut page = from as u64 / PAGE;
        for entry in written {
            let pages = layout::count(entry);
            self.walk_back.extend((0..pages).map(|_| self.held.len()));
            self.held.push(Held { id: entry.id, page, pages, data: entry.data.clone() });
            page += pages;
        }
    }

    /// The entry that a walk back from a page meets.
    pub fn met_walking_back(&self, page: u64) -> Option<&Held> {
        self.walk_back.get(page as usize).map(|&at| &self.held[at])
    }

    /// What the rules say of an id on a sound log.
    pub fn truth(&self, id: u64) -> Looked {
        if id == 0 {
            return Looked::Absent { position: 0 };
        }
        if id >= self.state().next {
            return Looked::Absent { position: self.state().length };
        }
        match self.held.iter().find(|held| held.id >= id) {
            None => Looked::Absent { position: self.state().length },
            Some(held) if held.id > id => Looked::Absent { position: held.page * PAGE },
            Some(held) => {
                Looked::Found { position: held.page * PAGE, length: held.data.len() as u64, data: held.data.clone() }
            }
        }
    }

    /// Looks an id up on both sides.
    pub fn compare_lookup(&mut self, id: u64, tally: &mut Tally) {
        let truth = self.truth(id);
        let by_ours = self.ours.lookup(id);
        assert_eq!(by_ours, truth, "the library's lookup of {id} in {}", self.words());
        let in_rusts = self.ours.lookup_in(&self.rust.file.bytes, id);
        assert_eq!(in_rusts, truth, "the library's lookup of {id} in the Rust's bytes of {}", self.words());
        let by_rust = self.rust.lookup(id);
        tally.compared(match truth {
            Looked::Found { .. } => "lookups of stored ids",
            _ => "lookups of absent ids",
        });
        if by_rust == truth {
            return;
        }
        match departures::of_lookup(self, id, &by_rust, &truth) {
            Some(departure) => {
                let size = (self.pages(), self.state().next, id);
                tally.name(departure, size, || format!("{}; id {id}", self.words()));
            }
            None => {
                panic!("no departure names it: id {id} in {}: the Rust {by_rust:?}, the rules {truth:?}", self.words())
            }
        }
    }

    /// Scans a range on both sides.
    pub fn compare_scan(&mut self, ids: Ids, tally: &mut Tally) {
        let beyond = match ids.0 {
            Bound::Included(id) | Bound::Excluded(id) => id >= self.state().next,
            Bound::Unbounded => false,
        };
        let inside = |held: &&Held| !beyond && ids.contains(&held.id);
        let truth = Scanned::Entries(self.held.iter().filter(inside).map(|h| (h.id, h.data.clone())).collect());
        let by_ours = self.ours.scan(ids);
        assert_eq!(by_ours, truth, "the library's scan of {ids:?} in {}", self.words());
        let in_rusts = self.ours.scan_in(&self.rust.file.bytes, ids);
        assert_eq!(in_rusts, truth, "the library's scan of {ids:?} in the Rust's bytes of {}", self.words());
        let by_rust = self.rust.scan(ids);
        tally.compared("scans");
        if by_rust == truth {
            return;
        }
        let lower = match ids.0 {
            Bound::Included(id) | Bound::Excluded(id) => Some(id),
            Bound::Unbounded => None,
        };
        let panic = match &by_rust {
            Scanned::Panicked(text) => Some(text.as_str()),
            _ => None,
        };
        match departures::of_scan(self, lower, panic) {
            Some(departure) => {
                let size = (self.pages(), self.state().next, lower.unwrap_or(0));
                tally.name(departure, size, || format!("{}; scan {ids:?}", self.words()));
            }
            None => {
                panic!("no departure names it: {ids:?} in {}: the Rust {by_rust:?}, the rules {truth:?}", self.words())
            }
        }
    }

    /// Recovers the log with some bytes of a part page after it, on both sides, each from its own pages and from the
    /// other's. Not for an empty log with an excess, nor for the last id of all: there the Rust departs, see
    /// docs/DIFFERENCES.md.
    pub fn compare_recovery(&mut self, excess: &[u8], tally: &mut Tally) {
        let truth = RecoveredBy::At {
            state: match self.held.last() {
                None => Numbers::FRESH,
                Some(held) => Numbers { length: self.state().length, last: held.id, next: held.id + 1 },
            },
            file: self.state().length,
        };
        for log in [self.ours.bytes(), &self.rust.file.bytes] {
            let bytes = [log, excess].concat();
            assert_eq!(crate::ours::recover(&bytes), truth, "the library's recovery of {}", self.words());
            assert_eq!(crate::rust::recover(&bytes), truth, "the Rust's recovery of {}", self.words());
        }
        tally.compared("recoveries");
    }

    /// So many ids are taken on both sides and dropped; then both open their logs again, the library with the ceiling
    /// that it was raised to for these ids. Which id each side hands out next, ours and then the Rust's.
    pub fn restart(&self, dropped: u64) -> (u64, u64) {
        let (mut ours, rust) = (self.ours.state, Rust::of(Vec::new(), self.ours.numbers()));
        ours.ceiling = ours.next;
        if dropped > 0 {
            ours.raise(dropped).expect("a ceiling for the ids");
        }
        for _ in 0..dropped {
            assert_eq!(ours.take(), Ok(rust.take()), "ids taken before the restart of {}", self.words());
        }
        let mut again = lent::recover(self.ours.bytes(), ours.length, ours.ceiling).expect("a sound log").state;
        assert_eq!(again.ceiling, again.next, "no id before the ceiling is raised");
        again.raise(1).expect("a ceiling for an id");
        let RecoveredBy::At { state, .. } = crate::rust::recover(&self.rust.file.bytes) else {
            panic!("the Rust's recovery of {}", self.words())
        };
        (again.take().expect("an id"), Rust::of(Vec::new(), state).take())
    }

    /// Restarts both sides and compares which id comes then. Not for the last ids of all.
    pub fn compare_restart(&self, dropped: u64, tally: &mut Tally) {
        let (by_ours, by_rust) = self.restart(dropped);
        self.compare_restarted(dropped, by_ours, by_rust, tally);
        tally.compared("restarts");
    }

    /// Compares the ids after a restart: ours must be the first that was never handed out, and the Rust's the same, or
    /// what the departure says where an id was dropped after the last stored one.
    pub fn compare_restarted(&self, dropped: u64, by_ours: u64, by_rust: u64, tally: &mut Tally) {
        let (stored, unused) = (self.held.last().map_or(0, |held| held.id), self.state().next + dropped);
        let input = || format!("{}; {dropped} taken and dropped", self.words());
        assert_eq!(by_ours, unused, "the library's id after a restart of {}", input());
        if by_rust == unused {
            return;
        }
        match departures::of_restart(stored, unused, by_rust) {
            Some(departure) => tally.name(departure, (self.pages(), unused, self.state().next), input),
            None => panic!("no departure names it: the Rust's id {by_rust} after a restart of {}", input()),
        }
    }

    /// The entry of which a cut at a byte leaves the start, but not all pages.
    pub fn cut_entry(&self, at: u64) -> Option<&Held> {
        self.held.iter().find(|held| (held.page + 1) * PAGE <= at && at < (held.page + held.pages) * PAGE)
    }

    /// What the rules say of the log's first bytes: the entries that end before the cut, and the pages before it but
    /// for those of a cut entry (docs/RULES.md 11.4).
    pub fn left_by(&self, at: u64) -> Numbers {
        let length = self.cut_entry(at).map_or(at - at % PAGE, |held| held.page * PAGE);
        let whole = |held: &&Held| (held.page + held.pages) * PAGE <= at;
        let last = self.held.iter().take_while(whole).last().map_or(0, |held| held.id);
        Numbers { length, last, next: last + 1 }
    }

    /// Recovers the first bytes of the log on both sides, as a crash leaves them, each from its own pages and from the
    /// other's; and what is left of them once more. Not for the last id of all.
    pub fn compare_cut(&self, at: u64, tally: &mut Tally) {
        let left = self.left_by(at);
        for log in [self.ours.bytes(), &self.rust.file.bytes] {
            let bytes = &log[..at as usize];
            self.compare_recovered(at, &crate::ours::recover(bytes), &crate::rust::recover(bytes), tally);
            // Where the Rust fails, it goes on with the file that our recovery cuts: on the same state.
            if departures::due_at_cut(self, at).is_some() {
                let again = RecoveredBy::At { state: left, file: left.length };
                let bytes = &log[..left.length as usize];
                for by in [crate::ours::recover(bytes), crate::rust::recover(bytes)] {
                    assert_eq!(by, again, "what is left of {}, cut at {at}", self.words());
                }
            }
        }
        tally.compared("recoveries of cut logs");
    }

    /// Compares what the two sides answered to a recovery of the log's first bytes: ours must be what the rules say,
    /// and the Rust's the same, or exactly what a departure says where one is due.
    pub fn compare_recovered(&self, at: u64, by_ours: &RecoveredBy, by_rust: &RecoveredBy, tally: &mut Tally) {
        let input = || format!("{}; cut at {at}", self.words());
        let left = self.left_by(at);
        let truth = RecoveredBy::At { state: left, file: left.length };
        assert_eq!(*by_ours, truth, "the library's recovery of {}", input());
        match departures::due_at_cut(self, at) {
            None => assert_eq!(*by_rust, truth, "the Rust's recovery of {}", input()),
            Some(departure) if departures::is_at_cut(departure, at, by_rust) => {
                tally.name(departure, (at, self.pages(), self.state().next), input);
            }
            Some(_) => panic!("no departure names it: {}: the Rust {by_rust:?}", input()),
        }
    }

    /// The log is in the compared domain: sound, with either side's filling, and every id is below next.
    pub fn assert_in_domain(&self) {
        lent::check(&self.ours.store, self.state().length).expect("a sound log");
        lent::check(&self.rust.file.bytes, self.state().length).expect("a sound log of the Rust's");
        assert!(self.held.iter().all(|held| held.id < self.state().next));
    }

    /// Pushes what does not fit into the store: the library refuses 4 there, and the Rust, whose file has no end,
    /// goes on. Up to that entry the two agree; then the Rust is set back to it, and what follows is compared again.
    pub fn compare_without_room(&mut self, batch: &[Entry], tally: &mut Tally) {
        let (store, file) = (self.ours.store.clone(), self.rust.file.bytes.clone());
        let before = self.ours.numbers();
        let from = before.length as usize;
        let (by_ours, count) = self.ours.push(batch);
        let by_rust = self.rust.push(batch);
        let push = Push { before, batch, count: count as usize };
        assert_eq!(by_ours, PushedBy::Answered { number: 4, state: push.state_after() });
        assert!(push.refused().is_some_and(|entry| !self.has_room_for(entry)), "4 where there is room");
        let whole = Push { count: batch.len(), ..push };
        assert_eq!(by_rust, PushedBy::Answered { number: 0, state: whole.state_after() });
        self.compare_written(push.written(), from, tally);
        self.assert_kept(&store, from);
        assert!(self.rust.file.bytes[..from] == file, "bytes of the Rust's log changed");
        self.set_rust_back();
        self.hold_written(push.written(), from);
        tally.compared("pushes without room");
        let input = || format!("a store of {} bytes, push of {:?}", self.ours.store.len(), ids_of(batch));
        tally.name(Departure::NoRoom, (self.ours.store.len() as u64, batch.len() as u64, 0), input);
    }

    fn has_room_for(&self, entry: &Entry) -> bool {
        layout::count(entry) * PAGE <= self.ours.store.len() as u64 - self.ours.state.length
    }

    /// Cuts the Rust's file to our length and gives it our state.
    fn set_rust_back(&mut self) {
        self.rust.file.bytes.truncate(self.ours.state.length as usize);
        self.rust.set(self.ours.numbers());
    }
}

fn ids_of(batch: &[Entry]) -> Vec<(u64, usize)> {
    batch.iter().map(|entry| (entry.id, entry.data.len())).collect()
}
