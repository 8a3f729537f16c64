//! The list for crates/replay: a sample of the Rust's answers, for a program that has no Rust at hand.
//!
//! A line is eight numbers of sixteen hexadecimal digits, the first of which says what the line is; those that it does
//! not use are 0. The entries' data is a pattern, so that the list need not hold it, and bytes that were written or
//! read are given by their [`sum`].
use std::ops::Bound;

use nebari::transaction::{manager::probe::Sequence, state::probe as state_probe};

use crate::{chance::Chance, layout, rust, Entry, Looked, Pair, PushedBy, RecoveredBy, Scanned, Tally, PAGE};

/// Pages of the store that the program has, and bytes of its pattern.
pub const PAGES: u64 = 64;
pub const PATTERN: usize = 16_384;

/// What the program's store holds before the pushes, and so an idle page after its mark.
const FILLED: u8 = 0x5A;

const FRESH: u64 = 0;
const STAGE: u64 = 1;
const PUSH: u64 = 2;
const NEXT: u64 = 3;
const IDLE: u64 = 4;
const LOOKUP: u64 = 5;
const SCAN: u64 = 6;
const RECOVER: u64 = 7;
const SEQUENCE: u64 = 8;
const NOTE: u64 = 9;
const TAKE: u64 = 10;

/// A number for some bytes, after a number for those before them.
pub fn sum(before: u64, bytes: &[u8]) -> u64 {
    bytes.iter().fold(before, |sum, &byte| sum.rotate_left(5) ^ u64::from(byte))
}

/// Byte i of the pattern of a log.
fn pattern(seed: u64) -> Vec<u8> {
    (0..PATTERN as u64).map(|i| ((i + seed % 251) % 251) as u8).collect()
}

/// The Rust's log with zeros for the filling, where it departs (docs/RULES.md 1.8). So the program compares every mark,
/// length, id and data byte with the Rust's, and its own filling with zeros.
fn without_filling(pair: &Pair) -> Vec<u8> {
    let mut bytes = pair.rust.file.bytes.clone();
    for held in &pair.held {
        layout::clear_filling(&mut bytes[(held.page * PAGE) as usize..], held.id, &held.data);
    }
    bytes
}

pub struct List {
    text: String,
    chance: Chance,
}

impl List {
    fn line(&mut self, words: &[u64]) {
        assert!(words.len() <= 8);
        let padded = (0..8).map(|i| words.get(i).copied().unwrap_or(0));
        let words: Vec<String> = padded.map(|word| format!("{word:016x}")).collect();
        self.text.push_str(&words.join(" "));
        self.text.push('\n');
    }

    /// A batch of one to four entries, now and then with an id that does not ascend.
    fn push(&mut self, pair: &mut Pair, pattern: &[u8], widest: u64) {
        let (mut id, mut end) = (pair.state().last, 0);
        let mut batch = Vec::new();
        for _ in 0..1 + self.chance.below(4) {
            id = if self.chance.one_in(15) { id } else { id + 1 + self.chance.below(widest) };
            let length = match self.chance.below(3) {
                0 => self.chance.below(40),
                1 => self.chance.pick(&[0, 1_011, 1_012, 1_013, 2_035, 2_036]),
                _ => self.chance.below(3_000),
            } as usize;
            batch.push(Entry { id, data: pattern[end..end + length].to_vec() });
            end += length;
            self.line(&[STAGE, id, length as u64]);
        }
        let before = pair.held.len();
        // The pair compares the two sides; what goes into the list is the Rust's.
        let answer = pair.push(&batch, &mut Tally::default());
        let PushedBy::Answered { number, state } = answer else { panic!("{answer:?}") };
        let written = (pair.held.len() - before) as u64;
        self.line(&[PUSH, number, written, state.length, state.last, sum(0, &without_filling(pair))]);
    }

    fn lookup(&mut self, pair: &mut Pair, id: u64) {
        // A departure is not an answer to hold the library to: docs/DIFFERENCES.md has those.
        let answer = pair.rust.lookup(id);
        if answer != pair.truth(id) {
            return;
        }
        match answer {
            Looked::Found { position, length, data } => {
                self.line(&[LOOKUP, id, 1, position, length, sum(0, &data)]);
            }
            Looked::Absent { position } => self.line(&[LOOKUP, id, 0, position]),
            other => panic!("{other:?}"),
        }
    }

    fn scan(&mut self, pair: &mut Pair) {
        let next = pair.state().next;
        let mut end = || match self.chance.below(3) {
            0 => (0, 0, Bound::Unbounded),
            1 => {
                let id = self.chance.below(next + 2);
                (1, id, Bound::Included(id))
            }
            _ => {
                let id = self.chance.below(next + 2);
                (2, id, Bound::Excluded(id))
            }
        };
        let (lower, upper) = (end(), end());
        let Scanned::Entries(entries) = pair.rust.scan((lower.2, upper.2)) else { return };
        let total = entries.iter().fold(0, |total, (id, data)| sum(sum(total, &id.to_be_bytes()), data));
        self.line(&[SCAN, lower.0, lower.1, upper.0, upper.1, entries.len() as u64, total]);
    }

    fn recovery(&mut self, pair: &Pair) {
        let excess = self.chance.below(1_024);
        let mut bytes = pair.rust.file.bytes.clone();
        bytes.resize(bytes.len() + excess as usize, 0);
        if let RecoveredBy::At { state, .. } = rust::recover(&bytes) {
            self.line(&[RECOVER, excess, state.length, state.last, state.next]);
        }
    }

    fn log(&mut self, seed: u64) {
        let widest = self.chance.pick(&[1, 1, 3, 1_000]);
        let pattern = pattern(seed);
        let mut pair = Pair::with_capacity(PAGES);
        self.line(&[FRESH, seed]);
        for _ in 0..2 + self.chance.below(5) {
            self.push(&mut pair, &pattern, widest);
            if self.chance.one_in(3) && !pair.held.is_empty() {
                pair.add_idle_page(FILLED);
                self.line(&[IDLE]);
            }
        }
        let next = pair.state().last + 1 + self.chance.below(3);
        pair.set_next(next);
        self.line(&[NEXT, next]);
        for held in pair.held.clone() {
            self.lookup(&mut pair, held.id);
        }
        for _ in 0..4 {
            let id = self.chance.below(next + 2);
            self.lookup(&mut pair, id);
        }
        for _ in 0..3 {
            self.scan(&mut pair);
        }
        self.recovery(&pair);
    }

    fn sequence(&mut self) {
        let start = self.chance.pick(&[0, 1, 5_000]);
        let mut sequence = Sequence::new(start);
        self.line(&[SEQUENCE, start]);
        for _ in 0..30 {
            let id = if self.chance.one_in(2) { sequence.start() } else { sequence.start() + self.chance.below(80) };
            sequence.note(id);
            let after = sequence.start() + sequence.length();
            self.line(&[NOTE, id, u64::from(sequence.complete()), sequence.start(), after]);
        }
    }

    fn take(&mut self) {
        let next = self.chance.number() >> self.chance.below(64);
        let state = state_probe::state(0, 0, next);
        let id = state.new_transaction(std::iter::empty::<&[u8]>()).id;
        self.line(&[TAKE, next, id, state.next_transaction_id()]);
    }
}

/// The whole list; the same on every run.
pub fn list() -> String {
    let mut list = List { text: String::new(), chance: Chance::new(20) };
    for seed in 0..40 {
        list.log(seed);
    }
    for _ in 0..10 {
        list.sequence();
    }
    for _ in 0..20 {
        list.take();
    }
    list.text
}
