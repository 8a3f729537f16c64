//! What was compared, and how often each departure was needed.
use std::collections::BTreeMap;

use crate::Departure;

#[derive(Default)]
pub struct Tally {
    pub compared: BTreeMap<&'static str, u64>,
    pub needed: BTreeMap<Departure, Needed>,
}

pub struct Needed {
    pub times: u64,
    /// The smallest input: its size first, and what it is.
    pub smallest: ((u64, u64, u64), String),
}

impl Tally {
    pub fn compared(&mut self, what: &'static str) {
        *self.compared.entry(what).or_default() += 1;
    }

    pub fn add_compared(&mut self, what: &'static str, times: u64) {
        *self.compared.entry(what).or_default() += times;
    }

    /// A disagreement that a departure names, with its input and a size to find the smallest by.
    pub fn name(&mut self, departure: Departure, size: (u64, u64, u64), input: impl FnOnce() -> String) {
        match self.needed.get_mut(&departure) {
            None => {
                self.needed.insert(departure, Needed { times: 1, smallest: (size, input()) });
            }
            Some(needed) => {
                needed.times += 1;
                if size < needed.smallest.0 {
                    needed.smallest = (size, input());
                }
            }
        }
    }

    pub fn times(&self, departure: Departure) -> u64 {
        self.needed.get(&departure).map_or(0, |needed| needed.times)
    }

    pub fn smallest(&self, departure: Departure) -> &str {
        self.needed.get(&departure).map_or("none", |needed| &needed.smallest.1)
    }

    pub fn print(&self, title: &str) {
        println!("{title}, {} overflow checks", if cfg!(debug_assertions) { "with" } else { "without" });
        for (what, times) in &self.compared {
            println!("  {times} {what} compared");
        }
        for (departure, needed) in &self.needed {
            println!("  {} times: {}; smallest: {}", needed.times, departure.heading(), needed.smallest.1);
        }
    }
}
