//! Three query planners share one catalog log of the indexes that they really build. A what-if session takes an id
//! as a build does, and drops it: nothing of it is stored. A build for which the log has no room goes in with the same
//! id once there is more. Later a planner asks of each id which it was. Then the power fails in the middle of a write:
//! the log opens again with all that was settled. And the id of a what-if session that was dropped is not handed out
//! again after a restart.
//!
//! `cargo run --example planners [FILE]`; without a file the log lies in the temporary folder and is removed.
use std::{
    fs,
    path::{Path, PathBuf},
};

use awirbesh::{Entry, Error, IdSequence, Log, LogFile, PushRefused, Refusal};

/// Bytes of memory for the log: at first too few for the story, so that a build is refused.
const LITTLE_ROOM: usize = 2 * 1024;
const MORE_ROOM: usize = 1 << 20;

/// So few, that the story shows where ids go on after a restart; each step stores the ceiling anew.
const IDS_A_STEP: u64 = 2;

/// Where the planners bring the index builds that they finished, in any order. Ids go into the log in ascending order,
/// so a build waits here until every id before it has ended, built or dropped, and until there is room for it.
struct Catalog {
    log: LogFile,
    ended: IdSequence,
    waiting: Vec<Entry>,
}

impl Catalog {
    fn open(path: &Path, room: usize) -> Result<Catalog, Error> {
        let mut log = LogFile::open(path, room)?;
        log.set_step(IDS_A_STEP)?;
        let ended = IdSequence::new(log.log().state().next);
        Ok(Catalog { log, ended, waiting: Vec::new() })
    }

    fn take(&mut self, who: &str) -> Result<u64, Error> {
        let id = self.log.take()?;
        println!("{who} takes id {id}");
        Ok(id)
    }

    /// A real index is built.
    fn build(&mut self, who: &str, id: u64, index: &str) -> Result<(), Error> {
        println!("{who} brings index {id}: {index}");
        self.ended.note(id)?;
        self.waiting.push(Entry::new(id, index));
        self.log_waiting()
    }

    /// A what-if session ends.
    fn drop_id(&mut self, who: &str, id: u64) -> Result<(), Error> {
        println!("{who} drops what-if {id}");
        self.ended.note(id)?;
        self.log_waiting()
    }

    /// The log is given more room, for what waits for it.
    fn make_room(&mut self) -> Result<(), Error> {
        println!("the catalog is given more room");
        self.log.grow(self.log.log().bytes().len() + MORE_ROOM)?;
        self.log_waiting()
    }

    /// Once no earlier id is out, what waits goes into the log.
    fn log_waiting(&mut self) -> Result<(), Error> {
        if !self.ended.complete() || self.waiting.is_empty() {
            return Ok(());
        }
        self.waiting.sort_by_key(|entry| entry.id);
        match self.log.push(&self.waiting) {
            Ok(()) => self.drop_logged(self.waiting.len()),
            Err(Error::PushRefused(refused)) => {
                self.drop_logged(refused.written);
                self.hear_refused(refused)?;
            }
            Err(error) => return Err(error),
        }
        Ok(())
    }

    /// The first of those that wait are in the log now.
    fn drop_logged(&mut self, count: usize) {
        let ids: Vec<String> = self.waiting.drain(..count).map(|entry| entry.id.to_string()).collect();
        if !ids.is_empty() {
            println!("  no earlier id is out: the log now has {}", ids.join(", "));
        }
    }

    /// A build for which there is no room waits on, and so do those after it. Another refusal is an error; one of the
    /// first build alone gives that up, so that the others do not wait for it.
    fn hear_refused(&mut self, refused: PushRefused) -> Result<(), Error> {
        match refused.refusal {
            Refusal::NoRoom => {
                println!("  {refused}; index {} keeps its id and waits", self.waiting[0].id);
                return Ok(());
            }
            Refusal::OutOfOrder | Refusal::TooLarge => drop(self.waiting.remove(0)),
            _ => {}
        }
        Err(Error::PushRefused(refused))
    }

    /// Of an id up to the last written, that it is absent says for good that nothing was built; of a later one it says
    /// nothing yet.
    fn tell_which_is_which(&self, ids: impl IntoIterator<Item = u64>) -> Result<(), Error> {
        println!("\nwhich is which?");
        let state = self.log.log().state();
        for id in ids {
            match self.log.log().get(id)? {
                Some(index) => println!("  {id} is real: {}", String::from_utf8_lossy(&index)),
                None if id <= state.last => println!("  {id} was a what-if"),
                None => println!("  {id} is not settled yet"),
            }
        }
        Ok(())
    }
}

fn tell(path: &Path) -> Result<(), Error> {
    let mut catalog = Catalog::open(path, LITTLE_ROOM)?;

    let on_orders = catalog.take("planner A")?;
    let on_lines = catalog.take("planner B")?;
    let what_if = catalog.take("planner C")?;
    let on_events = catalog.take("planner C")?;

    catalog.build("planner C", on_events, "events (day, kind)")?;
    catalog.build("planner A", on_orders, "orders (customer, day)")?;
    catalog.drop_id("planner C", what_if)?;
    catalog.build("planner B", on_lines, "lines (product)")?;
    catalog.tell_which_is_which(on_orders..=on_events)?;
    println!();
    catalog.make_room()?;

    let another = catalog.take("planner A")?;
    catalog.drop_id("planner A", another)?;
    let on_customers = catalog.take("planner B")?;
    catalog.build("planner B", on_customers, "customers (city)")?;

    catalog.tell_which_is_which(on_orders..=on_customers)?;

    println!("\nplanner B brings index {on_lines} again");
    match catalog.log.push(&[Entry::new(on_lines, "lines (product, day)")]) {
        Err(Error::PushRefused(refused)) => println!("  {refused}"),
        other => println!("  not as expected: {other:?}"),
    }

    println!("\nindexes {on_lines} to {on_customers}, the last left out:");
    for entry in catalog.log.log().scan(on_lines..on_customers)? {
        let entry = entry?;
        println!("  {}: {}", entry.id, String::from_utf8_lossy(&entry.data));
    }

    println!();
    let on_clicks = catalog.take("planner C")?;
    println!("planner C brings index {on_clicks}, and the power fails while it is written");
    drop(catalog);
    lose_power(path, &Entry::new(on_clicks, "clicks (page, day, country) ".repeat(100)))?;

    let mut catalog = Catalog::open(path, MORE_ROOM)?;
    catalog.log.log().check()?;
    let (state, cut_off) = (catalog.log.log().state(), catalog.log.cut_off().bytes());
    println!("opened again: {cut_off} bytes of an entry that was not whole are cut off");
    println!("  {} bytes, last written {}, next id {}; sound", state.length, state.last, state.next);

    println!();
    let dropped = catalog.take("planner A")?;
    catalog.drop_id("planner A", dropped)?;
    println!("the catalog is closed, and opened again");
    drop(catalog);
    let mut catalog = Catalog::open(path, MORE_ROOM)?;
    let on_days = catalog.take("planner B")?;
    catalog.build("planner B", on_days, "days (week)")?;
    catalog.tell_which_is_which([dropped, on_days])
}

/// Leaves the file as a power failure does in the middle of a push: with the first half of what it was to write.
fn lose_power(path: &Path, entry: &Entry) -> Result<(), Error> {
    let mut store = fs::read(path)?;
    let length = store.len();
    store.resize(length + MORE_ROOM, 0);
    let (mut log, _) = Log::recover(store, length as u64, 0)?; // it takes no id
    log.push(std::slice::from_ref(entry)).map_err(Error::PushRefused)?;
    fs::write(path, &log.bytes()[..(length + log.bytes().len()) / 2])?;
    Ok(())
}

fn main() -> Result<(), Error> {
    match std::env::args_os().nth(1) {
        Some(path) => tell(&PathBuf::from(path)),
        None => {
            let folder = std::env::temp_dir().join(format!("planners-{}", std::process::id()));
            fs::create_dir(&folder)?;
            let told = tell(&folder.join("catalog.log"));
            fs::remove_dir_all(&folder)?;
            told
        }
    }
}
