//! Prints the list that crates/replay replays: `scripts/replay-list` puts it into its place.
fn main() {
    print!("{}", beside::replay::list());
}
