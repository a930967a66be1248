//! `waits`: the longest waits, as the tables of docs/WAITING.md show them.

fn main() {
    let (chains, profiles) = runs::waits::tables();
    print!("{chains}\n{profiles}");
}
