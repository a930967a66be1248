//! Trims in the middle of things (document 02, ticket 4): rows of several clients by turns, commits in another order than their Begins, snapshots
//! that hold rows, rows that are not committed. The model works each trim both ways and compares.

use model::forms::lines;
use model::rng::Rng;
use runs::held;
use std::collections::{BTreeMap, BTreeSet};
use std::fmt::Write as _;

/// What stands open when a trim is made: a snapshot older than the last commit, and rows that are not committed.
type Kind = (bool, bool);

/// A script of one store, and the kind of each trim in it.
fn script(seed: u64, rows: u32, cells: u32, clients: u32) -> (String, Vec<Kind>) {
    let mut rng = Rng::new(seed);
    let mut text = format!("(set-up {rows} {} 0)\n", rng.between(1, 1 << 30));
    let (mut commits, mut kinds) = (0, Vec::new());
    // of each open client, how many commits were tried before it began, and the cells that it has written
    let mut open = BTreeMap::<u32, (u32, BTreeSet<u32>)>::new();
    for _ in 0..4 * rows {
        let client = rng.between(0, clients - 1);
        match open.get_mut(&client) {
            None => {
                let _ = writeln!(text, "(begin {client})");
                open.insert(client, (commits, BTreeSet::new()));
            }
            Some((_, written)) if written.len() < 8 && !rng.one_in(4) => {
                let cell = rng.between(0, cells - 1);
                let _ = writeln!(text, "(write {client} {cell} {:032x})", rng.draw());
                written.insert(cell);
            }
            Some(_) => {
                text += &format!("(advance {client})\n").repeat(14);
                open.remove(&client);
                commits += 1;
            }
        }
        if rng.one_in(rows / 8) {
            kinds.push((open.values().any(|(since, _)| *since < commits), open.values().any(|(_, written)| !written.is_empty())));
            text += "(trim)\n(free)\n";
            for (client, cell) in open.keys().zip(0..cells) {
                let _ = writeln!(text, "(read {client} {cell})");
            }
        }
        if rng.one_in(rows) {
            open.keys().for_each(|client| text += &format!("(abandon {client})\n"));
            open.clear();
        }
    }
    (text, kinds)
}

/// Of every kind some trims drop rows and some none; with nobody open, too.
#[test]
fn trims_of_all_kinds() {
    let mut seen = BTreeMap::<(Kind, bool), u32>::new();
    for seed in 1..=12 {
        for (rows, cells, clients) in [(16, 8, 2), (64, 16, 4), (256, 32, 3), (1024, 1024, 8), (1024, 64, 64)] {
            let (text, kinds) = script(seed, rows, cells, clients);
            let printed = held(&format!("trims {seed}, {rows} rows"), text.as_bytes());
            let answers = lines(text.as_bytes()).into_iter().zip(lines(&printed)).filter(|(line, _)| *line == b"(trim)");
            for (kind, (_, answer)) in kinds.into_iter().zip(answers) {
                *seen.entry((kind, answer != b"(trim (dropped 0))")).or_default() += 1;
            }
        }
    }
    for kind in [(false, false), (false, true), (true, false), (true, true)] {
        for drops in [false, true] {
            assert!(seen.get(&(kind, drops)).is_some_and(|often| *often >= 5), "{kind:?}, {drops}: {seen:?}");
        }
    }
}
