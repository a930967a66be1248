//! Stores that no list of calls leaves behind: rows in every kind of disorder that ticket 4 names,
//! and whole records made up at random, with the model beside the library after every call.

use library::beside::{desk_of, difference, Beside};
use library::desk::Desk;
use library::{grammar, landed};
use model::calls::Call;
use model::coverage::Coverage;
use model::forms::Form;
use model::rng::Rng;
use model::rows::regular;
use model::store::{CommittedRow, DataRow, QueueRow, Store, Transaction};
use std::collections::BTreeSet;
use wellcherry::CELLS;

// ------------------------------------------------------------------- disorder, by name

/// Rows by hand: their name, whether a trim works them from the newest, the tags and cells of the
/// data rows, the numbers and tags of the committed rows.
type ByHand = (&'static str, bool, &'static [(u32, u32)], &'static [(u32, u32)]);

const PLAIN: &[(u32, u32)] = &[(1, 0), (1, 1), (2, 0), (3, 1), (3, 0), (4, 2)];
const RISING: &[(u32, u32)] = &[(2, 1), (4, 2), (6, 3)];

const BY_HAND: [ByHand; 28] = [
    ("nothing", true, &[], &[]),
    ("order", true, PLAIN, RISING),
    ("no committed rows", true, PLAIN, &[]),
    ("committed rows without data rows", true, PLAIN, &[(2, 1), (4, 9), (6, 3), (7, 8)]),
    ("uncommitted rows between", true, &[(1, 0), (50, 0), (2, 0), (51, 1), (3, 0)], RISING),
    ("data rows against commit order", true, &[(3, 0), (3, 1), (2, 0), (1, 1), (1, 0)], RISING),
    ("tags that do not rise", true, PLAIN, &[(2, 3), (4, 1), (6, 2)]),
    ("a tag of 0", true, &[(0, 0), (1, 0), (0, 1)], &[(2, 0), (4, 1)]),
    ("a commit number of 0", true, PLAIN, &[(0, 1), (4, 2), (6, 3)]),
    ("the largest numbers", true, PLAIN, &[(2, 1), (u32::MAX - 1, 2), (u32::MAX, 3)]),
    ("numbers that fall", false, PLAIN, &[(6, 1), (4, 2), (2, 3)]),
    ("a number that falls", false, PLAIN, &[(2, 1), (6, 2), (4, 3)]),
    ("a first number that falls", false, PLAIN, &[(6, 1), (2, 2), (4, 3)]),
    ("equal numbers", false, PLAIN, &[(2, 1), (4, 2), (4, 3)]),
    ("equal numbers apart", false, PLAIN, &[(4, 1), (6, 2), (4, 3)]),
    ("numbers of 0", false, PLAIN, &[(0, 1), (0, 2), (0, 3)]),
    ("a tag committed twice", false, PLAIN, &[(2, 1), (4, 1), (6, 2)]),
    ("a tag committed twice, apart", false, PLAIN, &[(2, 1), (4, 2), (6, 1)]),
    ("a tag committed twice, the larger first", false, PLAIN, &[(6, 1), (4, 2), (2, 1)]),
    ("a tag committed twice without data rows", false, PLAIN, &[(2, 9), (4, 9), (6, 1)]),
    ("a cell twice", false, &[(1, 0), (1, 0), (2, 0), (2, 0), (3, 1)], RISING),
    ("a cell twice, apart", false, &[(1, 0), (2, 0), (1, 1), (1, 0), (2, 1), (2, 0)], RISING),
    ("a cell twice, uncommitted", false, &[(50, 0), (1, 0), (50, 0), (2, 0)], RISING),
    ("cell 1,024", false, &[(1, 1_024), (2, 1_024), (1, 0), (3, 0)], RISING),
    ("cell 65,535", false, &[(1, 65_535), (1, 1_023), (2, 65_535), (3, 1_023)], RISING),
    ("a high cell, uncommitted", false, &[(1, 0), (50, 1_025), (2, 0)], RISING),
    ("cells alike in ten bits", false, &[(1, 0), (2, 1_024), (1, 1), (3, 2_049)], RISING),
    (
        "all at once",
        false,
        &[(2, 0), (0, 0), (1, 0), (1, 0), (50, 1_024), (2, 1_024), (3, 0), (1, 1_024)],
        &[(6, 1), (2, 2), (2, 0), (9, 1), (4, 3)],
    ),
];

/// The forms that make such a store, with some rows to spare.
fn made(by_hand: &ByHand, spare: usize, first: u32) -> String {
    let (_, _, data, committed) = by_hand;
    let rows = data.len().max(committed.len()).max(1) + spare;
    let mut script = format!("(set-up {rows} {first} 0)\n");
    for (at, (tag, cell)) in data.iter().enumerate() {
        script += &format!("(put-data {tag} {cell} {:032x})\n", 0xa0b0_c0d0_u64 + at as u64);
    }
    for (commit, tag) in *committed {
        script += &format!("(put-committed {commit} {tag})\n");
    }
    script
}

/// Readers at an older and a newer snapshot, writers up to the check and beyond, trims between.
fn calls(last: u32) -> String {
    let reads = |client: u32| -> String {
        let reads = [0, 1, 2, 1_023].map(|cell| format!("(read {client} {cell})\n")).concat();
        reads.clone() + "(versions)\n" + &reads
    };
    // entries that no reads led to: below, at and above the snapshots
    let entries = |first: u32| -> String {
        [0, 1, 2].map(|cell| format!("(put-version {cell} {})\n", first + 2 * cell)).concat()
    };
    let writes = |client: u32| -> String {
        [0, 1].map(|cell| format!("(write {client} {cell} {:032x})\n", 7 * client + cell)).concat()
    };
    let advances = |client: u32, times: usize| format!("(advance {client})\n").repeat(times);
    let trim = "(free)\n(trim)\n(data)\n(committed)\n(trim)\n(free)\n";
    [
        format!("(put-last {last})\n(begin 0)\n{}{}{}", reads(0), entries(1), reads(0)),
        format!("(put-last 9)\n(begin 1)\n{}{}", reads(1), writes(1)),
        advances(1, 3),
        trim.to_string() + &reads(0) + &reads(1) + &entries(0) + &reads(1) + &entries(4) + &reads(0),
        format!("(put-last {last})\n(begin 2)\n{}{}", writes(2), advances(2, 14)),
        "(abandon 0)\n".to_string() + trim,
        advances(1, 11) + &advances(2, 11),
        "(clients)\n(record)\n(abandon 2)\n(abandon 1)\n".to_string() + trim,
    ]
    .concat()
}

/// With tags of their own the clients are strangers to the rows; from 1 on they own some of them.
#[test]
fn every_kind_of_disorder() {
    let mut both = Beside::default();
    for by_hand in &BY_HAND {
        let (name, from_newest, ..) = by_hand;
        for (spare, first) in [(0, 100), (3, 100), (0, 1), (4, 1)] {
            both.script(name, made(by_hand, spare, first).as_bytes());
            let store = both.store();
            assert_eq!(regular(&store.data, &store.committed), *from_newest, "{name}");
            for last in [0, 1, 2, 3, 4, 5, 6, 7, 9, u32::MAX] {
                let script = made(by_hand, spare, first) + &calls(last);
                both.script(&format!("{name}, {spare} {first} {last}"), script.as_bytes());
            }
        }
    }
    for met in ["trim dropped some", "advance conflict", "advance done", "read value"] {
        assert!(both.met.of(&format!("answer {met}")) > 100, "{met}");
    }
}

// ------------------------------------------------------------------- records made up

const TAGS: u32 = 12;

/// A number that may meet others, at times one of the edges.
fn any_number(rng: &mut Rng) -> u32 {
    match rng.between(0, 15) {
        0 => u32::MAX,
        1 => u32::MAX - 1,
        _ => rng.between(0, TAGS),
    }
}

/// A store of any rows and any numbers, its clients at any stage. The model can be given all that
/// makes sense to it: open transactions have different numbers, and lists name those in a queue.
fn made_up(rng: &mut Rng) -> Store {
    let rows = rng.between(1, 30);
    let mut store = Store::with_rows_under(landed(), rows as usize, 1, 1).expect("1 to 30 rows");
    store.grown = false;
    store.limit = rng.pick(&[0, 1, 2, 3, 8, 64, 65, u32::MAX]).expect("a limit");
    store.w = rng.pick(&[TAGS, TAGS + 5, u32::MAX - 1, u32::MAX]).expect("a number");
    (store.r, store.c, store.last_commit) = (any_number(rng), any_number(rng), any_number(rng));
    if rng.one_in(2) {
        store.versions.fill_with(|| any_number(rng));
    }
    let any_value = |rng: &mut Rng| std::array::from_fn(|_| rng.between(0, 255) as u8);
    for _ in 0..rng.between(0, rows) {
        let cell = any_cell(rng);
        store.data.push(DataRow { tag: rng.between(0, TAGS), cell, value: any_value(rng) });
    }
    for at in 0..rng.between(0, rows) {
        let orderly = CommittedRow { commit: 2 * at, tag: at };
        let any = CommittedRow { commit: any_number(rng), tag: rng.between(0, TAGS) };
        store.committed.push(if rng.one_in(2) { orderly } else { any });
    }
    for number in 1..=TAGS {
        let client = rng.between(0, 63);
        if rng.one_in(2) && !store.open.contains_key(&client) {
            open(&mut store, rng, client, number);
        }
    }
    fill_lists(&mut store, rng);
    store
}

fn any_cell(rng: &mut Rng) -> u32 {
    match rng.between(0, 19) {
        0 => rng.pick(&[1_023, 1_024, 1_025, 65_535]).expect("a cell"),
        _ => rng.between(0, 3),
    }
}

/// Opens a client's transaction at any stage, in the queues where its stage has it.
fn open(store: &mut Store, rng: &mut Rng, client: u32, number: u32) {
    let stage = if rng.one_in(4) { 0 } else { rng.between(1, 13) as u8 };
    let (request, commit) = (Some(any_number(rng)), Some(any_number(rng)));
    if stage >= 1 {
        let noted = request.filter(|_| stage >= 3);
        store.requests.push(QueueRow { tag: number, client, noted });
    }
    if (7..=12).contains(&stage) {
        let noted = commit.filter(|_| stage >= 9);
        store.commits.push(QueueRow { tag: number, client, noted });
    }
    let (request_list, commit_list) = (BTreeSet::new(), BTreeSet::new());
    let snapshot = any_number(rng);
    let own = Transaction {
        number,
        snapshot,
        stage,
        request,
        commit,
        request_list,
        commit_list,
        silence: 0,
    };
    store.open.insert(client, own);
}

/// Lists name some of those in their queue. Before stage 4 the model takes a request list to be
/// empty.
fn fill_lists(store: &mut Store, rng: &mut Rng) {
    for own in store.open.values_mut() {
        let mut some = |queue: &[QueueRow]| -> BTreeSet<u32> {
            queue.iter().map(|row| row.tag).filter(|_| rng.one_in(3)).collect()
        };
        own.request_list = if own.stage >= 4 { some(&store.requests) } else { BTreeSet::new() };
        own.commit_list = some(&store.commits);
    }
}

fn any_call(rng: &mut Rng, store: &Store) -> Call {
    let open: Vec<u32> = store.open.keys().copied().collect();
    let client = match rng.pick(&open).filter(|_| !rng.one_in(5)) {
        Some(client) => client,
        None => rng.between(0, 65),
    };
    let cell = any_cell(rng);
    match rng.between(0, 15) {
        0 => Call::Begin { client },
        1..=3 => Call::Read { client, cell },
        4..=6 => {
            let length = if rng.one_in(8) { rng.between(0, 32) } else { 16 };
            Call::Write { client, cell, value: vec![rng.between(1, 255) as u8; length as usize] }
        }
        7..=12 => Call::Advance { client },
        13 => Call::Abandon { client },
        14 => Call::Trim,
        _ => Call::Free,
    }
}

/// What no call looks at and none may touch but by moving or freeing a whole row: bytes 6 and 7
/// of rows in use, and the bytes behind the rows that were ever in use.
struct Soil {
    /// Tags whose rows a client may write anew, with zeros in bytes 6 and 7.
    clean: BTreeSet<u32>,
    most_data: usize,
    most_committed: usize,
}

impl Soil {
    fn of(store: &Store) -> Soil {
        let clean = store.open.values().map(|own| own.number).collect();
        Soil { clean, most_data: store.data.len(), most_committed: store.committed.len() }
    }

    /// The store with this soil in its buffers.
    fn on(&mut self, store: &Store) -> Desk {
        let mut desk = desk_of(store);
        for (row, bytes) in store.data.iter().zip(desk.data.chunks_mut(24)) {
            if row.tag <= TAGS && !self.clean.contains(&row.tag) {
                bytes[6..8].copy_from_slice(&[0xd1, 0x27]);
            }
        }
        self.most_data = self.most_data.max(store.data.len());
        self.most_committed = self.most_committed.max(store.committed.len());
        desk.data[24 * self.most_data..].fill(0xee);
        desk.committed[8 * self.most_committed..].fill(0xee);
        desk
    }
}

#[test]
fn records_made_up() {
    let (mut rng, mut met) = (Rng::new(11), Coverage::under(grammar()));
    // Reads that leave another entry, and reads that an entry keeps from what a full look finds.
    let (mut noted, mut bounded) = (0, 0);
    for round in 0..250_000 {
        let mut store = made_up(&mut rng);
        let mut soil = Soil::of(&store);
        let mut desk = soil.on(&store);
        for _ in 0..12 {
            let before = store.clone();
            let call = any_call(&mut rng, &store);
            let stage = call.client().and_then(|client| store.stage(client));
            let mut full = Desk { versions: [0; CELLS], ..desk.clone() };
            let (answer, due) = (desk.call(&call), store.call(&call));
            if matches!(call, Call::Read { .. }) {
                noted += u32::from(store.versions != before.versions);
                bounded += u32::from(full.call(&call) != answer);
            }
            assert_eq!(answer, due, "store {round}, {call:?} on {before:?}");
            let found = difference(&desk, &soil.on(&store));
            assert_eq!(found, None, "store {round}, {call:?} on {before:?}");
            met.note(&Form::Call(call), stage, &answer, &store);
        }
    }
    assert!(noted > 1_000, "{noted}");
    assert!(bounded > 1_000, "{bounded}");
    // No record here is unfit: 2 is a number used up or a full committed buffer.
    let refusals = ["02 of advance", "08 of begin", "09 of write", "10 of write", "12 of write"];
    let refusals = refusals.iter().map(|refusal| format!("refusal {refusal}"));
    let kinds = ["stage", "waiting", "conflict", "done"].iter();
    let kinds = kinds.map(|kind| format!("answer advance {kind}"));
    let stages = (0..=13).map(|stage| format!("advance at stage {stage:02}"));
    for name in refusals.chain(kinds).chain(stages) {
        assert!(met.of(&name) > 1_000, "{name}: {}", met.of(&name));
    }
}
