//! Refusals that have no form or need a wrong buffer or a damaged record: the number, and that
//! nothing changes.

use library::beside::{desk_of, difference, Beside};
use library::desk::{old_bytes, Desk, OLD_RECORD, OLD_VERSIONS};
use library::landed;
use model::calls::{Answer, Call, Refusal};
use model::store::Store;
use std::collections::BTreeSet;
use wellcherry::{Record, CELLS, COMMITTED_ROW, DATA_ROW};

const ROWS: usize = 6;
const UNFIT: Answer = Answer::Refused(Refusal::Unfit);

/// A house in the middle of its work: clients 0, 1 and 63 at stages 0, 7 and 1, cell 5 committed
/// twice, one row free.
fn busy() -> Desk {
    let mut desk = Desk::default();
    let script = format!("(set-up {ROWS} 1 8)\n") + &commit(3) + &commit(4);
    let open = [(1, 8), (63, 9), (0, 5)].map(|(client, cell)| written(client, cell)).concat();
    let script = script + &open + &"(advance 1)\n".repeat(7) + "(advance 63)\n";
    for line in script.lines() {
        let answer = desk.answer_line(line.as_bytes());
        assert!(!answer.contains("refused"), "{line}: {answer}");
    }
    desk
}

fn written(client: u32, cell: u32) -> String {
    format!("(begin {client})\n(write {client} {cell} {:032x})\n", 1_000 + client)
}

/// A commit of cell 5 by some client.
fn commit(client: u32) -> String {
    written(client, 5) + &format!("(advance {client})\n").repeat(14)
}

/// Calls of each kind: some that the busy house answers, and some that other refusals await.
fn calls() -> Vec<Call> {
    let mut calls = vec![Call::Trim, Call::Free];
    for (client, cell) in [(0, 5), (2, 6), (63, 1_023), (64, 1_024), (u32::MAX, u32::MAX)] {
        calls.push(Call::Begin { client });
        calls.push(Call::Read { client, cell });
        calls.push(Call::Write { client, cell, value: vec![9; 16] });
        calls.push(Call::Write { client, cell, value: vec![9; 15] });
        calls.push(Call::Advance { client });
        calls.push(Call::Abandon { client });
    }
    calls
}

/// With a damage or wrong lengths, every call gets 2 and changes nothing.
fn all_unfit(what: &str, record: &Record, data: &[u8], committed: &[u8]) {
    let (data, committed) = (data.to_vec(), committed.to_vec());
    let before = Desk { record: *record, versions: OLD_VERSIONS, data, committed };
    for call in calls() {
        let mut desk = before.clone();
        assert_eq!(desk.call(&call), UNFIT, "{what}: {call:?}");
        assert_eq!(difference(&desk, &before), None, "{what}: {call:?}");
    }
}

/// In the busy house none of them gets 2, and one of each kind is answered.
#[test]
fn the_busy_house_answers() {
    let mut answered = BTreeSet::new();
    for call in calls() {
        let answer = busy().call(&call);
        assert_ne!(answer, UNFIT, "{call:?}");
        if !matches!(answer, Answer::Refused(_)) {
            answered.insert(call.keyword());
        }
    }
    assert_eq!(answered, calls().iter().map(Call::keyword).collect());
}

// ------------------------------------------------------------------- buffers of wrong lengths

/// Lengths near the right one of rows of that size, and none.
fn near(row: usize) -> [usize; 7] {
    let right = ROWS * row;
    [right, right - 1, right + 1, right - row, right + row, 2 * right, 0]
}

#[test]
fn wrong_lengths() {
    let desk = busy();
    let cut = |bytes: &[u8], length| [bytes, &old_bytes(length)].concat()[..length].to_vec();
    for data in near(DATA_ROW) {
        for committed in near(COMMITTED_ROW) {
            if (data, committed) != (ROWS * DATA_ROW, ROWS * COMMITTED_ROW) {
                let what = format!("{data} and {committed} bytes");
                let buffers = (cut(&desk.data, data), cut(&desk.committed, committed));
                all_unfit(&what, &desk.record, &buffers.0, &buffers.1);
            }
        }
    }
    all_unfit("buffers swapped", &desk.record, &desk.committed, &desk.data);
}

/// A Read that is lent a version table of another length gets 2 before all else, and no entry
/// changes; with the right length it answers or refuses as it would.
#[test]
fn version_tables_of_wrong_lengths() {
    let Desk { record, data, committed, .. } = busy();
    for length in [0, 1, 5, 6, 1_022, 1_023, 1_025, 2_048] {
        for (client, cell) in [(0, 5), (0, 6), (1, 5), (2, 5), (64, 5), (0, 1_024)] {
            let mut versions = vec![1; length];
            let answer = record.read(&data, &committed, &mut versions, client, cell);
            assert_eq!(answer, Err(2), "{length} entries, client {client}, cell {cell}");
            assert!(versions.iter().all(|entry| *entry == 1), "{length} entries");
        }
    }
    let mut versions = vec![0; CELLS];
    assert!(record.read(&data, &committed, &mut versions, 1, 5).is_ok_and(|value| value.is_some()));
    assert_eq!(versions.iter().position(|entry| *entry == 2), Some(5));
    assert_eq!(versions.iter().sum::<u32>(), 2);
}

// ------------------------------------------------------------------- damaged records

#[test]
fn unknown_stages() {
    let desk = busy();
    for client in 0..64 {
        for stage in [14, 15, 16, 255, 256, 1 << 31, u32::MAX] {
            let mut record = desk.record;
            record.stage[client] = stage;
            all_unfit(&format!("client {client} {stage}"), &record, &desk.data, &desk.committed);
        }
    }
}

#[test]
fn row_counts_above_the_rows() {
    let desk = busy();
    for count in [ROWS as u32 + 1, 1_024, 1_025, 1 << 16, u32::MAX] {
        let (mut used, mut entries) = (desk.record, desk.record);
        used.head.used = count;
        entries.head.entries = count;
        all_unfit(&format!("used {count}"), &used, &desk.data, &desk.committed);
        all_unfit(&format!("entries {count}"), &entries, &desk.data, &desk.committed);
    }
    let mut full = desk;
    full.record.head.used = ROWS as u32;
    full.record.head.entries = ROWS as u32;
    assert_eq!(full.call(&Call::Free), Answer::Free(0));
}

/// With the buffers of the busy house, and with ones that would be right for so many rows, as far
/// as there can be any: some numbers of rows make small lengths in 32 bits.
#[test]
fn rows_out_of_range() {
    let desk = busy();
    let wraps = 1 << 29;
    for rows in [0, 1_025, 1_026, 1 << 16, wraps, wraps + ROWS as u32, u32::MAX] {
        let mut record = desk.record;
        record.head.rows = rows;
        all_unfit(&format!("{rows} rows"), &record, &desk.data, &desk.committed);
        (record.head.used, record.head.entries) = (0, 0);
        let made = (rows % wraps).min(1 << 16) as usize;
        let (data, committed) = (old_bytes(made * DATA_ROW), old_bytes(made * COMMITTED_ROW));
        all_unfit(&format!("{rows} rows, buffers for {made}"), &record, &data, &committed);
    }
}

// ------------------------------------------------------------------- set-up

/// Every pair of lengths with every first number and every limit: as the model has it.
#[test]
fn set_ups() {
    let mut accepted = Vec::new();
    for data in [0, 1, 8, 23, 24, 25, 47, 48, 24 * 1_023, 24 * 1_024, 24 * 1_024 + 1, 24 * 1_025] {
        for committed in [0, 1, 7, 8, 9, 16, 24, 8 * 1_023, 8 * 1_024, 8 * 1_024 + 1, 8 * 1_025] {
            for first in [0, 1, 2, u32::MAX] {
                for limit in [0, 1, 8, 63, 64, 65, u32::MAX] {
                    if set_up_as_the_model(data, committed, first, limit) {
                        accepted.push((data, first, limit));
                    }
                }
            }
        }
    }
    // 1, 2, 1,023 and 1,024 rows, three first numbers, five limits.
    assert_eq!(accepted.len(), 4 * 3 * 5, "{accepted:?}");
}

/// A refused set-up leaves a record and a version table of zeros and the bytes as they were, an
/// accepted one the model's new store. Is it accepted?
fn set_up_as_the_model(data: usize, committed: usize, first: u32, limit: u32) -> bool {
    let what = format!("{data} and {committed} bytes, first {first}, limit {limit}");
    let model = Store::set_up_under(landed(), data, committed, first, limit);
    let (data, committed) = (old_bytes(data), old_bytes(committed));
    let old = Desk { record: OLD_RECORD, versions: OLD_VERSIONS, data, committed };
    let mut new = old.clone();
    let answer = new.set_up_in_place(first, limit);
    assert_eq!(answer.err(), model.as_ref().err().map(|refusal| refusal.number()), "{what}");
    let due = match &model {
        Ok(store) => desk_of(store),
        Err(_) => Desk { record: Record::NONE, versions: [0; CELLS], ..old },
    };
    assert_eq!(difference(&new, &due), None, "{what}");
    assert_eq!(answer.unwrap_or(0), due.record.head.rows, "{what}");
    model.is_ok()
}

/// After a refused set-up every call gets 2, with whatever buffers.
#[test]
fn after_a_refused_set_up() {
    let mut desk = busy();
    assert_eq!(desk.set_up_in_place(0, 0), Err(1));
    all_unfit("refused set-up", &desk.record, &desk.data, &desk.committed);
    all_unfit("refused set-up, no buffers", &desk.record, &[], &[]);
}

// ------------------------------------------------------------------- Write's order of refusals

/// Document 01: 2, 3, 4, 12, 6, 7; then, if it has no row for that cell yet, 9 and 10.
#[test]
fn the_order_of_writes_refusals() {
    let mut both = Beside::default();
    let mut met = [0; 13];
    // Client 0 works and has written cells 5 and 6, client 1 has left stage 0, 2 is closed.
    for (rows, limit) in [(0, 8), (3, 2), (3, 8), (4, 2), (4, 8)] {
        let script = format!("(set-up {rows} 1 {limit})\n")
            + &written(0, 5)
            + "(write 0 6 00000000000000000000000000000001)\n"
            + &written(1, 5)
            + "(advance 1)\n";
        for client in [0, 1, 2, 64, u32::MAX] {
            for cell in [5, 6, 7, 1_023, 1_024, u32::MAX] {
                for length in [0, 1, 15, 16, 17, 32] {
                    both.script("writes", script.as_bytes());
                    let new = cell != 5 && cell != 6;
                    let refusals = [
                        (2, rows == 0),
                        (3, client > 63),
                        (4, cell > 1_023),
                        (12, length != 16),
                        (6, client == 2),
                        (7, client == 1),
                        (9, new && limit == 2),
                        (10, new && rows == 3),
                    ];
                    let due = refusals.iter().find(|(_, applies)| *applies);
                    let answer = both.call(Call::Write { client, cell, value: vec![3; length] });
                    let number = match answer {
                        Answer::Refused(refusal) => refusal.number(),
                        _ => 0,
                    };
                    assert_eq!(number, due.map_or(0, |(number, _)| *number), "{cell} {length}");
                    met[number as usize] += 1;
                }
            }
        }
    }
    for number in [0, 2, 3, 4, 12, 6, 7, 9, 10] {
        assert!(met[number] > 0, "{number}");
    }
}
