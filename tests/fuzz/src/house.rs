//! The memory of a house, and damage to it.

use crate::chance::Chance;
use wellcherry::{Record, Versions, CELLS, CLIENTS, COMMITTED_ROW, DATA_ROW};

/// All that a call finds and leaves.
#[derive(Clone, PartialEq)]
pub struct House {
    pub record: Record,
    pub versions: Versions,
    pub data: Vec<u8>,
    pub committed: Vec<u8>,
}

impl House {
    /// What a set-up is given: any record, and two buffers that are as they should be, most
    /// often.
    pub fn not_set_up(chance: &mut Chance) -> House {
        let most = if chance.one_in(50) { 1024 } else { 90 };
        let rows = 1 + chance.below(most) as usize;
        let mut length = |row: usize| match chance.below(40) {
            0 => chance.below(80) as usize,
            1 => row * rows + 1,
            _ => row * rows,
        };
        let (data, committed) = (length(DATA_ROW), length(COMMITTED_ROW));
        let (data, committed) = (vec![0xa5; data], vec![0xa5; committed]);
        let mut house = House { record: Record::NONE, versions: [0xa5; CELLS], data, committed };
        house.damage_clients(chance);
        house
    }

    /// The rows for which the data buffer has room.
    pub fn rows(&self) -> u32 {
        (self.data.len() / DATA_ROW) as u32
    }

    /// What no list of calls leaves behind.
    pub fn damage(&mut self, chance: &mut Chance) {
        if chance.one_in(60) {
            self.damage_numbers(chance);
        }
        if chance.one_in(40) {
            self.damage_clients(chance);
        }
        if chance.one_in(60) {
            damage_bytes(&mut self.data, chance);
        }
        if chance.one_in(60) {
            damage_bytes(&mut self.committed, chance);
        }
        if chance.one_in(60) {
            self.make_up_rows(chance);
        }
        if chance.one_in(60) {
            self.damage_entries(chance);
        }
        if chance.one_in(60) {
            self.close_all(chance);
        }
        if chance.one_in(1000) {
            self.data.resize(chance.below(300) as usize, 7);
        }
        if chance.one_in(1000) {
            self.committed.resize(chance.below(100) as usize, 7);
        }
        if chance.one_in(3) {
            self.refit(chance);
        }
    }

    fn damage_numbers(&mut self, chance: &mut Chance) {
        let n = &mut self.record.head;
        let fields = [
            &mut n.rows,
            &mut n.limit,
            &mut n.issued,
            &mut n.requested,
            &mut n.taken,
            &mut n.last,
            &mut n.used,
            &mut n.entries,
        ];
        for field in fields {
            if chance.one_in(6) {
                *field = chance.odd();
            }
        }
    }

    fn damage_clients(&mut self, chance: &mut Chance) {
        let r = &mut self.record;
        for _ in 0..=chance.below(20) {
            let client = chance.below(CLIENTS as u32) as usize;
            match chance.below(7) {
                0 => {
                    r.stage[client] =
                        if chance.one_in(20) { chance.odd() } else { chance.below(14) }
                }
                1 => r.number[client] = chance.odd(),
                2 => r.snapshot[client] = chance.odd(),
                3 => r.request[client] = chance.odd(),
                4 => r.commit[client] = chance.odd(),
                5 => r.request_waits[client] = chance.set(),
                _ => r.commit_waits[client] = chance.set(),
            }
        }
    }

    /// Rows in all of both buffers. In orderly ones commit numbers and tags rise; a tag may
    /// have a cell twice all the same.
    fn make_up_rows(&mut self, chance: &mut Chance) {
        let (orderly, cells) = (chance.one_in(2), chance.cells(self.rows()));
        let (each, tags) = (1 + chance.below(4), 1 + chance.below(100));
        for (row, bytes) in self.data.chunks_exact_mut(DATA_ROW).enumerate() {
            let tag = if orderly { 1 + row as u32 / each } else { chance.below(tags) };
            bytes[..4].copy_from_slice(&tag.to_le_bytes());
            bytes[4..6].copy_from_slice(&(chance.below(cells) as u16).to_le_bytes());
        }
        for (row, bytes) in self.committed.chunks_exact_mut(COMMITTED_ROW).enumerate() {
            let row = row as u32;
            let (number, tag) = if orderly {
                (1 + 2 * row, 1 + row)
            } else {
                (chance.below(60), chance.below(tags))
            };
            bytes[..4].copy_from_slice(&number.to_le_bytes());
            bytes[4..].copy_from_slice(&tag.to_le_bytes());
        }
    }

    /// Entries of the cells that are in use most often, that no reads led to.
    fn damage_entries(&mut self, chance: &mut Chance) {
        let cells = 1 + chance.below(CELLS as u32) as usize;
        for entry in &mut self.versions[..cells] {
            if chance.one_in(3) {
                *entry = if chance.one_in(4) { chance.odd() } else { chance.below(80) };
            }
        }
    }

    /// Nobody is left who holds up a trim.
    fn close_all(&mut self, chance: &mut Chance) {
        self.record.number.fill(0);
        self.record.head.last = chance.below(2 * self.rows() + 2);
        self.record.head.issued = chance.below(100);
    }

    /// Lengths, numbers and stages that are fit.
    fn refit(&mut self, chance: &mut Chance) {
        let rows = self.rows().clamp(1, 1024);
        self.data.resize(rows as usize * DATA_ROW, 7);
        self.committed.resize(rows as usize * COMMITTED_ROW, 7);
        let n = &mut self.record.head;
        n.rows = rows;
        for count in [&mut n.used, &mut n.entries] {
            if *count > rows || chance.one_in(40) {
                *count = chance.below(rows + 1);
            }
        }
        for stage in &mut self.record.stage {
            *stage %= 14;
        }
    }
}

fn damage_bytes(bytes: &mut [u8], chance: &mut Chance) {
    if bytes.is_empty() {
        return;
    }
    for _ in 0..=chance.below(8) {
        let at = chance.below(bytes.len() as u32) as usize;
        bytes[at] = if chance.one_in(2) { chance.below(4) as u8 } else { chance.odd() as u8 };
    }
}
