//! A house, the calls that are made on it, and the comparison.

use crate::call::{Call, Given};
use crate::chance::Chance;
use crate::house::House;
use crate::met::Met;
use wellcherry::{Answer, Record, CELLS, CLIENTS};

/// The one difference that is known. Begin leaves a client with its number and its
/// snapshot, and zero in all else (`opened` in crates/spec/specs/Image.antt). The
/// hand-written Begin leaves these four fields as they are: a closed client has zeros there,
/// unless damage has given it something else.
fn zero_as_opened(record: &mut Record, client: u32) {
    let client = client as usize;
    record.request[client] = 0;
    record.commit[client] = 0;
    record.request_waits[client] = 0;
    record.commit_waits[client] = 0;
}

pub struct Scene {
    house: House,
    damaged: bool,
    /// The ones in use: those below.
    clients: u32,
    cells: u32,
    calls_left: u32,
}

impl Scene {
    /// A house that has yet to be set up.
    pub fn new(chance: &mut Chance) -> Scene {
        let house = House::not_set_up(chance);
        Scene {
            cells: chance.cells(house.rows()),
            house,
            damaged: chance.one_in(2),
            clients: chance.clients(),
            calls_left: chance.below(2000),
        }
    }

    pub fn is_over(&self) -> bool {
        self.calls_left == 0
    }

    pub fn set_up(&mut self, chance: &mut Chance, met: &mut Met) -> Result<(), String> {
        let first = if chance.one_in(10) { chance.odd() } else { 1 };
        self.make(&Call::SetUp(first, chance.below(67)), met)
    }

    pub fn next(&mut self, chance: &mut Chance, met: &mut Met) -> Result<(), String> {
        self.calls_left -= 1;
        if self.damaged {
            self.house.damage(chance);
        }
        self.make(&self.choose(chance), met)
    }

    /// A call that takes some client further, most often, or any.
    fn choose(&self, chance: &mut Chance) -> Call {
        let client = match chance.below(40) {
            0 => chance.odd().max(CLIENTS as u32), // there is no such client
            _ => chance.below(self.clients),
        };
        let cell = if chance.one_in(40) { chance.odd() } else { chance.below(self.cells) };
        let (record, place) = (&self.house.record, client as usize % CLIENTS);
        match chance.below(28) {
            0 => Call::Begin(client),
            1 => Call::Advance(client),
            2 => Call::Abandon(client),
            3 => Call::Trim,
            4 => Call::Free,
            5..=7 => Call::Read(client, cell),
            8 => Call::Write(client, cell, vec![1; chance.below(33) as usize]),
            _ if record.number[place] == 0 => Call::Begin(client),
            _ if record.head.used == record.head.rows && chance.one_in(8) => Call::Trim,
            _ if record.stage[place] == 0 && !chance.one_in(3) => {
                Call::Write(client, cell, chance.value().into())
            }
            _ => Call::Advance(client),
        }
    }

    /// The call by both, and what differs.
    fn make(&mut self, call: &Call, met: &mut Met) -> Result<(), String> {
        let found = self.house.record;
        let mut by_hand = self.house.clone();
        let given = call.by_library(&mut self.house);
        let hand_given = call.by_hand(&mut by_hand);
        if let (Call::Begin(client), Ok(_), true) = (call, &hand_given, self.damaged) {
            let left = by_hand.record;
            zero_as_opened(&mut by_hand.record, *client);
            met.excepted += u64::from(left != by_hand.record);
        }
        met.count(call, &given, self.damaged);
        compare(&given, &hand_given, &self.house, &by_hand).map_err(|what| {
            format!("{call:?}, house damaged: {}\nfound {found:?}\n{what}", self.damaged)
        })
    }
}

fn compare(
    given: &Answer<Given>,
    hand_given: &Answer<Given>,
    house: &House,
    by_hand: &House,
) -> Result<(), String> {
    if given != hand_given {
        return Err(format!("the library gives {given:?}, by hand it is {hand_given:?}"));
    }
    if house.record != by_hand.record {
        return Err(format!("the library leaves {:?}\nby hand {:?}", house.record, by_hand.record));
    }
    if let Some(cell) = (0..CELLS).find(|&cell| house.versions[cell] != by_hand.versions[cell]) {
        let (ours, theirs) = (house.versions[cell], by_hand.versions[cell]);
        return Err(format!("the entry of cell {cell} is {ours}, by hand {theirs}"));
    }
    compare_bytes("data", &house.data, &by_hand.data)?;
    compare_bytes("committed", &house.committed, &by_hand.committed)
}

fn compare_bytes(name: &str, ours: &[u8], theirs: &[u8]) -> Result<(), String> {
    match ours.iter().zip(theirs).position(|(one, other)| one != other) {
        None => Ok(()),
        Some(at) => Err(format!("{name} byte {at} is {}, by hand {}", ours[at], theirs[at])),
    }
}
