//! Head by chance: the same from the same seed.

#[path = "../../../bench/drivers/src/rng.rs"]
mod rng;

use rng::Rng;
use wellcherry::CLIENTS;

pub struct Chance(Rng);

impl Chance {
    pub fn new(seed: u64) -> Chance {
        Chance(Rng(seed))
    }

    pub fn below(&mut self, bound: u32) -> u32 {
        self.0.below(bound)
    }

    pub fn one_in(&mut self, times: u32) -> bool {
        self.below(times) == 0
    }

    /// Small numbers and edges above all.
    pub fn odd(&mut self) -> u32 {
        match self.below(6) {
            0 => self.0.draw() as u32,
            1 => u32::MAX - self.below(3),
            2 => 1 << self.below(32),
            3 => self.below(70),
            _ => self.below(8),
        }
    }

    /// A set of clients: few or many.
    pub fn set(&mut self) -> u64 {
        let set = self.0.draw();
        if self.one_in(2) {
            set & self.0.draw() & self.0.draw() & self.0.draw()
        } else {
            set
        }
    }

    /// How many clients are at work: few most often.
    pub fn clients(&mut self) -> u32 {
        let most = if self.one_in(4) { CLIENTS as u32 } else { 6 };
        1 + self.below(most)
    }

    /// How many cells are in use: few for the rows, most often, so that trims find something
    /// to drop; now and then some that are none.
    pub fn cells(&mut self, rows: u32) -> u32 {
        match self.below(8) {
            0 => 1030,
            1 => 1 + self.below(1024),
            _ => 1 + self.below(1 + rows / 4),
        }
    }

    pub fn value(&mut self) -> [u8; 16] {
        let (one, other) = (self.0.draw().to_le_bytes(), self.0.draw().to_le_bytes());
        let mut value = [0; 16];
        value[..8].copy_from_slice(&one);
        value[8..].copy_from_slice(&other);
        value
    }
}
