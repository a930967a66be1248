//! The last state: who is open, who waits for whom, and who holds the others up.

use crate::forms::Form;
use crate::house::{Given, House};
use crate::replay::Run;
use crate::words::{bits, counted, listed};
use wellcherry::{Progress, CLIENTS};

/// An open client after the last call.
pub struct Last {
    /// The client.
    pub client: u32,
    /// Its stage.
    pub stage: u32,
    /// For whom it waits.
    pub waits: Vec<u32>,
    /// Who waits for it, or for one who waits for it and so on; empty where it waits itself.
    pub holds_up: Vec<u32>,
    /// How many calls there are since the last one that names it.
    pub silent: usize,
}

impl Last {
    /// The open clients after the last call of a run.
    pub fn of(run: &Run) -> Vec<Last> {
        let waits: Vec<u64> = (0..CLIENTS as u32).map(|client| waits(&run.house, client)).collect();
        let behind = behind(&waits);
        let last = |(client, stage)| {
            let at = client as usize;
            let held = if waits[at] == 0 { behind[at] } else { 0 };
            Last {
                client,
                stage,
                waits: bits(waits[at]),
                holds_up: bits(held),
                silent: run.calls - run.heard[at],
            }
        };
        run.house.open().into_iter().map(last).collect()
    }

    /// Whom it holds up, and for how long nothing has been heard of it.
    pub fn sentence(&self) -> String {
        let held = format!("box {} holds up {}", self.client, listed(&self.holds_up));
        match self.silent {
            0 => held,
            _ => format!("{held}; {}", self.silence()),
        }
    }

    /// For how many calls it has been silent.
    pub fn silence(&self) -> String {
        format!("silent for {}", counted(self.silent, "call"))
    }
}

/// The box that holds others up: of several the one that has been silent longest.
pub fn holder(last: &[Last]) -> Option<&Last> {
    last.iter().filter(|one| !one.holds_up.is_empty()).max_by_key(|one| one.silent)
}

/// For whom a client waits now. The list in the record is that of the client's last look, so
/// the library looks once more, on a copy: who has gone on since is struck.
fn waits(house: &House, client: u32) -> u64 {
    let mut copy = house.clone();
    match copy.answer(&Form::Advance { client }) {
        Ok(Given::Came(Progress::Waiting(_))) => copy.waits(client),
        _ => 0,
    }
}

/// By client, who waits for it, or for one who waits for it and so on.
fn behind(waits: &[u64]) -> Vec<u64> {
    let mut behind = vec![0; waits.len()];
    // Each turn goes one link further, and no chain has more links than there are clients.
    for _ in waits {
        for (client, &waits) in waits.iter().enumerate() {
            for ahead in bits(waits) {
                behind[ahead as usize] |= 1 << client | behind[client];
            }
        }
    }
    behind
}
