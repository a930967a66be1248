//! What a run has met: a comparison of calls that never get far says little.

use crate::call::{Call, Given};
use std::collections::BTreeMap;
use wellcherry::{Answer, Progress};

/// What an answered advance, read or trim comes to.
const OUTCOMES: [&str; 8] =
    ["stage", "waiting", "conflict", "done", "value", "unwritten", "dropped", "none dropped"];

fn outcome(call: &Call, given: &Answer<Given>) -> Option<&'static str> {
    let place = match (call, given.as_ref().ok()?) {
        (_, Given::Step(Progress::Stage(_))) => 0,
        (_, Given::Step(Progress::Waiting(_))) => 1,
        (_, Given::Step(Progress::Conflict(_))) => 2,
        (_, Given::Step(Progress::Done(_))) => 3,
        (_, Given::Row(Some(_))) => 4,
        (_, Given::Row(None)) => 5,
        (Call::Trim, Given::Figure(1..)) => 6,
        (Call::Trim, Given::Figure(0)) => 7,
        _ => return None,
    };
    Some(OUTCOMES[place])
}

#[derive(Default)]
pub struct Met {
    /// Calls by name and refusal, 0 where they are answered.
    calls: BTreeMap<(&'static str, u32), u64>,
    /// Outcomes, on houses that grow and on those that are damaged.
    outcomes: BTreeMap<(bool, &'static str), u64>,
    /// Begins after which the known difference was there.
    pub excepted: u64,
}

impl Met {
    pub fn count(&mut self, call: &Call, given: &Answer<Given>, damaged: bool) {
        let refusal = given.as_ref().err().copied().unwrap_or(0);
        *self.calls.entry((call.name(), refusal)).or_default() += 1;
        if let Some(outcome) = outcome(call, given) {
            *self.outcomes.entry((damaged, outcome)).or_default() += 1;
        }
    }

    pub fn total(&self) -> u64 {
        self.calls.values().sum()
    }

    /// The counts, and how many outcomes are missing.
    pub fn print(&self) -> usize {
        for name in Call::NAMES {
            let counts = self.calls.range((name, 0)..=(name, u32::MAX));
            let said = counts.map(|((_, refusal), often)| match refusal {
                0 => format!("{often} answered"),
                _ => format!("{often} refused {refusal}"),
            });
            println!("{name}: {}", said.collect::<Vec<_>>().join(", "));
        }
        [false, true].map(|damaged| self.print_outcomes(damaged)).iter().sum()
    }

    fn print_outcomes(&self, damaged: bool) -> usize {
        let often = OUTCOMES.map(|name| *self.outcomes.get(&(damaged, name)).unwrap_or(&0));
        let said = OUTCOMES.iter().zip(often).map(|(name, often)| format!("{name} {often}"));
        let said = said.collect::<Vec<_>>().join(", ");
        println!("{}: {said}", if damaged { "damaged" } else { "grown from set-up" });
        often.iter().filter(|often| **often == 0).count()
    }
}
