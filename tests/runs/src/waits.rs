//! Document 02, 8: the longest waits, in rounds, that schedules bring about, beside the limit of 4 × n × n + 32.

use crate::{generated, grammar, reported};
use model::calls::Call;
use model::forms::{form_text, Form};
use model::session::Session;
use std::cmp::Reverse;

/// What is generated for the tables.
const LINES: usize = 100_000;
const SEEDS: std::ops::RangeInclusive<u64> = 1..=4;

/// A schedule with a long wait for `clients` clients, 1 to 64.
///
/// All of them write two cells each, so that each shares one with the next, and ask to commit in that order: the last one waits for all the others,
/// one after the other. Every second of them commits, the next one has a conflict with it. Who is closed begins again, writes a cell of its own and
/// stays at stage 0 until one of the chain is about to take its commit number; then all of these take theirs just before it. In the commit queue one
/// goes every three rounds: in each round larger numbers are advanced first, and so see late that another has gone.
pub fn chained(clients: u32) -> Vec<u8> {
    let mut schedule = Schedule { session: Session::under(grammar()), text: String::new() };
    schedule.obey(Form::SetUp { rows: 1_024, first_w: 1, limit: 0 });
    for client in 0..clients {
        schedule.begin(client, &[client, client + 1]);
    }
    for client in (0..clients).flat_map(|client| [client; 2]) {
        schedule.advance(client);
    }
    let mut chain: Vec<u32> = (0..clients).collect();
    while !chain.is_empty() {
        if chain.iter().any(|client| schedule.stage(*client) == Some(7)) {
            for client in schedule.at(clients, Some(0)) {
                (0..8).for_each(|_| schedule.advance(client));
            }
        }
        for client in schedule.queued(clients) {
            schedule.advance(client);
        }
        for client in schedule.at(clients, None) {
            chain.retain(|other| *other != client);
            schedule.begin(client, &[500 + client]);
        }
    }
    schedule.text.into_bytes()
}

/// A script as it is written, with a store that follows it.
struct Schedule {
    session: Session,
    text: String,
}

impl Schedule {
    fn obey(&mut self, form: Form) {
        self.session.obey(&form);
        self.text += &form_text(&form);
        self.text.push('\n');
    }

    fn begin(&mut self, client: u32, cells: &[u32]) {
        self.obey(Form::Call(Call::Begin { client }));
        for cell in cells {
            self.obey(Form::Call(Call::Write { client, cell: *cell, value: vec![0; 16] }));
        }
    }

    fn advance(&mut self, client: u32) {
        self.obey(Form::Call(Call::Advance { client }));
    }

    fn stage(&self, client: u32) -> Option<u8> {
        self.session.store().stage(client)
    }

    /// The clients at a stage, or those that are closed.
    fn at(&self, clients: u32, stage: Option<u8>) -> Vec<u32> {
        (0..clients).filter(|client| self.stage(*client) == stage).collect()
    }

    /// The clients at stages 1 to 13, larger numbers first.
    fn queued(&self, clients: u32) -> Vec<u32> {
        let open = &self.session.store().open;
        let mut queued: Vec<u32> = (0..clients).filter(|client| self.stage(*client).is_some_and(|stage| stage > 0)).collect();
        queued.sort_by_key(|client| Reverse((open[client].commit, open[client].request)));
        queued
    }
}

/// What the proof needs, with n clients: `over-in-time` in crates/demands/proofs/Ending.antt.
fn proved(clients: u64) -> u64 {
    3 * clients * clients + 9 * clients + 5
}

/// A number with a comma before its last three digits.
fn with_comma(number: u64) -> String {
    match number / 1_000 {
        0 => format!("{number}"),
        thousands => format!("{thousands},{:03}", number % 1_000),
    }
}

/// Two tables for docs/WAITING.md: by the number of clients, on chained schedules; and by the generator's profile, with all 64. All runs are held to the
/// model, the plain table and the limit.
pub fn tables() -> (String, String) {
    let mut chains = String::from("| boxes | longest wait seen | what the proof needs | limit |\n|---:|---:|---:|---:|\n");
    for clients in [1, 2, 4, 8, 16, 32, 64] {
        let (seen, limit) = reported("chained", &chained(clients)).1.longest_wait;
        let [seen, proved, limit] = [seen, proved(u64::from(clients)), limit].map(with_comma);
        chains += &format!("| {clients} | {seen} | {proved} | {limit} |\n");
    }
    let mut profiles = String::from("| generated schedules | longest wait seen | limit |\n|---|---:|---:|\n");
    for profile in ["rounds", "contended", "mixed"] {
        let (seen, limit) = SEEDS.map(|seed| generated(seed, LINES, profile).1).max().expect("some seeds");
        profiles += &format!("| `{profile}` | {} | {} |\n", with_comma(seen), with_comma(limit));
    }
    (chains, profiles)
}
