//! Where things stand in the picture.

use crate::forms::Form;
use crate::house::Given;
use crate::last::{holder, Last};
use crate::replay::{Run, Step};
use crate::words::{counted, grouped, listed};
use std::collections::BTreeSet;
use wellcherry::CLIENTS;

/// Where the first column begins; left of it stand the names of the lanes.
const LEFT: i32 = 66;
/// Where the first lane begins; above it stand title, headline and the numbers of the calls.
pub const TOP: i32 = 84;
/// The width of a column.
pub const COLUMN: i32 = 18;
/// The height of a lane.
pub const LANE: i32 = 44;
/// The height of the bar in a lane.
pub const BAR: i32 = 26;
/// From the lowest lane to the time line.
const TO_TIME: i32 = 40;
/// The least width of a picture, so that title and legend have room.
const LEAST_WIDTH: i32 = 720;
/// Before, behind and between texts.
pub const MARGIN: i32 = 10;
/// About the width of a letter: plain, bold, of the headline, of the title.
const PLAIN: i32 = 6;
const BOLD: i32 = 7;
const HEADLINE: i32 = 10;
const TITLE: i32 = 12;

/// What stands above the last state.
pub const NOTES: &str = "after the last call";

/// A text of the last state, with its class.
pub type Note = (&'static str, String);

/// What is drawn where.
pub struct Plan {
    /// The script's name, and which of its calls are drawn.
    pub title: String,
    /// Who holds the others up.
    pub headline: Option<String>,
    /// The number of the first call that is drawn.
    pub first: usize,
    /// How many calls are drawn.
    pub columns: usize,
    /// The clients that have a lane, from the top: those that the calls name, and those that are
    /// open when they begin.
    pub clients: Vec<u32>,
    /// How much room the labels below the time line take, downwards and to the right.
    pub labels: i32,
    /// How much room the last state takes.
    notes: i32,
}

impl Plan {
    /// The plan of a run's picture, under the script's name.
    pub fn of(name: &str, run: &Run, last: &[Last]) -> Plan {
        let named = run.steps.iter().filter_map(|step| step.form.client());
        let open = run.before.iter().map(|&(client, _)| client);
        let clients: BTreeSet<u32> = named.filter(|&client| is_box(client)).chain(open).collect();
        let labels = run.steps.iter().filter_map(label).map(|text| wide(&text, PLAIN)).max();
        let notes = last.iter().flat_map(notes).map(|(_, text)| wide(&text, BOLD)).max();
        Plan {
            title: format!("{name}: {}", window(run)),
            headline: holder(last).map(Last::sentence),
            first: run.calls - run.steps.len() + 1,
            columns: run.steps.len(),
            clients: clients.into_iter().collect(),
            // they slant
            labels: labels.unwrap_or(0) * 5 / 7,
            notes: notes.unwrap_or(0).max(wide(NOTES, BOLD)),
        }
    }

    /// The width of the picture.
    pub fn width(&self) -> i32 {
        let headline = self.headline.as_deref().map_or(0, |text| wide(text, HEADLINE));
        let heading = headline.max(wide(&self.title, TITLE)) + 2 * MARGIN;
        let columns = self.right() + self.notes.max(self.labels) + 2 * MARGIN;
        heading.max(columns).max(LEAST_WIDTH)
    }

    /// The left edge of a column.
    pub fn x(&self, column: usize) -> i32 {
        LEFT + column as i32 * COLUMN
    }

    /// The middle of a column.
    pub fn mid(&self, column: usize) -> i32 {
        self.x(column) + COLUMN / 2
    }

    /// The right edge of the last column.
    pub fn right(&self) -> i32 {
        self.x(self.columns)
    }

    /// The upper edge of a client's lane.
    pub fn lane(&self, client: u32) -> Option<i32> {
        let at = self.clients.iter().position(|&one| one == client)?;
        Some(TOP + at as i32 * LANE)
    }

    /// The upper edge of a client's bar.
    pub fn bar(&self, client: u32) -> Option<i32> {
        Some(self.lane(client)? + (LANE - BAR) / 2)
    }

    /// The height at which the time line stands.
    pub fn time(&self) -> i32 {
        TOP + self.clients.len() as i32 * LANE + TO_TIME
    }

    /// The height at which the legend begins.
    pub fn legend(&self) -> i32 {
        self.time() + self.labels + 24
    }
}

/// Whether there is a box of that number.
fn is_box(client: u32) -> bool {
    client < CLIENTS as u32
}

fn wide(text: &str, letter: i32) -> i32 {
    text.chars().count() as i32 * letter
}

/// About the width of a plain text.
pub fn width(text: &str) -> i32 {
    wide(text, PLAIN)
}

/// Which calls of the script are drawn.
fn window(run: &Run) -> String {
    let (calls, drawn) = (run.calls, run.steps.len());
    let of = format!("{} of {}", grouped(calls), grouped(calls));
    match drawn {
        0 if calls == 0 => "no calls".to_string(),
        0 => format!("none of {}", counted(calls, "call")),
        1 => format!("call {of}"),
        _ => format!("calls {} to {of}", grouped(calls - drawn + 1)),
    }
}

/// What is written below the time line for a call.
pub fn label(step: &Step) -> Option<String> {
    match (&step.form, &step.answer) {
        (Form::SetUp { .. }, Ok(Given::Free(rows))) => Some(format!("set-up, {rows} free")),
        (Form::Trim, Ok(Given::Dropped(rows))) => Some(format!("trim, {rows} dropped")),
        (Form::Free, Ok(Given::Free(rows))) => Some(format!("{rows} free")),
        (Form::Other, _) => None,
        (form, _) => match (form.client(), &step.made) {
            (Some(client), Some(made)) => {
                let cells = if made.cells.len() == 1 { "cell" } else { "cells" };
                Some(format!("box {client}: {cells} {}", listed(&made.cells)))
            }
            (Some(client), None) if is_box(client) => None,
            _ => Some(form.to_string()),
        },
    }
}

/// What is written at the right of an open client's lane.
pub fn notes(last: &Last) -> Vec<Note> {
    let silent = Some(last.silence()).filter(|_| last.silent > 0);
    let (class, said, silent) = match (&last.waits[..], &last.holds_up[..]) {
        ([], []) => ("plain", String::new(), silent.map(|said| ("quiet", said))),
        ([], held) => {
            ("alarm", format!(": holds up {}", listed(held)), silent.map(|said| ("alarm", said)))
        }
        (waits, _) => ("bold", format!(": waits for {}", listed(waits)), None),
    };
    [(class, format!("stage {}{said}", last.stage))].into_iter().chain(silent).collect()
}
