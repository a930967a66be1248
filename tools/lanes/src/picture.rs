//! The picture of a run, in SVG: lanes, time line, last state, legend.

use crate::forms::Form;
use crate::house::Given;
use crate::last::Last;
use crate::marks::phase;
use crate::plan::{label, notes, width, Plan, BAR, COLUMN, LANE, MARGIN, NOTES, TOP};
use crate::replay::{Run, Step};
use crate::svg::Svg;
use crate::words::{bits, grouped};
use crate::{legend, marks};
use std::collections::BTreeMap;
use wellcherry::Progress;

/// The picture of a run, under the script's name.
pub fn picture(name: &str, run: &Run) -> String {
    let last = Last::of(run);
    let plan = Plan::of(name, run, &last);
    let height = plan.legend() + legend::height(plan.width());
    let mut svg = Svg::new(plan.width(), height, &plan.title, include_str!("style.css"));
    let mut drawing = Drawing { svg: &mut svg, plan: &plan, steps: &run.steps };
    drawing.heading();
    for &client in &plan.clients {
        drawing.lane(client, last.iter().find(|one| one.client == client));
    }
    drawing.bars(&run.before);
    for column in 0..plan.columns {
        drawing.call(column);
    }
    for one in last.iter().filter(|one| !one.holds_up.is_empty()) {
        drawing.silence(one);
    }
    legend::draw(&mut svg, plan.width(), plan.legend());
    svg.finished()
}

/// An answered set-up closes every client.
fn starts_anew(step: &Step) -> bool {
    matches!(step.form, Form::SetUp { .. }) && step.answer.is_ok()
}

/// The letters of a call that names a client.
fn short(form: &Form) -> &'static str {
    match form {
        Form::Begin { .. } => "B",
        Form::Read { .. } => "R",
        Form::Write { .. } => "W",
        Form::Advance { .. } => "Ad",
        Form::Abandon { .. } => "Ab",
        _ => "",
    }
}

struct Drawing<'a> {
    svg: &'a mut Svg,
    plan: &'a Plan,
    steps: &'a [Step],
}

impl Drawing<'_> {
    /// Title, who holds the others up, the numbers of the calls, the time line.
    fn heading(&mut self) {
        let Drawing { svg, plan, .. } = self;
        svg.text("title", MARGIN, 24, &plan.title);
        match &plan.headline {
            Some(headline) => svg.text("headline", MARGIN, 48, headline),
            None => svg.text("quiet", MARGIN, 46, "nobody waits"),
        }
        for column in (0..plan.columns).filter(|column| (plan.first + column).is_multiple_of(5)) {
            let x = plan.mid(column);
            svg.text("number", x, TOP - 6, grouped(plan.first + column));
            svg.path("tick", &format!("M{x} {TOP}V{}", plan.time()));
        }
        svg.text("bold", plan.right() + MARGIN, TOP - 18, NOTES);
        svg.path("time", &format!("M{} {}H{}", plan.x(0), plan.time(), plan.right()));
    }

    /// A lane's name, and the last state of its client, which is closed where there is none.
    fn lane(&mut self, client: u32, now: Option<&Last>) {
        let Drawing { svg, plan, .. } = self;
        let Some(top) = plan.lane(client) else { return };
        let middle = top + LANE / 2 + 4;
        svg.group("lane", &format!("box {client}"));
        let holds_up = now.is_some_and(|one| !one.holds_up.is_empty());
        if holds_up {
            svg.rect("held", 0, top, plan.width(), LANE);
        }
        svg.path("rule", &format!("M0 {}H{}", top + LANE, plan.width()));
        let class = if holds_up { "alarm" } else { "bold" };
        svg.text(class, MARGIN, middle, format!("box {client}"));
        let notes = now.map_or(vec![("quiet", "closed".to_string())], notes);
        let first = middle - 7 * (notes.len() as i32 - 1);
        for ((class, text), line) in notes.into_iter().zip(0..) {
            svg.text(class, plan.right() + MARGIN, first + 14 * line, text);
        }
        svg.end_group();
    }

    /// The bars of all clients, a piece for each phase. Some are open before the first column.
    fn bars(&mut self, before: &[(u32, u32)]) {
        let begun = before.iter().map(|&(client, stage)| (client, (phase(stage), 0)));
        let mut pieces: BTreeMap<u32, (&str, usize)> = begun.collect();
        for (column, step) in self.steps.iter().enumerate() {
            if starts_anew(step) {
                self.pieces(std::mem::take(&mut pieces), column);
            }
            let Some(client) = step.form.client() else { continue };
            let (was, is) = (pieces.get(&client).map(|piece| piece.0), step.stage.map(phase));
            if was != is {
                self.pieces(pieces.remove_entry(&client), column);
                pieces.extend(is.map(|class| (client, (class, column))));
            }
        }
        self.pieces(pieces, self.plan.columns);
    }

    /// Pieces of bars, each with client, phase and first column, that end before a column.
    fn pieces<'p>(
        &mut self,
        pieces: impl IntoIterator<Item = (u32, (&'p str, usize))>,
        end: usize,
    ) {
        for (client, (class, from)) in pieces {
            if let Some(top) = self.plan.bar(client) {
                let (x, width) = (self.plan.x(from), (end - from) as i32 * COLUMN);
                self.svg.rect(&format!("pale {class}"), x, top, width, BAR);
            }
        }
    }

    /// A call: in its client's lane, or on the time line where it has none.
    fn call(&mut self, column: usize) {
        let step = &self.steps[column];
        let (x, time) = (self.plan.mid(column), self.plan.time());
        let number = grouped(self.plan.first + column);
        self.svg.group("call", &format!("call {number}: {}", step.line()));
        if starts_anew(step) {
            self.svg.path("reset", &format!("M{x} {TOP}V{time}"));
        }
        match (step.form.client().and_then(|client| self.plan.bar(client)), step.answer) {
            (Some(top), _) => self.in_lane(step, x, top + BAR / 2),
            (None, Ok(_)) => marks::event(self.svg, x, time),
            (None, Err(refusal)) => marks::refused(self.svg, x, time, "", refusal),
        }
        if let Some(text) = label(step) {
            self.svg.slanted("plain", x - 1, time + 18, text);
        }
        self.svg.end_group();
    }

    /// A call in its client's lane, around a point.
    fn in_lane(&mut self, step: &Step, x: i32, y: i32) {
        if let Some(stage) = step.stage {
            marks::ground(self.svg, x, y, stage);
        }
        match (&step.form, step.answer) {
            (form, Err(refusal)) => marks::refused(self.svg, x, y, short(form), refusal),
            (form, Ok(Given::Begun { snapshot, .. })) => {
                marks::begun(self.svg, x, y);
                marks::lettered(self.svg, x, y, short(form), snapshot);
            }
            (form @ (Form::Read { cell, .. } | Form::Write { cell, .. }), Ok(_)) => {
                marks::lettered(self.svg, x, y, short(form), cell);
            }
            (_, Ok(Given::Came(progress))) => self.advanced(step, progress, x, y),
            (_, Ok(_)) => marks::abandoned(self.svg, x, y),
        }
    }

    /// An answered Advance.
    fn advanced(&mut self, step: &Step, progress: Progress, x: i32, y: i32) {
        match progress {
            Progress::Stage(stage) => marks::stage(self.svg, x, y, stage),
            Progress::Waiting(count) => {
                self.arrows(&bits(step.waits), x, y);
                marks::waiting(self.svg, x, y, count);
            }
            Progress::Conflict(commit) => {
                self.lost_to(commit, x, y);
                marks::conflict(self.svg, x, y, commit);
            }
            Progress::Done(number) => marks::done(self.svg, x, y, number),
        }
        if let Some(made) = &step.made {
            let time = self.plan.time();
            self.svg.path("drop", &format!("M{x} {}V{time}", y + BAR / 2));
            marks::commit(self.svg, x, time, made.number);
        }
    }

    /// Arrows to the bars of those that are waited for, side by side.
    fn arrows(&mut self, waited_for: &[u32], x: i32, y: i32) {
        let count = waited_for.len() as i32;
        let apart = (COLUMN - 6) / count.max(2);
        let bars = waited_for.iter().filter_map(|&client| self.plan.bar(client));
        for (bar, at) in bars.zip(0..) {
            let edge = if bar > y { bar } else { bar + BAR };
            marks::arrow(self.svg, x + apart * (2 * at + 1 - count) / 2, y, edge);
        }
    }

    /// A line from a conflict to the commit that won; to the left edge where that is not drawn.
    fn lost_to(&mut self, commit: u32, x: i32, y: i32) {
        let rail = self.plan.time() - 24;
        let won = |step: &Step| step.made.as_ref().is_some_and(|made| made.number == commit);
        let column = self.steps.iter().position(won);
        let to = column.map_or(self.plan.x(0), |column| self.plan.mid(column) + 4);
        self.svg.path("lost", &format!("M{x} {}V{rail}H{to}", y + BAR / 2));
        if column.is_some() {
            marks::arrow(self.svg, to, rail, self.plan.time() - 8);
        }
    }

    /// For how long a box that holds others up has been silent, in its lane.
    fn silence(&mut self, one: &Last) {
        let columns = one.silent.min(self.plan.columns);
        let Some(top) = self.plan.bar(one.client).filter(|_| columns > 0) else { return };
        let (left, room) = (self.plan.x(self.plan.columns - columns), columns as i32 * COLUMN);
        let (said, y) = (one.silence(), top + BAR / 2);
        marks::frame(self.svg, left, y, room);
        if width(&said) * 3 / 2 < room {
            for class in ["halo", "silence"] {
                self.svg.text(class, left + room / 2, y + 5, &said);
            }
        }
    }
}
