//! The marks of the picture, each around a point: lanes, time line and legend draw them alike.

use crate::plan::{BAR, COLUMN};
use crate::svg::Svg;
use std::fmt::Display;

/// The class of the phase that a stage belongs to.
pub fn phase(stage: u32) -> &'static str {
    match stage {
        0 => "working",
        1..=4 => "requests",
        5 => "checked",
        6..=10 => "commits",
        11 => "making",
        _ => "made",
    }
}

/// A client's own column of its bar.
pub fn ground(svg: &mut Svg, x: i32, y: i32, stage: u32) {
    svg.rect(phase(stage), x - COLUMN / 2, y - BAR / 2, COLUMN, BAR);
}

/// The stage that an Advance has come to.
pub fn stage(svg: &mut Svg, x: i32, y: i32, stage: u32) {
    svg.text("stage", x, y + 4, stage);
}

/// A letter above a number: begin, read, write.
pub fn lettered(svg: &mut Svg, x: i32, y: i32, letter: &str, number: impl Display) {
    svg.text("letter", x, y - 3, letter);
    svg.fitted("mid", x, y + 9, COLUMN, number);
}

/// The edge at which a transaction begins.
pub fn begun(svg: &mut Svg, x: i32, y: i32) {
    svg.path("start", &format!("M{} {}v{}", x - COLUMN / 2, y - BAR / 2 - 3, BAR + 6));
}

/// An Advance that waits for so many.
pub fn waiting(svg: &mut Svg, x: i32, y: i32, count: u32) {
    svg.circle("wait", x, y, 8);
    svg.text("count", x, y + 4, count);
}

/// From who waits to whom it waits for.
pub fn arrow(svg: &mut Svg, x: i32, from: i32, to: i32) {
    let back = if from < to { -7 } else { 7 };
    svg.path("arrow", &format!("M{x} {from}V{}", to + back));
    svg.path("tip", &format!("M{x} {to}l-4 {back}h8z"));
}

/// A conflict with a commit.
pub fn conflict(svg: &mut Svg, x: i32, y: i32, commit: u32) {
    svg.path("cross", &format!("M{} {}l10 10m0 -10l-10 10", x - 5, y - 12));
    svg.fitted("count", x, y + 9, COLUMN, commit);
}

/// Done, with a number.
pub fn done(svg: &mut Svg, x: i32, y: i32, number: u32) {
    svg.path("check", &format!("M{} {}l4 4l6 -8", x - 5, y - 6));
    svg.fitted("mid", x, y + 9, COLUMN, number);
}

/// Abandoned.
pub fn abandoned(svg: &mut Svg, x: i32, y: i32) {
    svg.circle("gone", x, y, 6);
    svg.path("gone", &format!("M{} {}l8 -8", x - 4, y + 4));
}

/// A refusal: an octagon with its number, and above it which call was refused.
pub fn refused(svg: &mut Svg, x: i32, y: i32, call: &str, refusal: u32) {
    svg.path("stop", &format!("M{} {}l5 -5h6l5 5v6l-5 5h-6l-5 -5z", x - 8, y - 3));
    svg.fitted("count", x, y + 4, COLUMN - 5, refusal);
    svg.text("letter", x, y - 15, call);
}

/// A commit on the time line.
pub fn commit(svg: &mut Svg, x: i32, y: i32, number: u32) {
    svg.circle("commit", x, y, 9);
    svg.fitted("light", x, y + 4, COLUMN - 2, number);
}

/// An answered call on the time line that names no client.
pub fn event(svg: &mut Svg, x: i32, y: i32) {
    svg.path("event", &format!("M{} {y}l5 -5l5 5l-5 5z", x - 5));
}

/// The frame around the silence of a box that holds others up, from its left edge on.
pub fn frame(svg: &mut Svg, left: i32, y: i32, width: i32) {
    svg.rect("frame", left + 2, y - BAR / 2 - 1, width - 3, BAR + 2);
}
