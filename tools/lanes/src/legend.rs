//! The legend: every mark once, with its meaning.

use crate::marks;
use crate::plan::{width, COLUMN, MARGIN};
use crate::svg::Svg;

/// The height of a row.
const ROW: i32 = 34;

/// Draws a mark around a point.
type Mark = fn(&mut Svg, i32, i32);

const ENTRIES: [(Mark, &str); 18] = [
    (|svg, x, y| phase(svg, x, y, 0), "works (stage 0)"),
    (|svg, x, y| phase(svg, x, y, 1), "request queue (1 to 4)"),
    (|svg, x, y| phase(svg, x, y, 5), "check (5)"),
    (|svg, x, y| phase(svg, x, y, 6), "commit queue (6 to 10)"),
    (|svg, x, y| phase(svg, x, y, 11), "makes its commit (11)"),
    (|svg, x, y| phase(svg, x, y, 12), "commit made (12, 13)"),
    (|svg, x, y| marks::waiting(svg, x, y, 2), "advance: waits for so many"),
    (|svg, x, y| marks::arrow(svg, x, y - 12, y + 12), "from who waits to whom it waits for"),
    (|svg, x, y| marks::lettered(svg, x, y, "B", 3), "begin: reads as of commit 3"),
    (|svg, x, y| marks::lettered(svg, x, y, "R", 40), "read of cell 40"),
    (|svg, x, y| marks::lettered(svg, x, y, "W", 40), "write of cell 40"),
    (|svg, x, y| marks::done(svg, x, y, 4), "done, with its number"),
    (|svg, x, y| marks::conflict(svg, x, y, 4), "conflict with commit 4: writes gone"),
    (marks::abandoned, "abandoned: writes gone"),
    (|svg, x, y| marks::refused(svg, x, y, "", 7), "refused, with number"),
    (|svg, x, y| marks::commit(svg, x, y, 4), "commit 4 made, with its cells"),
    (marks::event, "set-up, trim, free"),
    (|svg, x, y| marks::frame(svg, x - COLUMN / 2, y, COLUMN), "holds others up, and is silent"),
];

/// A stage on the colour of its phase.
fn phase(svg: &mut Svg, x: i32, y: i32, stage: u32) {
    marks::ground(svg, x, y, stage);
    marks::stage(svg, x, y, stage);
}

/// Where the entries of a legend of a width begin: x and row.
fn places(legend_width: i32) -> Vec<(i32, i32)> {
    let (mut x, mut row) = (MARGIN, 0);
    let place = |&(_, name): &(Mark, &str)| {
        let room = COLUMN + width(name) + 20;
        if x > MARGIN && x + room > legend_width {
            (x, row) = (MARGIN, row + 1);
        }
        x += room;
        (x - room, row)
    };
    ENTRIES.iter().map(place).collect()
}

/// The height of a legend of a width.
pub fn height(legend_width: i32) -> i32 {
    let rows = places(legend_width).last().map_or(0, |&(_, row)| row + 1);
    rows * ROW + 10
}

/// Draws a legend of a width.
pub fn draw(svg: &mut Svg, legend_width: i32, top: i32) {
    svg.path("rule", &format!("M{MARGIN} {top}H{}", legend_width - MARGIN));
    for ((mark, name), (x, row)) in ENTRIES.iter().zip(places(legend_width)) {
        let y = top + row * ROW + ROW / 2 + 4;
        mark(svg, x + COLUMN / 2, y);
        svg.text("plain", x + COLUMN + 6, y + 4, name);
    }
}
