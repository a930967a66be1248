//! The desk of `tests/model/DESK.md` over libwellcherry.a, and the model beside it.

pub mod beside;
pub mod desk;

use model::forms::Grammar;
use model::tickets::Tickets;

/// The tickets of document 02 that have landed, from the one place where they stand.
pub fn landed() -> Tickets {
    let list = include_str!("../../tickets").trim();
    Tickets::parse(list).expect("tests/tickets lists tickets of document 02")
}

/// The desk's forms with the landed tickets in force.
pub fn grammar() -> Grammar {
    Grammar::desk(landed())
}
