//! A picture of a script of the step program: a lane for each box, a column for each call, and
//! who waits for whom. The script is replayed over libwellcherry.a; answers and waiting lists
//! are the library's own.
#![warn(missing_docs)]

pub mod forms;
pub mod house;
pub mod last;
mod legend;
mod marks;
pub mod picture;
mod plan;
pub mod replay;
mod svg;
mod words;
