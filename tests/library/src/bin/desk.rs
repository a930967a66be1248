//! `desk`: forms on standard input, the library's answers on standard output.

use library::desk::Desk;
use model::text::answer_lines;
use std::process::ExitCode;

fn main() -> ExitCode {
    let mut desk = Desk::default();
    answer_lines(|line| desk.answer_line(line))
}
