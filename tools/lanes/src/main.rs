//! `lanes SCRIPT [--last N] [--answers]`: the picture of a script, or its answers.

use lanes::picture::picture;
use lanes::replay::{answers, Run};
use std::io::Write;
use std::path::Path;
use std::process::ExitCode;

const USAGE: &str = "usage: lanes SCRIPT [--last N] [--answers] >picture.svg
  SCRIPT      forms of the step program, one a line
  --last N    draw the last N calls (else the last 120)
  --answers   print what the step program prints, and draw nothing";

/// How many calls are drawn unless another number is named.
const WINDOW: usize = 120;

struct Wanted {
    script: String,
    last: usize,
    answers: bool,
}

fn wanted(mut words: impl Iterator<Item = String>) -> Option<Wanted> {
    let (mut script, mut last, mut answers) = (None, WINDOW, false);
    while let Some(word) = words.next() {
        match word.as_str() {
            "--last" => last = words.next()?.parse().ok()?,
            "--answers" => answers = true,
            _ if word.starts_with("--") || script.is_some() => return None,
            _ => script = Some(word),
        }
    }
    Some(Wanted { script: script?, last, answers })
}

fn made(wanted: &Wanted) -> std::io::Result<String> {
    let script = std::fs::read(&wanted.script)?;
    if wanted.answers {
        return Ok(answers(&script));
    }
    let name = Path::new(&wanted.script).file_name().unwrap_or_default().to_string_lossy();
    Ok(picture(&name, &Run::of(&script, wanted.last)))
}

fn main() -> ExitCode {
    let Some(wanted) = wanted(std::env::args().skip(1)) else {
        eprintln!("{USAGE}");
        return ExitCode::from(2);
    };
    match made(&wanted).and_then(|text| std::io::stdout().write_all(text.as_bytes())) {
        Ok(()) => ExitCode::SUCCESS,
        Err(error) => {
            eprintln!("{}: {error}", wanted.script);
            ExitCode::FAILURE
        }
    }
}
