//! Runs the step program on a script, and holds its output to the reference model and to the plain table, with the landed tickets in force.

pub mod waits;

use model::calls::{Answer, Call};
use model::check::{check_under, Report};
use model::coverage::Coverage;
use model::forms::{form_text, lines, Form, Grammar};
use model::gen::generate_under;
use model::tickets::{Ticket, Tickets};
use std::collections::{BTreeMap, BTreeSet};
use std::io::{BufRead, BufReader, Read, Write};
use std::path::PathBuf;
use std::process::{Child, ChildStdin, ChildStdout, Command, Stdio};
use std::thread;

/// The tickets of document 02 that have landed stand in one place, `tests/tickets`, for these tests and for the benchmark.
pub fn landed() -> Tickets {
    Tickets::parse(include_str!("../../tickets").trim()).expect("tests/tickets lists tickets of document 02")
}

/// The step program's forms and answers with the landed tickets in force.
pub fn grammar() -> Grammar {
    Grammar::step(landed())
}

/// The same as before ticket 9: all the other landed tickets in force.
pub fn grammar_before_9() -> Grammar {
    Grammar::step(landed().without(Ticket::SmallerLimit))
}

/// Where the proved program is built.
pub fn program() -> PathBuf {
    PathBuf::from(concat!(env!("CARGO_MANIFEST_DIR"), "/../../target/bin/step"))
}

/// The step program, started, with its input and its output.
fn started() -> (Child, ChildStdin, ChildStdout) {
    let mut child = Command::new(program())
        .stdin(Stdio::piped())
        .stdout(Stdio::piped())
        .spawn()
        .expect("the step program is built by `make build`");
    let (stdin, stdout) = (child.stdin.take().expect("piped"), child.stdout.take().expect("piped"));
    (child, stdin, stdout)
}

/// What the step program prints for an input that is handed over in pieces of at most `piece` bytes.
pub fn output_in_pieces(input: &[u8], piece: usize) -> Vec<u8> {
    let (mut child, mut stdin, mut stdout) = started();
    let reader = thread::spawn(move || {
        let mut printed = Vec::new();
        stdout.read_to_end(&mut printed).expect("readable output");
        printed
    });
    for part in input.chunks(piece) {
        stdin.write_all(part).expect("the program reads all of its input");
    }
    drop(stdin);
    let printed = reader.join().expect("the reader ends");
    assert!(child.wait().expect("the program ends").success());
    printed
}

pub fn output(input: &[u8]) -> Vec<u8> {
    output_in_pieces(input, 1 << 20)
}

/// The step program, line by line: each line is written only when the line before it is answered, so that there are as many reads as lines. What it
/// prints in all.
pub fn output_in_turns(script: &[u8]) -> Vec<u8> {
    let (mut child, mut stdin, stdout) = started();
    let mut stdout = BufReader::new(stdout);
    let mut printed = Vec::new();
    for line in script.split_inclusive(|&byte| byte == b'\n') {
        stdin.write_all(line).expect("the program reads all of its input");
        let answered = stdout.read_until(b'\n', &mut printed).expect("readable output");
        assert!(answered > 0, "no answer after {} bytes", printed.len());
    }
    drop(stdin);
    assert!(child.wait().expect("the program ends").success());
    printed
}

/// What the step program prints for a script, and the checker's report: no difference from the model, nothing broken of the plain table or of the
/// limit on rounds.
pub fn reported(name: &str, script: &[u8]) -> (Vec<u8>, Report) {
    let printed = output(script);
    let report = check_under(grammar(), script, &printed);
    for (judge, finding) in [("plain table", &report.plain), ("model", &report.model)] {
        if let Some(finding) = finding {
            panic!("{name}, line {}: {judge}: {}", finding.line, finding.text);
        }
    }
    (printed, report)
}

/// What it prints, so held.
pub fn held(name: &str, script: &[u8]) -> Vec<u8> {
    reported(name, script).0
}

/// A generated script is answered line by line, and rightly. The coverage figures are handed back, and the longest wait in rounds with its limit.
pub fn generated(seed: u64, lines: usize, profile: &str) -> (Coverage, (u64, u64)) {
    let script = generate_under(grammar(), seed, lines, profile).expect("a profile of the generator");
    let (printed, report) = reported(&format!("{profile} {seed}"), &script.text);
    assert_eq!(printed.iter().filter(|byte| **byte == b'\n').count(), lines);
    (script.coverage, report.longest_wait)
}

/// A script with 16 for 0 as the cell limit of its set-ups, and not a byte else changed.
pub fn with_16_for_0(script: &[u8]) -> Vec<u8> {
    let named = lines(script).into_iter().map(|line| match grammar().parse(line) {
        Some(Form::SetUp { rows, first_w, limit: 0 }) => form_text(&Form::SetUp { rows, first_w, limit: 16 }).into_bytes(),
        _ => line.to_vec(),
    });
    let mut named = named.collect::<Vec<_>>().join(&b'\n');
    named.extend(script.ends_with(b"\n").then_some(b'\n'));
    named
}

/// One Write of a new cell by an open client, as the lines of a run tell it.
#[derive(Debug, PartialEq, Eq)]
pub struct NewCell {
    /// The cell limit of the set-up in force, as it was given.
    pub limit: u32,
    /// How many different cells the client had written since it began.
    pub written: usize,
    /// The answer's result.
    pub result: String,
}

/// All of them in a run, told from its forms and answers alone.
pub fn new_cells(script: &[u8], printed: &[u8]) -> Vec<NewCell> {
    let (mut limit, mut cells, mut found) = (0, BTreeMap::<u32, BTreeSet<u32>>::new(), Vec::new());
    for (line, answer) in lines(script).into_iter().zip(lines(printed)) {
        let answer = String::from_utf8_lossy(answer);
        let refused = answer.contains("(refused ");
        match grammar().parse(line) {
            Some(Form::SetUp { limit: given, .. }) if !refused => {
                limit = given;
                cells.clear();
            }
            Some(Form::Call(Call::Begin { client })) if !refused => {
                cells.insert(client, BTreeSet::new());
            }
            Some(Form::Call(Call::Write { client, cell, .. })) => {
                if let Some(own) = cells.get_mut(&client).filter(|own| !own.contains(&cell)) {
                    let result = answer[answer.find(" (").map_or(0, |at| at + 1)..answer.len() - 1].to_string();
                    found.push(NewCell { limit, written: own.len(), result });
                    if !refused {
                        own.insert(cell);
                    }
                }
            }
            _ => (),
        }
    }
    found
}

/// What each number of a client that a run names has met, told from its forms and answers alone: answers by their first word, refusals by their
/// number, waits by the stage.
pub fn met_by_client(script: &[u8], printed: &[u8]) -> BTreeMap<u32, BTreeSet<String>> {
    let (mut stages, mut met) = (BTreeMap::<u32, u8>::new(), BTreeMap::<u32, BTreeSet<String>>::new());
    for (line, answer) in lines(script).into_iter().zip(lines(printed)) {
        let Some(form) = grammar().parse(line) else { continue };
        let Form::Call(call) = &form else { continue };
        let (Some(client), Some(answer)) = (call.client(), grammar().parse_answer(&form, answer)) else { continue };
        let what = match answer {
            Answer::Refused(refusal) => format!("refused {}", refusal.number()),
            Answer::Waiting(_) => format!("waiting at {}", stages[&client]),
            Answer::Stage(stage) => {
                stages.insert(client, stage);
                format!("stage {stage}")
            }
            Answer::Conflict(_) => "conflict".to_string(),
            Answer::Done(_) => "done".to_string(),
            _ => call.keyword().to_string(),
        };
        met.entry(client).or_default().insert(what);
    }
    met
}
