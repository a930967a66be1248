//! Scripts, generated and stored, with the model beside the library after every line.

use library::beside::Beside;
use library::{grammar, landed};
use model::calls::Call;
use model::forms::LINE_REFUSED;
use model::gen::{generate_under, profiles};
use model::session::run_under;
use model::tickets::Ticket;
use std::fs;
use std::io::Write;
use std::path::{Path, PathBuf};
use std::process::{Command, Stdio};

const LINES: usize = 60_000;
const SEEDS: std::ops::RangeInclusive<u64> = 1..=5;

/// Which refusals each call has, by c/wellcherry.h.
const REFUSALS: [(&str, &[u32]); 8] = [
    ("set-up", &[1]),
    ("begin", &[2, 3, 5, 8]),
    ("read", &[2, 3, 4, 6, 7]),
    ("write", &[2, 3, 4, 12, 6, 7, 9, 10]),
    ("advance", &[2, 3, 6]),
    ("abandon", &[2, 3, 6, 7]),
    ("trim", &[2]),
    ("free", &[2]),
];

/// Refusal 12 has no form: in whatever state the store is, values of other lengths are tried.
fn values_of_other_lengths(both: &mut Beside) {
    for client in 0..=64 {
        for length in [0, 1, 15, 17, 32] {
            both.call(Call::Write { client, cell: client, value: vec![7; length] });
        }
    }
}

/// The runs cannot silently become empty: they meet every stage, every kind of answer, every
/// refusal of every call and no other, all 64 clients at once and a wait for more than 32.
#[test]
fn every_profile() {
    let mut both = Beside::default();
    values_of_other_lengths(&mut both);
    for profile in profiles(grammar()) {
        for seed in SEEDS {
            let script = generate_under(grammar(), seed, LINES, profile).expect("a profile").text;
            both.script(&format!("{profile} {seed}"), &script);
            values_of_other_lengths(&mut both);
        }
    }
    println!("{}{} forms", both.met, both.forms);
    assert_eq!(both.met.gaps(), [""; 0]);
    for (call, refusals) in REFUSALS {
        let met = |number: &u32| both.met.of(&format!("refusal {number:02} of {call}")) > 0;
        let mut all: Vec<u32> = (1..=21).filter(met).collect();
        all.sort_by_key(|number| refusals.iter().position(|due| due == number));
        assert_eq!(all, refusals, "{call}");
    }
    let met = both.met.to_string();
    let largest = |name: &str| {
        let line = met.lines().find(|line| line.ends_with(&format!(" largest {name}")));
        line.and_then(|line| line.split_whitespace().next()?.parse::<u64>().ok())
    };
    assert_eq!(largest("clients open at once"), Some(64));
    assert!(largest("waiting") > Some(32));
}

/// A file or folder by its path from the project's root.
fn path(name: &str) -> PathBuf {
    Path::new(env!("CARGO_MANIFEST_DIR")).join("../..").join(name)
}

#[test]
fn stored_scripts() {
    let mut both = Beside::default();
    let folders = [
        ("examples", "txt", 9),
        ("tests/tournament", "txt", 3),
        ("tests/model/tests/house", "in", 12),
        ("tests/model/tests/tickets", "in", 11),
    ];
    let mut scripts = vec![path("crates/step/stdin")];
    for (folder, extension, least) in folders {
        let files = fs::read_dir(path(folder)).expect("a folder").map(|file| file.unwrap().path());
        let here: Vec<_> =
            files.filter(|f| f.extension().is_some_and(|e| e == extension)).collect();
        assert!(here.len() >= least, "{folder}");
        scripts.extend(here);
    }
    for script in scripts {
        both.script(&script.display().to_string(), &fs::read(&script).expect("a script"));
    }
}

/// What the program `desk` prints for an input.
fn printed(input: &[u8]) -> Vec<u8> {
    let mut desk = Command::new(env!("CARGO_BIN_EXE_desk"));
    let mut desk = desk.stdin(Stdio::piped()).stdout(Stdio::piped()).spawn().expect("desk starts");
    let (mut stdin, input) = (desk.stdin.take().expect("piped"), input.to_vec());
    let writer = std::thread::spawn(move || stdin.write_all(&input).expect("desk reads it all"));
    let output = desk.wait_with_output().expect("desk ends");
    writer.join().expect("the writer ends");
    assert!(output.status.success());
    output.stdout
}

/// The program prints what the model's does, whole scripts and odd inputs.
#[test]
fn the_program() {
    let script = generate_under(grammar(), 9, 20_000, "all").expect("a profile").text;
    let long = [b'('; 5_000];
    let inputs: [&[u8]; 7] =
        [&script, b"", b"\n", b"(free)", b"(free)\r\n\0\n(record)", b"\xff\n\n(trim)", &long];
    for input in inputs {
        assert!(printed(input) == run_under(grammar(), input).into_bytes());
    }
}

/// A form of a ticket that has not landed is no form.
#[test]
fn forms_of_other_tickets() {
    let forms = [
        (Ticket::VersionTable, "(versions)"),
        (Ticket::VersionTable, "(put-version 0 0)"),
        (Ticket::FreeAfterTrim, "(untouched)"),
        (Ticket::FreeAfterTrim, "(panel 2 0 0 0)"),
        (Ticket::ReadList, "(read-list 0 1 2)"),
        (Ticket::ReadList, "(read-list-into 34 0 1 2)"),
        (Ticket::NamedMoments, "(keep 0000000000000000)"),
        (Ticket::NamedMoments, "(read-at 0000000000000000 1)"),
        (Ticket::NamedMoments, "(drop 0000000000000000)"),
        (Ticket::NamedMoments, "(names)"),
        (Ticket::Release, "(release 0)"),
        (Ticket::Release, "(counts)"),
        (Ticket::Bill, "(bill 0 0 0 0 1 2)"),
    ];
    let other = forms.iter().filter(|(ticket, _)| !landed().has(*ticket));
    let script: String = other.map(|(_, form)| format!("{form}\n")).collect();
    let script = format!("(set-up 2 1 0)\n(begin 0)\n{script}").into_bytes();
    Beside::default().script("forms of other tickets", &script);
    let answers = String::from_utf8(printed(&script)).expect("text");
    assert!(answers.lines().skip(2).all(|answer| answer == LINE_REFUSED), "{answers}");
}
