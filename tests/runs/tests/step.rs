//! The step program: the house cases, the model's scripts, the examples, long generated runs, odd inputs.

use model::coverage::Coverage;
use model::gen::{generate_under, profiles};
use model::session::run_under;
use model::tickets::Ticket;
use runs::{generated, grammar, grammar_before_9, held, landed, met_by_client, new_cells, output, output_in_pieces, with_16_for_0};
use std::collections::{BTreeMap, BTreeSet};
use std::fs;
use std::path::{Path, PathBuf};

const LINES: usize = 40_000;
const SEEDS: std::ops::RangeInclusive<u64> = 1..=3;

/// The house cases that landed tickets change: case 1 by ticket 1, case 2 by ticket 12.
const CHANGED: [&str; 2] = ["1", "2"];

/// What the model prints with the landed tickets in force.
fn due(input: &[u8]) -> Vec<u8> {
    run_under(grammar(), input).into_bytes()
}

/// Every script of a folder, by its files' extension, in the order of their names: its name, its text and the output stored beside it.
fn stored_scripts(folder: &str, extension: &str) -> Vec<(String, Vec<u8>, Vec<u8>)> {
    let folder = fs::read_dir(Path::new(env!("CARGO_MANIFEST_DIR")).join(folder)).unwrap();
    let mut paths: Vec<_> = folder.map(|entry| entry.unwrap().path()).filter(|path| path.extension().is_some_and(|e| e == extension)).collect();
    paths.sort();
    let read = |path: &PathBuf| fs::read(path).unwrap();
    let name = |path: &PathBuf| path.file_stem().unwrap().to_string_lossy().into_owned();
    paths.iter().map(|path| (name(path), read(path), read(&path.with_extension("out")))).collect()
}

/// Every script of a folder is held to the model; how many there are, and the names of those that print something else than what is stored.
fn scripts(folder: &str, extension: &str) -> (usize, Vec<String>) {
    let all = stored_scripts(folder, extension);
    let other = all.iter().filter(|(name, script, due)| held(name, script) != *due);
    (all.len(), other.map(|(name, _, _)| name.clone()).collect())
}

/// The house cases print what document 01 makes due, but for those that a landed ticket changes.
#[test]
fn house_cases() {
    let (all, other) = scripts("../model/tests/house", "in");
    assert!(all >= 12);
    assert_eq!(other, CHANGED);
}

/// The scripts for single tickets: those of landed ones print what document 02 makes due.
#[test]
fn scripts_of_tickets() {
    let (all, other) = scripts("../model/tests/tickets", "in");
    let of_landed = |name: &&String| Ticket::ALL.iter().any(|t| landed().has(*t) && name.starts_with(&format!("{:02}-", t.number())));
    assert!(all >= 11);
    assert_eq!(other.iter().filter(of_landed).count(), 0, "{other:?}");
}

/// The examples of the README print what stands beside them, which the model makes.
#[test]
fn examples() {
    let (all, other) = scripts("../../examples", "txt");
    assert!(all >= 9);
    assert!(other.is_empty(), "{other:?}");
}

/// The stored run, to which `rt` holds the program, is the model's.
#[test]
fn stored_run() {
    let stored = |name| fs::read(Path::new(env!("CARGO_MANIFEST_DIR")).join("../../crates/step").join(name)).unwrap();
    assert!(stored("stdout") == due(&stored("stdin")));
}

/// Ticket 9: "its stored runs, with 16 for 0 in their set-ups, must print the same as before". What a script printed before, by the model with that
/// ticket not in force: the program prints the same for it with 16 for 0.
fn as_before(name: &str, script: &[u8]) -> Vec<u8> {
    let before = run_under(grammar_before_9(), script).into_bytes();
    assert!(held(name, &with_16_for_0(script)) == before, "{name}");
    before
}

/// The tournament desk's runs, stored with 0 in their set-ups and with the outputs of before. With 0 left in, two of the three print something else now.
#[test]
fn stored_runs_of_the_tournament_desk() {
    let runs = stored_scripts("../tournament", "txt");
    assert_eq!(runs.len(), 3);
    for (name, script, before) in &runs {
        assert!(as_before(name, script) == *before, "{name}: the stored output");
    }
    assert_eq!(scripts("../tournament", "txt").1, ["generated", "sixteen-lanes"]);
}

/// The same of every other script here, and of the scripts that the generator made before ticket 9. Of the examples one shows that ticket.
#[test]
fn scripts_of_before_the_smaller_limit() {
    for (folder, extension) in [("../model/tests/house", "in"), ("../model/tests/tickets", "in")] {
        stored_scripts(folder, extension).iter().for_each(|(name, script, _)| drop(as_before(name, script)));
    }
    let examples = stored_scripts("../../examples", "txt").into_iter().filter(|(name, script, due)| as_before(name, script) != *due);
    assert_eq!(examples.map(|(name, _, _)| name).collect::<Vec<_>>(), ["limit"]);
    let mut other = 0;
    for profile in profiles(grammar_before_9()) {
        for seed in SEEDS {
            let script = generate_under(grammar_before_9(), seed, LINES / 4, profile).unwrap().text;
            other += usize::from(output(&script) != as_before(profile, &script));
        }
    }
    assert!(other > 0, "no generated script tells a limit of 8 from one of 16");
}

/// Told from forms and answers alone: an open client's Write of a new cell gets 9 just where it has written as many cells as the limit says, 8 where
/// set-up was given 0. Limits 0, 8 and 16 are met, each at the last cell that it lets through and at the first that it does not.
#[test]
fn the_cell_limit() {
    let mut met = BTreeSet::new();
    for seed in SEEDS {
        let script = generate_under(grammar(), seed, LINES, "limits").unwrap().text;
        for new in new_cells(&script, &held("limits", &script)) {
            let most = if new.limit == 0 { 8 } else { new.limit as usize };
            let at_stage_0 = new.result != "(refused 7)" && new.result != "(refused 6)" && new.result != "(refused 4)";
            assert_eq!(new.result == "(refused 9)", at_stage_0 && new.written >= most, "{new:?}");
            if at_stage_0 {
                met.insert((new.limit, new.written));
            }
        }
    }
    for (limit, written) in [(0, 7), (0, 8), (8, 7), (8, 8), (16, 15), (16, 16)] {
        assert!(met.contains(&(limit, written)), "limit {limit}, {written} cells written");
    }
}

#[test]
fn every_profile_against_model_and_plain_table() {
    for profile in profiles(grammar()) {
        for seed in SEEDS {
            generated(seed, LINES, profile);
        }
    }
}

/// The largest figure of that name that a run has met.
fn largest(run: &Coverage, name: &str) -> u64 {
    let told = run.to_string();
    let figure = told.lines().find_map(|line| line.strip_suffix(&format!(" largest {name}")));
    figure.expect("a figure of the coverage").trim().parse().expect("a number")
}

/// The runs cannot silently become empty: every refusal but 12 (which has no form) and 11 (which ticket 2 has ended), every stage, every kind of
/// answer and a Done without a change occur in one of them; all 64 clients are open at once, and at once in the request queue; and someone waits for
/// more than 32.
#[test]
fn all_is_covered() {
    let runs: Vec<Coverage> = SEEDS.map(|seed| generated(seed, LINES, "all").0).collect();
    let mut gaps = runs[0].gaps();
    gaps.retain(|name| runs.iter().all(|run| run.of(name) == 0));
    assert_eq!(gaps, ["refusal 12"]);
    assert!(runs.iter().all(|run| run.of("done without a change") > 0 && run.of("refusal 11") == 0));
    let reached = |name| runs.iter().map(|run| largest(run, name)).max().expect("some runs");
    assert_eq!([reached("clients open at once"), reached("request queue")], [64, 64]);
    assert!(reached("commit queue") > 32 && reached("waiting") > 32);
}

/// Ticket 12: 64 clients, 0 to 63, and refusal 3 from 64 on. In generated runs each of them goes through all stages, waits in both queues, commits, has
/// a conflict, reads, writes and abandons; none of them gets 3, and other numbers get nothing else, or 2 before a set-up.
#[test]
fn all_64_clients() {
    let mut met = BTreeMap::<u32, BTreeSet<String>>::new();
    for profile in ["mixed", "contended", "rounds", "limits"] {
        for seed in SEEDS {
            let script = generate_under(grammar(), seed, LINES, profile).unwrap().text;
            for (client, more) in met_by_client(&script, &held(profile, &script)) {
                met.entry(client).or_default().extend(more);
            }
        }
    }
    let words = ["begin", "read", "write", "abandon", "waiting at 4", "waiting at 10", "conflict", "done"].map(String::from);
    let due: BTreeSet<String> = (1..=13).map(|stage| format!("stage {stage}")).chain(words).collect();
    for client in 0..64 {
        let missing: Vec<_> = due.difference(&met[&client]).collect();
        assert!(missing.is_empty(), "client {client}: {missing:?}");
        assert!(!met[&client].contains("refused 3"), "client {client}");
    }
    let others: Vec<_> = met.range(64..).collect();
    assert_eq!(*others[0].0, 64);
    assert!(others.iter().all(|(_, what)| what.iter().filter(|answer| *answer != "refused 2").eq(["refused 3"])), "{others:?}");
}

#[test]
fn odd_inputs() {
    let long = [b'x'; 200_000];
    let inputs: [&[u8]; 12] = [
        b"",
        b"\n",
        b"(free)",
        b"(free)\n(free)",
        b"(free)\r\n",
        b"(free) \n",
        b"(free\0)\n",
        b"\t(free)\n",
        b"(begin 4294967296)\n(begin 01)\n(begin 4294967295)\n",
        b"(write 0 7 000102030405060708090A0B0C0D0E0F)\n",
        b"\xff\xfe(free)\n\n\n(trim)",
        &long,
    ];
    for input in inputs {
        assert_eq!(output(input), due(input));
    }
}

#[test]
fn input_in_small_pieces() {
    let script = generate_under(grammar(), 5, 2_000, "all").unwrap().text;
    let wanted = due(&script);
    for piece in [1, 7, 80, 81, 82, 4096] {
        assert_eq!(output_in_pieces(&script, piece), wanted, "{piece}");
    }
}
