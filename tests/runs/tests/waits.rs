//! Document 02, 8: nobody waits for ever. The limit is held in every run of these tests (`runs::reported`); here it is met with schedules made for it.

use model::check::check_under;
use runs::waits::{chained, tables};
use runs::{grammar, output, reported};
use std::fs;

/// The page for lane owners shows what is measured.
#[test]
fn the_longest_waits() {
    let page = fs::read_to_string(concat!(env!("CARGO_MANIFEST_DIR"), "/../../docs/WAITING.md")).unwrap();
    let (chains, profiles) = tables();
    println!("{chains}\n{profiles}");
    for table in [chains, profiles] {
        assert!(page.contains(&table), "docs/WAITING.md does not show\n{table}");
    }
}

/// The count of rounds can say no: thirty-six rounds are the limit for one client, which is at stage 4 after three and then looks in vain, or so a
/// wrong store prints.
#[test]
fn a_wait_over_the_limit_is_found() {
    let judged = |looks: usize| {
        let script = ["(set-up 4 1 0)", "(begin 0)", "(write 0 7 000102030405060708090a0b0c0d0e0f)"].join("\n") + &"\n(advance 0)".repeat(4 + looks);
        let printed = String::from_utf8(output(script.as_bytes())).unwrap();
        let before: Vec<&str> = printed.lines().take(7).collect();
        let waits = before.join("\n") + &"\n(advance 0 (waiting 1))".repeat(looks);
        check_under(grammar(), script.as_bytes(), waits.as_bytes()).plain
    };
    let found = judged(33).expect("thirty-six rounds");
    assert_eq!((found.line, found.text.as_str()), (40, "client 0 is open after 36 rounds of 36"));
    assert_eq!(judged(32), None);
}

/// A chain of all clients keeps the last one waiting for more than half of n × n rounds.
#[test]
fn chains_are_long() {
    for clients in [8, 16, 32, 64] {
        let longest = reported("chained", &chained(clients)).1.longest_wait;
        assert!(longest.0 > u64::from(clients * clients / 2), "{clients}: {longest:?}");
    }
}
