//! `differ CALLS [SEED]`: the library against the hand-written store of bench/baseline, each
//! on its own copy of one house. Half of the houses grow from their set-up, the others are
//! damaged time and again. After each call the answers are compared, all fields of the
//! record, every entry of the version table and every byte of both buffers.

mod call;
mod chance;
mod house;
mod met;
mod scene;

use chance::Chance;
use met::Met;
use scene::Scene;
use std::process::ExitCode;

/// From so many calls on, each outcome must have been met.
const LONG_RUN: u64 = 100_000;

fn run(calls: u64, seed: u64, met: &mut Met) -> Result<(), String> {
    let mut chance = Chance::new(seed);
    let mut scene: Option<Scene> = None;
    for at in 1..=calls {
        let made = match scene.as_mut().filter(|scene| !scene.is_over()) {
            Some(scene) => scene.next(&mut chance, met),
            None => scene.insert(Scene::new(&mut chance)).set_up(&mut chance, met),
        };
        made.map_err(|what| format!("FAULT at call {at}: {what}"))?;
    }
    Ok(())
}

fn main() -> ExitCode {
    let words: Vec<String> = std::env::args().skip(1).collect();
    let number = |at: usize, otherwise: u64| {
        words.get(at).map_or(otherwise, |word| word.parse().expect("a number"))
    };
    let (calls, seed) = (number(0, LONG_RUN), number(1, 1));
    let mut met = Met::default();
    let mut faults = 0;
    if let Err(what) = run(calls, seed, &mut met) {
        println!("{what}");
        faults = 1;
    }
    let missing = met.print();
    println!("with the known difference of Begin: {}", met.excepted);
    if faults == 0 && calls >= LONG_RUN && missing > 0 {
        println!("FAULT: {missing} outcomes were never met");
        faults = missing;
    }
    println!("differ: {} calls, {faults} faults, seed {seed}", met.total());
    if faults == 0 {
        ExitCode::SUCCESS
    } else {
        ExitCode::FAILURE
    }
}
