//! `soak LINES SEEDS`: every profile of the generator, that many seeds of that many lines each; then an input of more than a million reads.

use model::check::check_under;
use model::gen::{generate_under, profiles};
use runs::{generated, grammar, output_in_turns};

/// A generated script of more than a million lines, each handed over when the one before it is answered, is answered whole.
fn many_reads() {
    let script = generate_under(grammar(), 1, 1_050_000, profiles(grammar())[0]).expect("a profile of the generator").text;
    let report = check_under(grammar(), &script, &output_in_turns(&script));
    assert!(report.good(), "an input of many reads");
    println!("{} lines, each read by itself: no difference", report.lines);
}

fn main() {
    let words: Vec<String> = std::env::args().skip(1).collect();
    let number = |at: usize, otherwise: u64| words.get(at).map_or(otherwise, |w| w.parse().expect("a number"));
    let (lines, seeds) = (number(0, 200_000), number(1, 5));
    let (mut total, mut longest) = (0, (0, 0));
    for seed in 1..=seeds {
        for profile in profiles(grammar()) {
            longest = longest.max(generated(seed, lines as usize, profile).1);
            total += lines;
        }
        println!("seed {seed}: {total} lines, no difference; longest wait {} rounds, limit {}", longest.0, longest.1);
    }
    many_reads();
}
