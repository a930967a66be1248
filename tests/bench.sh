#!/usr/bin/env bash
# Instructions for each call of the step program against the hand-written one, more than a bad line takes and in all, and the times of the step
# program, the hand-written one and the model on the generator's profiles in one run, as ratios. All with the tickets in force that tests/tickets lists.
set -eu
cd "$(dirname "$0")/.."
here=$PWD/bench
set -- --tickets "$(cat tests/tickets)"
. bench/tickets.sh # sets `tickets`, and `dir`, where its programs are built
bench/stepcost.sh --tickets "$tickets" --absolute target/bin/step

cargo build --quiet --release --offline --manifest-path tests/model/Cargo.toml
model=tests/model/target/release
work=$(mktemp -d)
trap 'rm -rf "$work"' EXIT
echo
echo "| profile, 400,000 lines | step / hand-written | model / hand-written |"
echo "|---|---:|---:|"
least() { # BEST PROGRAM ARGUMENT..: the user time of a run on the script, or BEST if that is less
    local best=$1 TIMEFORMAT=%U t
    shift
    t=$({ time "$@" <"$work/script" >/dev/null; } 2>&1)
    awk -v a="$best" -v b="$t" 'BEGIN { print (b < a) ? b : a }'
}
for profile in mixed contended single reads limits garbage all; do
    "$model/model-gen" 1 400000 "$profile" --tickets "$tickets" >"$work/script"
    target/bin/step <"$work/script" >"$work/ours"
    "$dir/release/baseline-step" <"$work/script" >"$work/theirs"
    cmp "$work/ours" "$work/theirs"
    hand=999 ours=999 other=999
    for _ in {1..15}; do # by turns, so that what else the machine does falls on all three
        hand=$(least "$hand" "$dir/release/baseline-step")
        ours=$(least "$ours" target/bin/step)
        other=$(least "$other" "$model/model-step" --tickets "$tickets")
    done
    awk -v p="$profile" -v h="$hand" -v o="$ours" -v m="$other" 'BEGIN { printf "| %s | %.2f | %.2f |\n", p, o / h, m / h }'
done
