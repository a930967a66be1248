#!/usr/bin/env bash
# All tests, in one pass: the proofs, the must-fail edits and the stored run of the program (`rt ci`); then, on the program that this pass has built
# and on the library, the library for C, its random calls, and the Rust tests. The last line is the sum of all, 'N passed, M failed'.
set -u
cd "$(dirname "$0")/.."
said=$(mktemp)
trap 'rm -f "$said"' EXIT
bad=0
run() {
    "$@" 2>&1 | tee -a "$said"
    [ "${PIPESTATUS[0]}" -eq 0 ] || bad=1
}
# rt ci passes a must-fail edit that could not be tried; here it fails. It says so in its line 'rt: ok; ..; must-fail edits: N refused, M bad; ..'.
edits() {
    local ok there refused bad
    ok=$(grep '^rt: ok;' "$said") || return 0 # (then rt ci itself has failed)
    there=$(find crates/*/must-fail -type f ! -name '*.md' | wc -l)
    refused=$(sed -n 's/.*; must-fail edits: \([0-9]*\) refused.*/\1/p' <<<"$ok")
    bad=$(sed -n 's/.*; must-fail edits: [^;]*, \([0-9]*\) bad\(;.*\)\{0,1\}$/\1/p' <<<"$ok")
    if [ "${bad:-0}" -gt 0 ] || [ "${refused:-0}" -ne "$there" ]; then
        echo "FAILED: of $there must-fail edits ${refused:-0} were refused; bad: ${bad:-0}"
        echo "0 passed, $((there - ${refused:-0})) failed"
        return 1
    fi
}
# the very program that rt ci has proved, built and run
program() {
    rm -f target/bin/step
    mkdir -p target/bin
    cp crates/step/out/step target/bin/step
}
run rt ci
run edits
run program
run make --no-print-directory lib
run tests/c.sh
run tests/fuzz/run.sh
# what two of the parts use is built once
export CARGO_TARGET_DIR="$PWD/target/cargo"
for part in tests/model tests/runs tests/library tools/lanes; do
    run cargo --quiet test --offline --manifest-path "$part/Cargo.toml"
done
# the last lines of rt ci and of the scripts are 'N passed, M failed', cargo's 'test result: ok. N passed; M failed; ...'
awk -v bad="$bad" '
    match($0, /[0-9]+ passed[,;] [0-9]+ failed/) {
        split(substr($0, RSTART, RLENGTH), part, " ")
        passed += part[1]; failed += part[3]
    }
    END {
        if (bad && !failed) failed = 1
        printf "%d passed, %d failed\n", passed, failed
        exit bad || failed || !passed
    }' "$said"
