#!/bin/sh
# run.sh [--sanitize] [CALLS [SEED]]: three programs on target/staticlib/libwellcherry.a. fuzz makes CALLS random
# calls; differ makes a tenth of them on the library and on the hand-written store; stack measures the stack that each
# call takes. --sanitize builds fuzz with the address and undefined-behaviour sanitizers. The last line is
# 'N passed, M failed', one for each program.
set -eu
cd "$(dirname "$0")/../.."
sanitizers=
if [ "${1:-}" = --sanitize ]; then
    sanitizers='-g -fsanitize=address,undefined -fno-sanitize-recover=all'
    shift
fi
calls=${1:-10000000}
seed=${2:-7}
archive=target/staticlib/libwellcherry.a
out=target/fuzz
mkdir -p "$out"

compile() { # PROGRAM FLAG..
    program=$1
    shift
    cc -std=c99 -O2 -Wall -Wextra -pedantic -Wconversion -Werror -Ic "$@" -o "$out/$program" \
        "tests/fuzz/$program.c" "$archive"
}
compile fuzz $sanitizers
# names are bound before the run, so that the stack of the dynamic linker is not counted
compile stack -Wl,-z,now
# the hand-written store with the tickets that have landed
cargo build --quiet --offline --manifest-path tests/fuzz/Cargo.toml --target-dir "$out" \
    --features "$(sed 's/[0-9][0-9]*/baseline\/t&/g' tests/tickets)"

passed=0
failed=0
run() {
    if "$@"; then passed=$((passed + 1)); else failed=$((failed + 1)); fi
}
run "$out/fuzz" "$calls" "$seed"
run "$out/debug/differ" $((calls / 10)) "$seed"
run "$out/stack" 200000 "$seed"
echo "$passed passed, $failed failed"
[ "$failed" -eq 0 ]
