#!/usr/bin/env bash
# The library for C, on the archive that is there: the header by itself in C99, C11 and C++, the examples compiled with
# every warning an error, run and compared, and an installation that a program is built against. The last line is
# 'N passed, M failed'.
set -u
cd "$(dirname "$0")/.."
out=target/c
warn="-Wall -Wextra -pedantic -Wconversion -Werror"
cc=${CC:-cc}
cxx=${CXX:-c++}
passed=0
failed=0
rm -rf "$out"
mkdir -p "$out"

# check NAME COMMAND..: one test
check() {
    local name=$1
    shift
    if "$@" >"$out/said" 2>&1; then
        passed=$((passed + 1))
        echo "ok: $name"
    else
        failed=$((failed + 1))
        echo "FAILED: $name"
        cat "$out/said"
    fi
}

echo '#include "wellcherry.h"' >"$out/alone.c"
cp "$out/alone.c" "$out/alone.cc"
for standard in c99 c11; do
    # shellcheck disable=SC2086
    check "the header in $standard" "$cc" -std=$standard $warn -Ic -fsyntax-only "$out/alone.c"
done
if command -v "$cxx" >/dev/null; then
    # shellcheck disable=SC2086
    check "the header in C++" "$cxx" -std=c++11 $warn -Ic -fsyntax-only "$out/alone.cc"
fi

# example NAME FLAGS..: compiled, run, and what it prints compared
example() {
    local name=$1
    shift
    # shellcheck disable=SC2086
    "$cc" -std=c99 -O2 $warn "examples/c/$name.c" "$@" -o "$out/$name" &&
        "$out/$name" >"$out/$name.out" && cmp "examples/c/$name.out" "$out/$name.out"
}
for source in examples/c/*.c; do
    name=$(basename "$source" .c)
    check "examples/c/$name.c" example "$name" -Ic target/staticlib/libwellcherry.a
done

installed=$PWD/$out/installed
check "make install" make --no-print-directory install PREFIX="$installed"
check "the installed files" diff <(cd "$installed" && find . -type f | sort) <(printf '%s\n' \
    ./include/wellcherry.h ./lib/libwellcherry.a ./lib/pkgconfig/wellcherry.pc)
if command -v pkg-config >/dev/null; then
    # shellcheck disable=SC2046
    check "a program by pkg-config" example counting \
        $(PKG_CONFIG_PATH="$installed/lib/pkgconfig" pkg-config --cflags --libs wellcherry)
else
    check "a program against the installation" example counting -I"$installed/include" -L"$installed/lib" -lwellcherry
fi
echo "$passed passed, $failed failed"
[ "$failed" -eq 0 ]
