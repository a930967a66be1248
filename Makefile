# Two commands on a machine that has the toolchain, cargo, cc and make:
#   make run    proves and builds everything, then runs the step program on an example
#   make test   runs all tests; its last line is 'N passed, 0 failed'
# Further:
#   make build                    proves everything and builds the step program, target/bin/step
#   make lib                      proves and builds the library for C, target/staticlib/libwellcherry.a
#   make install PREFIX=..        installs it, with c/wellcherry.h and a pkg-config file
#   make picture SCRIPT=..        who waits for whom in a script, as target/NAME.svg
#   make fuzz CALLS=..            random calls on damaged records and bytes, under sanitizers
#   make soak LINES=.. SEEDS=..   longer generated runs against the model
#   make waits                    the longest waits seen, as the tables of docs/WAITING.md show them
#   make bench                    instructions and times against hand-written Rust (needs valgrind)
#   make peers                    the same work on SQLite and LMDB, where their packages are installed
#   make outputs                  what the model prints for the examples and for the stored runs, written anew beside them
# tests/tickets lists the tickets of document 02 that have landed: tests, benchmark and stored outputs go by it.
EXAMPLE ?= examples/first.txt
SCRIPT ?= examples/hang.txt
PREFIX ?= /usr/local
CALLS ?= 10000000
LINES ?= 400000
SEEDS ?= 8
# how many crates are proved at a time
JOBS ?= $(shell nproc)
SOURCES = crates.txt $(shell find crates -name out -prune -o \( -name '*.rt' -o -name '*.antt' \) -print)
CARGO = cargo --quiet
TICKETS = $(shell cat tests/tickets)
# the landed tickets but 9: the tournament desk's stored runs are those of before it
BEFORE_9 = $(shell tr , '\n' <tests/tickets | grep -vx 9 | paste -sd, -)

.PHONY: run test build lib install picture fuzz soak waits bench peers outputs

run: build
	target/bin/step <$(EXAMPLE)

test:
	tests/all.sh

build: target/bin/step

lib: target/staticlib/libwellcherry.a

# rt proves again what has changed since, and leaves what it builds in the crate's out/. It builds a program to run it: here on no input.
target/bin/step: $(SOURCES)
	rt all check --jobs $(JOBS)
	cd crates/step && rt run </dev/null
	mkdir -p $(@D)
	cp crates/step/out/step $@

# the crate and those below it alone
target/staticlib/libwellcherry.a: $(SOURCES)
	cd crates/wellcherry && rt all check --jobs $(JOBS) && rt lib
	mkdir -p $(@D)
	cp crates/wellcherry/out/libwellcherry.a $@

VERSION = $(shell sed -n 's/.define WELLCHERRY_VERSION "\(.*\)"/\1/p' c/wellcherry.h)

install: lib
	mkdir -p $(DESTDIR)$(PREFIX)/include $(DESTDIR)$(PREFIX)/lib/pkgconfig
	cp c/wellcherry.h $(DESTDIR)$(PREFIX)/include/
	cp target/staticlib/libwellcherry.a $(DESTDIR)$(PREFIX)/lib/
	sed 's|@PREFIX@|$(PREFIX)|; s|@VERSION@|$(VERSION)|' c/wellcherry.pc.in >$(DESTDIR)$(PREFIX)/lib/pkgconfig/wellcherry.pc

picture: lib
	$(CARGO) run --release --offline --manifest-path tools/lanes/Cargo.toml -- $(SCRIPT) >target/$(basename $(notdir $(SCRIPT))).svg
	@echo target/$(basename $(notdir $(SCRIPT))).svg

fuzz: lib
	tests/fuzz/run.sh --sanitize $(CALLS)

soak: build
	$(CARGO) run --release --offline --manifest-path tests/runs/Cargo.toml --bin soak -- $(LINES) $(SEEDS)

waits: build
	$(CARGO) run --release --offline --manifest-path tests/runs/Cargo.toml --bin waits

bench: build
	tests/bench.sh

peers:
	@if pkg-config --exists sqlite3 && [ -e /usr/include/lmdb.h ]; then \
	$(MAKE) --no-print-directory lib && bench/peers.sh --tickets $(TICKETS); \
	else echo "SQLite's or LMDB's development package is not installed: nothing to compare with."; fi

outputs:
	$(CARGO) build --release --offline --manifest-path tests/model/Cargo.toml
	for input in examples/*.txt; do tests/model/target/release/model-step --tickets $(TICKETS) <$$input >$${input%.txt}.out; done
	tests/model/target/release/model-step --tickets $(TICKETS) <crates/step/stdin >crates/step/stdout
	for input in tests/tournament/*.txt; do tests/model/target/release/model-step --tickets $(BEFORE_9) <$$input >$${input%.txt}.out; done
