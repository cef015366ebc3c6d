# The two commands of README.md are `make test` and `make run`; the others show the library from outside.
.PHONY: help test emulated hearing live run picture week archive program command build host relay rust install uninstall installed readme dist deb packaged release oracle compare refused wrong bench speed

# The archive and the programs are x86-64 code. On another processor what is linked with them is compiled for it, and emulated.
ifeq ($(shell uname -m),x86_64)
NM = nm
RUST = rustc
RUSTDOC = rustdoc
ORACLE_AND_ARCHIVE = $(ORACLE)
else
CC = x86_64-linux-gnu-gcc
CXX = x86_64-linux-gnu-g++
AR = x86_64-linux-gnu-ar
NM = x86_64-linux-gnu-nm
RUST = /usr/bin/rustc --target x86_64-unknown-linux-gnu -C linker=$(CC)
RUSTDOC = /usr/bin/rustdoc --target x86_64-unknown-linux-gnu -C linker=$(CC)
ORACLE_AND_ARCHIVE = target/oracle/oracle-and-archive
endif
CFLAGS = -std=c11 -Wall -Wextra -Wpedantic -Werror -O2 -Iinclude
# The archive as hosts link it, what of it is proved, and the crates whose archives are joined in that: those that crates.txt marks.
ARCHIVE = target/lib/liblumbixet.a
PROVED = target/lib/proved.a
EXPORTS = $(shell sed -n 's/^\([a-z0-9_]*\) staticlib:.*/\1/p' crates.txt)
SOURCES = crates.txt $(shell find crates -name out -prune -o \( -name '*.rt' -o -name '*.antt' \) -print)
ORACLE = target/oracle/oracle
# The command of the technical desk.
COMMAND = target/command/lumbixet
RUSTC = $(RUST) --edition 2021 -L target/lib

# How many inputs `make compare` makes for the replay program, how many files for the week's, and how many rounds of calls for the archive.
INPUTS = 1700
WEEKS = 1800
ROUNDS = 2000

# How often `make bench` goes over its rows, and how many bytes its week has.
PASSES = 20
WEEK = 1000000000

# Where `make install` puts the library, and a folder to stage it under.
PREFIX = /usr/local
DESTDIR =

help:
	@echo 'make test     the gate: documents, every proof, every must-fail edit, every program, examples, comparisons'
	@echo 'make run      prove the replay program and replay the bundled hearing: index, result and cause of each record'
	@echo 'make picture  draw the bundled hearing and its answers as examples/hearing.svg, the bundled week as examples/week.svg, and the reports on a hearing'\''s objects as examples/objects.svg'
	@echo "make week     prove the week's program and print the page of the bundled week"
	@echo 'make host     prove and build the archive for hosts in C, hold the headers to it, and run the examples in C'
	@echo 'make relay    two thousand rooms in one process, each with its own record that the calls update: counts, acknowledgments by cause, times'
	@echo 'make hearing  simulate a hearing twelve times, with the library as receiver and with the receiver of the complaint: a table'
	@echo 'make live     Lumbixet in a real QUIC stack, quinn-proto, fetched from Debian'\''s packages: connections in virtual time, and over UDP'
	@echo 'make rust     build the crate for hosts in Rust (bindings/rust) and run its tests'
	@echo 'make command  build the command of the technical desk, target/command/lumbixet'
	@echo 'make build    prove and build what is installed: the archive, the two programs and the command'
	@echo 'make install  put them in their places, with header, pkg-config file and manual pages: PREFIX=/usr/local DESTDIR='
	@echo 'make uninstall  take them out again'
	@echo 'make dist     pack what a host needs without the kit: target/dist/lumbixet-VERSION-x86_64-linux.tar.xz, with its checksums'
	@echo "make deb      the same as Debian's packages: library, headers and archive, command"
	@echo 'make release  make the page that is signed for a release, target/dist/RELEASE.md, behind make test'
	@echo 'make packaged  try both in an empty folder without the kit: C by pkg-config and CMake, C++, Rust by cargo, Python'
	@echo 'make installed  try that under target/: two examples are built from there as a host does, and nothing is left'
	@echo 'make readme   run the code and the commands of README.md as they are written there'
	@echo 'make compare  compare the programs and the archive with a second implementation that was written from the papers'
	@echo 'make refused  try each must-fail edit and hold what the check says of it to what the edit changes'
	@echo 'make wrong    run each wrong answer that the gate tries: it must answer something else than the second implementation, and each harmless change the same'
	@echo 'make bench    compare the archive with plain C and time both, and the replay program beside the second implementation; no time is judged'
	@echo 'make speed    the same, and write the table of docs/SPEED.md from a run'

test:
	@.ci/run

# Nothing on x86-64.
emulated:
	@tools/emulate

run: emulated
	@echo 'Proving the replay program and what it stands on. The first time this takes some minutes.'
	@tools/prove replay
	@echo
	@echo 'Replaying examples/hearing.trace: index, result (0 accepted, else the refusal), cause (0 nothing is due).'
	@echo
	@target/bin/replay < examples/hearing.trace
	@echo
	@echo 'That was the bundled hearing, a line for each record. It is drawn in examples/hearing.svg; README.md says what to read on.'

picture: emulated command $(HEARING)
	@$(COMMAND) replay --picture examples/hearing.svg examples/hearing.trace > target/hearing.lines
	@$(COMMAND) week --picture examples/week.svg examples/week.reports > target/week.lines
	@$(COMMAND) objects --first 500 --picture examples/objects.svg examples/objects.expected > target/objects.lines
	@$(HEARING) picture > target/hearing/picture.svg
	@mv target/hearing/picture.svg hearing/picture.svg
	@echo 'picture: examples/hearing.svg, examples/week.svg, examples/objects.svg and hearing/picture.svg'

week: emulated
	@tools/prove week
	@echo
	@echo 'The page of examples/week.reports:'
	@echo
	@target/bin/week < examples/week.reports

archive: $(ARCHIVE)

# It is built only where a source is newer.
$(PROVED): $(SOURCES) Makefile
	@[ -n '$(EXPORTS)' ] || { echo 'archive: crates.txt marks no crate as a static library'; exit 1; }
	@tools/prove $(EXPORTS)
	@mkdir -p target/lib
	@rm -f $@ target/lib/joined.a
	@{ echo create target/lib/joined.a; for crate in $(EXPORTS); do echo addlib target/staticlib/lib$$crate.a; done; echo save; echo end; } | $(AR) -M
	@mv target/lib/joined.a $@

# With the version and the texts, which are C. Each name in it is one of the library's, and stands there once; of the host it asks for memcpy
# and memset alone, as lumbixet.h says.
$(ARCHIVE): $(PROVED) archive/symbols.c $(wildcard include/*.h)
	@$(CC) $(CFLAGS) -fPIC -c archive/symbols.c -o target/lib/symbols.o
	@cp $(PROVED) target/lib/joined.a
	@$(AR) qD target/lib/joined.a target/lib/symbols.o
	@$(NM) -g --defined-only target/lib/joined.a | awk 'NF == 3 && ($$3 !~ /^lumbixet_/ || names[$$3]++) { print "archive: " $$3; bad = 1 } END { exit bad || NR == 0 }'
	@$(NM) -u target/lib/joined.a | awk '$$1 == "U" && $$2 !~ /^(memcpy|memset)$$/ { print "archive: it asks the host for " $$2; bad = 1 } END { exit bad }'
	@mv target/lib/joined.a $@

# The same as a shared library, which exports the library's own names alone.
SHARED = target/lib/liblumbixet.so.$(shell tools/so-version)
$(SHARED): $(ARCHIVE) archive/exports.map
	@$(CC) -shared -o $@ -Wl,--whole-archive $(ARCHIVE) -Wl,--no-whole-archive -Wl,--version-script=archive/exports.map \
	    -Wl,-soname,$(@F) -Wl,-z,defs,-z,relro,-z,now,--build-id=none

# The manual pages of section 3, from the headers.
MANUAL = target/man/lumbixet.3
$(MANUAL): tools/make-man3 $(wildcard include/*.h)
	@rm -rf target/man
	@tools/make-man3 target/man

# The programs, proved where a source is newer than they are.
PROGRAMS = target/bin/replay target/bin/week
program: $(PROGRAMS)

$(PROGRAMS): $(SOURCES)
	@tools/prove $(@F)

# The command, by rustc alone as the crate is. It is built whole, so that the crate's calls are in line.
command: emulated $(COMMAND)

$(COMMAND): $(ARCHIVE) include/lumbixet.h $(wildcard command/src/*.rs bindings/rust/src/*.rs)
	@mkdir -p target/command
	@$(RUSTC) -O --crate-type rlib --crate-name lumbixet -o target/command/liblumbixet.rlib bindings/rust/src/lib.rs
	@$(RUSTC) -C opt-level=3 -C codegen-units=1 -C lto -C panic=abort --crate-name lumbixet_command \
	    --extern lumbixet=target/command/liblumbixet.rlib -o $@ command/src/main.rs

build: archive $(SHARED) program command $(MANUAL)

# What is handed out: an archive for every Linux, Debian's packages, and both tried as a host would without the kit.
dist: emulated build
	@tools/package tar

deb: emulated build
	@tools/package deb

packaged: dist deb
	@tools/check-packages

# The page that is signed, behind the gate's own line.
release: dist deb
	@tools/release-page

# Neither proves nor builds: whoever may write to PREFIX need not have the toolchain.
install:
	@tools/install '$(PREFIX)' '$(DESTDIR)'

uninstall:
	@tools/install --remove '$(PREFIX)' '$(DESTDIR)'

# Programs that hold the headers to the archive: each asserts, reads back, and says so in a line.
HELD = $(patsubst tests/c/%.c,target/tests/%,$(wildcard tests/c/*.c))
target/tests/%: tests/c/%.c tests/c/same.h $(ARCHIVE)
	@mkdir -p target/tests
	@$(CC) $(CFLAGS) $< $(ARCHIVE) -o $@

# What is installed, as a host finds it.
installed: build
	@CC='$(CC)' tools/check-install

# What README.md shows, as it is written there.
readme: emulated build
	@CC='$(CC)' RUST='$(RUST)' tools/run-readme

host: emulated archive $(HELD)
	@mkdir -p target/host
	@echo
	@set -e; for held in $(HELD); do $$held; done
	@CC='$(CC)' tools/check-version
	@if command -v $(CXX) >/dev/null; then \
	    (cd include && printf '#include "%s"\n' lumbixet_lent.h *.h) | $(CXX) -std=c++11 -Wall -Wextra -Wpedantic -Werror -Iinclude -fsyntax-only -x c++ -; fi
	@set -e; for page in DRIVING TRACKING SENDING STREAMS; do \
	    sed -n '/^```c$$/,/^```$$/p' docs/hosts/$$page.md | sed '/^```/d' | \
	        $(CC) $(CFLAGS) -Wno-unused-function -include tests/c/driving.h -fsyntax-only -x c -; \
	done
	@$(CC) $(CFLAGS) examples/room.c $(ARCHIVE) -o target/host/room
	@target/host/room >target/host/room.out
	@diff examples/room.expected target/host/room.out
	@echo 'room: it printed what examples/room.expected says'
	@$(CC) $(CFLAGS) examples/objects.c $(ARCHIVE) -o target/host/objects
	@target/host/objects | diff examples/objects.expected -
	@sed -n '/^```strip$$/,/^```$$/p' docs/hosts/TRACKING.md | sed '/^```/d' | diff examples/objects.expected -
	@echo 'objects: it printed what examples/objects.expected says, and docs/hosts/TRACKING.md says the same'
	@$(CC) $(CFLAGS) examples/capture.c $(ARCHIVE) -o target/host/capture
	@target/host/capture | diff examples/capture.expected -
	@sed '/^$$/,$$d' examples/capture.expected >target/host/capture.table
	@sed -n '/^```table$$/,/^```$$/p' docs/hosts/SENDING.md | sed '/^```/d' | diff target/host/capture.table -
	@echo 'capture: it printed what examples/capture.expected says, and docs/hosts/SENDING.md has its first table'
	@$(CC) $(CFLAGS) examples/uncut.c $(ARCHIVE) -o target/host/uncut
	@target/host/uncut | diff examples/uncut.expected -
	@echo 'uncut: it printed what examples/uncut.expected says'
	@$(CC) $(CFLAGS) examples/relay.c $(ARCHIVE) -o target/host/relay
	@target/host/relay >target/host/relay.out
	@sed '/^Nanoseconds/,$$d' target/host/relay.out | diff examples/relay.expected -
	@echo 'relay: before its times it printed what examples/relay.expected says'
	@echo
	@cat target/host/room.out

# It shows how far it is where standard error is a terminal.
relay: emulated archive
	@mkdir -p target/host
	@$(CC) $(CFLAGS) examples/relay.c $(ARCHIVE) -o target/host/relay
	@target/host/relay

# The crate for hosts in Rust and its tests, by rustc alone, which needs no network and no registry.
rust: emulated archive
	@mkdir -p target/rust/std
	@$(RUSTC) -O --crate-type rlib --crate-name lumbixet -o target/rust/liblumbixet.rlib bindings/rust/src/lib.rs
	@$(RUSTC) --crate-type rlib --crate-name lumbixet --cfg 'feature="std"' -o target/rust/std/liblumbixet.rlib bindings/rust/src/lib.rs
	@set -e; for test in room edges objects rooms profiles pieces week sending errors; do \
	    $(RUSTC) --test --extern lumbixet=target/rust/std/liblumbixet.rlib -o target/rust/$$test bindings/rust/tests/$$test.rs; \
	    target/rust/$$test -q; \
	done
	@if command -v $(firstword $(RUSTDOC)) >/dev/null; then \
	    $(RUSTDOC) --edition 2021 -L target/lib --extern lumbixet=target/rust/liblumbixet.rlib --crate-name lumbixet --test bindings/rust/src/lib.rs; fi
	@$(RUSTC) -o target/rust/build bindings/rust/build.rs
	@CARGO_MANIFEST_DIR=bindings/rust TARGET=x86_64-unknown-linux-gnu target/rust/build | grep -q '^cargo:rustc-link-search=native=bindings/rust/../../target/lib$$'
	@if TARGET=aarch64-unknown-linux-gnu target/rust/build >/dev/null 2>target/rust/said; then echo 'rust: the build script takes another machine'; exit 1; fi
	@grep -q 'is x86-64 code for Linux, and the target is aarch64' target/rust/said
	@echo "rust: the crate told the room's story, and its build script finds the archive and refuses another machine"

# The simulated hearing, over the crate; its table is the same in every run.
HEARING = target/hearing/lumbixet-hearing
$(HEARING): $(ARCHIVE) $(wildcard hearing/src/*.rs bindings/rust/src/*.rs)
	@mkdir -p target/hearing
	@$(RUSTC) -O --crate-type rlib --crate-name lumbixet -o target/hearing/liblumbixet.rlib bindings/rust/src/lib.rs
	@$(RUSTC) -O -D warnings --extern lumbixet=target/hearing/liblumbixet.rlib -o $@ hearing/src/main.rs

hearing: emulated $(HEARING)
	@$(HEARING)

# The archive in a real QUIC stack, which is fetched; where it cannot be had, a line says so.
live: archive
	@hosts/quinn/run

# The second implementation, linked with the archive; where that is emulated, also without it.
ORACLE_SOURCES = $(wildcard oracle/*.rs bindings/rust/src/raw*.rs)
oracle: build $(ORACLE_AND_ARCHIVE) $(ORACLE)
	@echo

$(ORACLE_AND_ARCHIVE): $(ARCHIVE) $(ORACLE_SOURCES)
	@mkdir -p target/oracle
	@$(RUSTC) -O --cfg archive -o $@ oracle/main.rs

ifneq ($(ORACLE),$(ORACLE_AND_ARCHIVE))
$(ORACLE): $(ORACLE_SOURCES)
	@mkdir -p target/oracle
	@rustc -O --edition 2021 -o $@ oracle/main.rs
endif

compare: oracle
	@echo 'The examples of document 01 and RFC 9000, by the second implementation'
	@$(ORACLE) examples
	@echo
	@echo 'The replay program and the second implementation'
	@$(ORACLE) compare-replay target/bin/replay $(INPUTS)
	@echo
	@echo 'The command, over the same inputs'
	@# made-up inputs look like no hearing, and the command says so of each
	@$(ORACLE) compare-replay '$(COMMAND) replay' $(INPUTS) 2>target/oracle/said || { cat target/oracle/said; exit 1; }
	@echo
	@echo "The week's program and the second implementation, in 64 KiB of stack"
	@tools/in-stack 64 target/bin/week < crates/week/stdin | cmp - crates/week/stdout
	@$(ORACLE) compare-week target/bin/week $(WEEKS)
	@echo
	@echo 'The command, over the same files'
	@$(ORACLE) compare-week '$(COMMAND) week' $(WEEKS)
	@echo
	@echo 'The archive and the second implementation'
	@$(ORACLE_AND_ARCHIVE) compare-archive $(ROUNDS)
	@echo
	@echo 'The relay of two thousand rooms, by the second implementation'
	@$(ORACLE) relay | cmp - examples/relay.expected
	@echo 'relay: examples/relay.expected is what it prints'

# Each must-fail edit is tried once more, so that all that the check says of it is kept; where nothing is kept of a crate it is proved first.
refused:
	@tools/try-edits
	@tools/check-edits --refused

# The crates are built without a proof here, each time with one edit. On another processor the compilers are those for x86-64.
wrong: emulated
	@RUST='$(RUST)' tools/run-wrong $(WRONG)
	@RUST='$(RUST)' tools/test-wrong

bench: oracle
	@mkdir -p target/bench
	@$(CC) $(CFLAGS) bench/*.c $(ARCHIVE) -o target/bench/bench
	@[ '$(ORACLE)' = '$(ORACLE_AND_ARCHIVE)' ] || echo 'x86-64 is emulated here: the answers are compared, the times say nothing'
	@target/bench/bench $(PASSES) > target/bench/table.txt || { cat target/bench/table.txt; exit 1; }
	@cat target/bench/table.txt
	@$(ORACLE) trace-large > target/bench/large.trace
	@echo
	@echo 'A trace of a million records, 24 MB: the replay program, then the second implementation'
	@bash -c 'TIMEFORMAT="replay  %R s"; time target/bin/replay < target/bench/large.trace > target/bench/replay.lines'
	@bash -c 'TIMEFORMAT="oracle  %R s"; time $(ORACLE) replay < target/bench/large.trace > target/bench/oracle.lines'
	@cmp target/bench/replay.lines target/bench/oracle.lines
	@bench/replay-times target/bench/large.trace $(PASSES)
	@echo
	@echo 'A week of $(WEEK) bytes, made and not stored: the program, the second implementation, and the making alone'
	@bash -c 'TIMEFORMAT="week    %R s"; time $(ORACLE) week-large $(WEEK) | target/bin/week > target/bench/week.lines'
	@bash -c 'TIMEFORMAT="oracle  %R s"; time $(ORACLE) week-large $(WEEK) | $(ORACLE) week > target/bench/week-oracle.lines'
	@bash -c 'TIMEFORMAT="making  %R s"; time $(ORACLE) week-large $(WEEK) | cat > /dev/null'
	@cmp target/bench/week.lines target/bench/week-oracle.lines

# The table of docs/SPEED.md, from one run. It is worth what the machine is quiet.
speed: bench
	@bench/write-speed target/bench/table.txt
