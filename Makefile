# make test runs everything; the other targets build or show one thing each. Rust and the Rattle kit are there, no registry is.
CARGO = CARGO_TARGET_DIR=$(CURDIR)/build/cargo cargo
BIN = build/cargo/release

.PHONY: test oracle plans triangles factors calls sheets replay-data driver checks bench bench-peers bench-profile bench-sheet

# The gate: rt ci over every crate, then every Rust test and comparison. Its last line is `N passed, M failed`.
test:
	@ci/gate 2>&1

# The frost night, solved and audited by the proved library. The first call proves each crate that the library needs, once and with no
# must-fail edit, and names each one when it is proved; later calls prove only what has changed.
.PHONY: night tevalumi
night: tevalumi
	@build/tevalumi night

# build/tevalumi: the command-line program over the proved library, whatever else the environment may name.
tevalumi: export TEVALUMI_LIB_DIR = $(CURDIR)/target/staticlib
tevalumi: target/staticlib/libtevalumi.a
	ci/linked cargo build --release --offline --manifest-path bindings/rust/Cargo.toml --bin tevalumi
	ci/linked program tevalumi

# The proved library. What it needs is proved again only where a crate has changed.
.PHONY: library
library: target/staticlib/libtevalumi.a
target/staticlib/libtevalumi.a: $(shell find crates crates.txt -name out -prune -o -print) ci/library
	ci/library

# The shared library, with the calls of include/tevalumi.h and no others; and the one for this machine's Python.
SHARED = -shared -Wl,-soname,libtevalumi.so.0 -Wl,--no-undefined -Wl,--version-script=packaging/exports -Wl,--whole-archive
build/libtevalumi.so.0: target/staticlib/libtevalumi.a packaging/exports
	@mkdir -p build
	ci/linked cc $(SHARED) $< -Wl,--no-whole-archive -o $@

build/python/libtevalumi.so: target/staticlib/libtevalumi.a packaging/exports
	@mkdir -p build/python
	gcc $(SHARED) "$$(ci/native)/libtevalumi.a" -Wl,--no-whole-archive -o $@

.PHONY: python
python: build/python/libtevalumi.so

# docs/night.svg: README's picture, drawn from what the program tells.
.PHONY: picture
picture: tevalumi
	packaging/picture build/tevalumi > docs/night.svg

# Libraries, headers, pkg-config file, program, man page and bash completion, under PREFIX (and DESTDIR before it).
.PHONY: install uninstall
PREFIX ?= /usr/local
install: tevalumi build/libtevalumi.so.0
	packaging/install "$(PREFIX)"

uninstall:
	packaging/install --remove "$(PREFIX)"

# build/oracle: plans with their calls, triangles and pairs of them in, answer lines out (docs/EXCHANGE.md).
oracle:
	$(CARGO) build --release --offline --manifest-path oracle/Cargo.toml
	cp $(BIN)/oracle build/oracle

# build/plans.txt: the seeded plans; `plans` shows the count of each answer too, for which all are solved.
.PHONY: plans-data calls-data
plans-data: oracle
	$(BIN)/plans > build/plans.txt

plans: plans-data
	$(BIN)/plans --count

# build/triangles.txt: the seeded triangles, and the count of each answer.
triangles: oracle
	$(BIN)/triangles > build/triangles.txt
	$(BIN)/triangles --count

# build/factors.txt: the seeded pairs of triangles, and the count of each answer.
factors: oracle
	$(BIN)/factors > build/factors.txt
	$(BIN)/factors --count

# build/calls.txt: the seeded plans with calls after their run; `calls` shows the count of each answer too.
calls-data: oracle
	$(BIN)/calls > build/calls.txt

calls: calls-data
	$(BIN)/calls --count

# build/sheets.txt: the seeded sheets with their edits, and what they reach.
sheets:
	$(CARGO) build --release --offline --manifest-path oracle-sheet/Cargo.toml
	$(BIN)/sheets --short 1000 > build/sheets.txt
	$(BIN)/sheets --short 1000 --require

# The stored lists of the programs that replay the oracles' answers: words in (stdin), answer lines out (stdout).
replay-data: oracle
	$(CARGO) build --release --offline --manifest-path oracle-sheet/Cargo.toml
	$(BIN)/replay triangles crates/replay_triangles
	$(BIN)/replay plans crates/replay_plans
	$(BIN)/sheet_replay crates/replay_sheets

# build/driver: the same text in, the proved library's answers out. build/files, build/journals, build/wholes,
# build/nights: plans' files, journals, whole numbers and nights through the library, beside references.
driver: oracle target/staticlib/libtevalumi.a
	ci/linked cargo build --release --offline --manifest-path driver/Cargo.toml
	ci/linked program driver
	ci/linked program files
	ci/linked program journals
	ci/linked program wholes
	ci/linked program nights

# docs/CHECKS.md: time and memory of each crate's check, lines of code and proof.
checks:
	ci/checks

# The proved library beside the oracles on the 200 plans, longer ones, dual starts, fixes, sheets, files, journals and nights: a table with a row for each
# set. With GLPK, Clp and lp_solve too, through their C libraries, which Debian has as libglpk-dev, coinor-libclp-dev and liblpsolve55-dev.
bench: target/staticlib/libtevalumi.a
	bench/run

bench-peers: target/staticlib/libtevalumi.a
	bench/run --peers

# The executed instructions of every set and side, which repeat; lent memory and stack of each call; where a solve's instructions go.
.PHONY: bench-counts bench-memory
bench-counts: target/staticlib/libtevalumi.a
	bench/run --counts

bench-memory: target/staticlib/libtevalumi.a
	bench/run --memory

bench-profile: target/staticlib/libtevalumi.a
	bench/run --profile

# docs/growth.svg: what a solve takes by rows, columns, density and steps.
.PHONY: growth
growth: target/staticlib/libtevalumi.a
	bench/run --growth

# The tables of docs/BENCHMARKS.md and docs/growth.svg, measured anew in some six minutes. The machine should have nothing else to do.
.PHONY: bench-docs
bench-docs: target/staticlib/libtevalumi.a
	bench/docs

# The samples that Debian ships with GLPK and COIN, each through the program and through glpsol: a line for each within the limits.
.PHONY: foreign
foreign: tevalumi
	bench/foreign

# The sum behind R beside its plain form, on rows of 96 x 128 sheets, and what opening as a whole gains: a line for each arrangement and share of nonzeros.
bench-sheet: target/staticlib/libtevalumi.a
	bench/run --sheet
