# idesolve: a solver of interprocedural distributive environment problems, proved with Rattle.
PREFIX ?= /usr/local
ARGS ?= once copy examples/copies.ide main

# What the program is built from: an edit of any of these proves it again.
SOURCES := crates.txt $(shell find crates -path '*/out' -prune -o -type f \( -name '*.rt' -o -name '*.antt' \) -print)

.PHONY: build run test try install bench clean

build: idesolve

# Proves the program with all that it stands on, and builds it: about an hour on four cores.
idesolve: $(SOURCES)
	@echo "proving the program and all that it stands on: about an hour on four cores"
	@echo "(make try ARGS='..' runs it unproved, in about a minute)"
	cd crates/ide_cli && rt run -- --help > /dev/null
	cp crates/ide_cli/out/ide_cli idesolve

# The dump of an example: the value of each variable at each position.
run: idesolve
	./idesolve once copy examples/copies.ide main

# The gate: every proof from nothing, the wrong bodies, the tests, and the program's rows and stored run.
test:
	scripts/gate

# Runs the program with no proof, in about a minute: make try ARGS='once copy examples/copies.ide main'
try:
	scripts/try $(ARGS)

install: idesolve
	install -D idesolve $(DESTDIR)$(PREFIX)/bin/idesolve

# Times the program on generated texts, its phases, stores, hands, the journal on a disk in memory, and batches, and prints a table of each.
bench: idesolve
	bench/run
	bench/beside
	bench/phases
	bench/stores
	bench/workers
	bench/files
	bench/shares
	bench/fills
	bench/journal
	bench/batches

clean:
	rm -rf idesolve crates/*/out
