# Builds, tests and installs hggit. The kit's command `rt` proves the program and compiles it.
#
#     make                 proves the program's crates side by side, builds build/hggit and runs it on an example
#     make try             runs the examples with no proof, in a minute or two
#     make test            what CI does
#     make install         copies the program, its tools, manual pages and completion below $(PREFIX)
#     make gate-table LOG=ci.log       writes the table of the crates into docs/architecture.md, of a log by `tools/timed rt ci > ci.log`
#     make clean           removes what was built and what was kept of proofs

PREFIX ?= /usr/local
PROGRAM ?= build/hggit
BIN := $(DESTDIR)$(PREFIX)/bin
LIB := $(DESTDIR)$(PREFIX)/lib/hggit
SHARE := $(DESTDIR)$(PREFIX)/share
TOOLS := hggit-sync hggit-graph git-remote-hggit git-load
MODULES := repositories slot sync_names sync_objects sync_setting sync_run small_deltas first_store stream_bundle stream_share pack_deltas hg_away progress graph_lanes
SOURCES := crates.txt $(shell find crates -name out -prune -o -type f \( -name '*.rt' -o -name '*.antt' \) -print)

.PHONY: all run-examples try try-list try-pull test bench install gate-table clean

all: run-examples

# The program and the crates that it stands on are proved side by side, in a checkout of their own.
build/hggit build/bundle_copy: build/%: $(SOURCES)
	tools/prove $* $@

# A pull saves its state where it runs, so it runs in a new folder.
run-examples: build/hggit
	rm -rf build/run && mkdir build/run
	build/hggit list-hg < examples/one-changeset.hg > build/one-changeset.hg.list
	cat build/one-changeset.hg.list
	diff examples/one-changeset.hg.list build/one-changeset.hg.list
	cd build/run && ../hggit pull-hg < ../../examples/one-changeset.hg > ../one-changeset.git
	cmp examples/one-changeset.git build/one-changeset.git

# `rt try` proves nothing. Both runs at once.
try:
	$(MAKE) --no-print-directory -j2 try-list try-pull

try-list:
	mkdir -p build
	cd crates/hggit && rt try -- list-hg < ../../examples/one-changeset.hg > ../../build/try.list
	cat build/try.list
	diff examples/one-changeset.hg.list build/try.list

try-pull:
	mkdir -p build
	cd crates/hggit && rt try -- pull-hg < ../../examples/one-changeset.hg > ../../build/try.git
	cmp examples/one-changeset.git build/try.git

test:
	.ci/run

bench: build/hggit build/bundle_copy
	status=0; for script in bench/*; do echo "$$script"; "$$script" build/hggit build/bundle_copy || status=1; done; exit $$status

install: $(PROGRAM)
	install -d $(BIN) $(LIB)/formats $(SHARE)/man/man1 $(SHARE)/bash-completion/completions
	install -m 755 $(PROGRAM) $(BIN)/hggit
	install -m 755 $(TOOLS:%=tools/%) $(LIB)
	install -m 644 $(MODULES:%=tools/%.py) $(LIB)
	install -m 644 tools/formats/*.py $(LIB)/formats
	install -m 644 man/*.1 $(SHARE)/man/man1
	install -m 644 tools/completion/hggit $(SHARE)/bash-completion/completions
	for tool in $(TOOLS); do ln -sf ../lib/hggit/$$tool $(BIN)/$$tool; done
	for tool in hggit-sync hggit-graph git-load; do ln -sf hggit $(SHARE)/bash-completion/completions/$$tool; done

gate-table:
	tools/gate-table $(LOG) --into docs/architecture.md

clean:
	tools/prove --clean
	rm -rf build crates/*/out
