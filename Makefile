# What people type.
#   make run [BLOCK=file]   prove what the listing program needs, build it, list the sample block or another one
#   make lib                prove what C and Rust call, and build target/staticlib/libpelunziwa.a (include/pelunziwa.h)
#   make programs           both
#   make test               the whole gate
#   make check              the Rust tests alone, against the library; ROUNDS=10 for a longer run
#   make bench              time the library, the yardstick and the model
.PHONY: run lib programs test check bench
SHELL := /bin/bash
.SHELLFLAGS := -o pipefail -c

BLOCK ?= crates/list/stdin
ROUNDS ?= 1
LIST := target/bin/list
LIBRARY := target/staticlib/libpelunziwa.a
SOURCES := crates.txt $(shell find crates -name out -prune -o \( -name '*.rt' -o -name '*.antt' \) -print)

# `rt COMMAND` in the folder of a crate, with a line for each crate; what the prover says goes to a log, whose end is shown where something fails.
define proved
@mkdir -p target/bin target/staticlib
@cd crates/$(1) && rt $(2) </dev/null 2>&1 | tee $(CURDIR)/target/$(3).log | grep --line-buffered '^rt: ' || { tail -n 20 $(CURDIR)/target/$(3).log; exit 1; }
endef

run: $(LIST)
	@$(LIST) < $(BLOCK)

$(LIST): $(SOURCES)
	$(call proved,list,run,run)
	@cp crates/list/out/list $@

lib: $(LIBRARY)

$(LIBRARY): $(SOURCES)
	$(call proved,pelunziwa,lib,lib)
	@cp crates/pelunziwa/out/libpelunziwa.a $@

programs: $(LIST) $(LIBRARY)

test:
	@tests/gate

check: lib
	@cd rust && PELUNZIWA_ROUNDS=$(ROUNDS) cargo test --profile checked --offline

bench: lib
	@cd rust && cargo run --release --offline --quiet --bin speed
