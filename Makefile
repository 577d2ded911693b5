# make run       the program sharerun on the example, from a readable file to readable tables; with FILE=examples/... on that file
# make test      the gate: every proof and must-fail edit, then every test of what was proved
# make calls     compares every exported call with plain Rust, then again with its buffers between protected pages
# make runs      sharerun on stored cases and against plain Rust
# make tools     the text front end
# make examples  the C interface: headers, refusals, utilities, recipes and examples, in place and installed
# make bench     times ours against plain Rust and prints ratios; make same only compares the two, and prints what the loads are
# make install   the headers, the library, its pkg-config file, the programs, their manual pages and the examples, under PREFIX
.PHONY: run test plain bench same calls runs tools stack fmt library examples install

SHELL := bash
.SHELLFLAGS := -o pipefail -c

LIBRARY := $(CURDIR)/target/staticlib
ARCHIVE := $(LIBRARY)/libanalyser.a
PROGRAM := target/bin/sharerun
CRATES := crates.txt $(shell find crates -type f -not -path '*/out/*')
FOLDERS := CARGO_TARGET_DIR=$(CURDIR)/target/cargo SHARING_LIB_DIR=$(LIBRARY)
CARGO := $(FOLDERS) cargo
BENCH := RUSTFLAGS="-C llvm-args=-align-all-functions=6" $(CARGO) run --quiet --release -p bench --

# The header has the version.
VERSION := $(shell sed -n 's/^.define SHARING_VERSION_M[A-Z]* \([0-9]*\)$$/\1./p; s/^.define SHARING_VERSION_PATCH //p' include/sharing.h | tr -d '\n')
PREFIX ?= /usr/local
INTO := $(DESTDIR)$(abspath $(PREFIX))

FILE := examples/parish.txt
run: $(PROGRAM) target/tools/sharetext
	@tools/show "$(FILE)"

test:
	@tests/all

plain:
	@$(CARGO) test --quiet -p reference

same: library
	@$(BENCH) --same

calls: library
	@$(CARGO) run --quiet --release -p calls
	@$(FOLDERS) tests/fences

runs: $(PROGRAM)
	@$(CARGO) run --quiet --release -p runs

tools: library $(PROGRAM)
	@tests/tools

stack: library
	@tests/stack

library: $(ARCHIVE)

# What is proved and unchanged is not proved again; of what rt prints only the last lines are shown.
$(LIBRARY)/lib%.a: $(CRATES)
	@mkdir -p $(@D)
	@cd crates/$* && rt lib | grep '^logic='
	@cp crates/$*/out/lib$*.a $@

# `rt run` builds the program, and runs it on no input.
$(PROGRAM): $(CRATES)
	@mkdir -p $(@D)
	@cd crates/sharerun && rt run </dev/null >/dev/null 2>&1 && echo "sharerun: proved and built"
	@cp crates/sharerun/out/sharerun $@

target/tools/sharetext: $(wildcard tools/*.c tools/*.h include/*.h) $(ARCHIVE)
	@mkdir -p $(@D)
	@cc -std=c99 -O2 -Wall -Wextra -Iinclude $(filter %.c,$^) $(ARCHIVE) -o $@

examples: library $(PROGRAM) target/tools/sharetext
	@tests/c
	@tests/install

# What is built and up to date is only copied. The manual pages are those that are there.
MANUALS := $(wildcard tools/*.1)
install: $(ARCHIVE) $(PROGRAM) target/tools/sharetext
	@install -d $(INTO)/bin $(INTO)/include $(INTO)/lib/pkgconfig $(INTO)/share/doc/sharing/examples
	@install -m 755 $(PROGRAM) target/tools/sharetext $(INTO)/bin
	@install -m 644 include/sharing.h include/sharing_util.h $(INTO)/include
	@install -m 644 $(ARCHIVE) $(INTO)/lib/libsharing.a
	@sed 's|@VERSION@|$(VERSION)|' sharing.pc.in >$(INTO)/lib/pkgconfig/sharing.pc
	@chmod 644 $(INTO)/lib/pkgconfig/sharing.pc
	@install -m 644 docs/COMPILER.md $(INTO)/share/doc/sharing
	@install -m 644 $(wildcard examples/*.c examples/*.h examples/*.out examples/*.txt examples/*.table) $(INTO)/share/doc/sharing/examples
ifneq ($(MANUALS),)
	@install -d $(INTO)/share/man/man1
	@install -m 644 $(MANUALS) $(INTO)/share/man/man1
endif

bench: library
	@$(BENCH)

fmt:
	@for crate in crates/*/; do (cd "$$crate" && rt fmt >/dev/null) || exit 1; done
	@cargo fmt --all
