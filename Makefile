# The README's two commands and what stands beside them. run and test do their own set-up: tests/setup.sh.
.PHONY: run test wrong lib install interop bench clean FORCE
SHELL := /bin/bash

# The C library: where `make install` puts it (DESTDIR goes before PREFIX for packaging), and its version for pkg-config.
VERSION := 0.1.0
PREFIX ?= /usr/local
DESTDIR ?=

# Proves what there is and runs it.
run:
	@tests/run.sh

# The gate: `rt ci` over every crate (each proved from nothing, every must-fail edit refused), and every test passed.
test:
	@tests/gate.sh

# Sentences of document 01 written wrong: each wrong definition has to be refused by the prover (tests/wrong); outside the gate.
wrong:
	@python3 tests/wrong.py

# The C library (x86-64), its header and its pkg-config file, in build/lib; needs `rt`.
lib: build/lib/libdymosaw.a build/lib/dymosaw.h build/lib/dymosaw.pc

# What the crates say of themselves: their files, and not what `rt` keeps below out/.
SOURCES := crates.txt $(shell find crates -name out -prune -o \( -name '*.rt' -o -name '*.antt' \) -print)

crates/dymosaw_c/out/libdymosaw_c.a: $(SOURCES)
	@mkdir -p build
	@(cd crates/dymosaw_c && rt lib) >build/lib.log 2>&1 || { tail -n 40 build/lib.log; exit 1; }
	@touch $@

build/lib/libdymosaw.a: crates/dymosaw_c/out/libdymosaw_c.a
	@install -D -m 644 $< $@

build/lib/dymosaw.h: include/dymosaw.h
	@install -D -m 644 $< $@

# It names PREFIX, so it is written each time.
build/lib/dymosaw.pc: include/dymosaw.pc.in FORCE
	@mkdir -p $(@D)
	@sed -e 's|@PREFIX@|$(PREFIX)|' -e 's|@VERSION@|$(VERSION)|' $< >$@

install: lib
	install -D -m 644 build/lib/libdymosaw.a $(DESTDIR)$(PREFIX)/lib/libdymosaw.a
	install -D -m 644 build/lib/dymosaw.h $(DESTDIR)$(PREFIX)/include/dymosaw.h
	install -D -m 644 build/lib/dymosaw.pc $(DESTDIR)$(PREFIX)/lib/pkgconfig/dymosaw.pc

# A third party reads the second program's answers (docs/INTEROP.md); outside the gate.
interop:
	@tests/interop.sh

# Instructions a call, the library beside the same work in plain C (docs/PERFORMANCE.md); outside the gate.
bench:
	@bench/bench.sh

clean:
	rm -rf build crates/*/out
