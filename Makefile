# make               the libraries that C, C++ and Rust link (core and valve gate), the replay program and the job sheet program
# make install       all of it to PREFIX (/usr/local), under DESTDIR where that is given
# make install-lib   the libraries, the headers and the pkg-config files alone
# make check         the gate
#
# Needs the Rattle toolchain (rt) for what is proved, and cargo for the job sheet.

PREFIX ?= /usr/local
VERSION := $(shell sed -n 's/^version = "\(.*\)"/\1/p' rust/Cargo.toml)
PROVED := crates.txt $(shell find crates -name out -prune -o -type f -print)
TO = $(DESTDIR)$(PREFIX)

LIBRARIES := osnma valve_gate
HEADERS := osnma.h osnma_collector.h valve_gate.h
ARCHIVES := $(LIBRARIES:%=target/staticlib/lib%.a)

all: $(ARCHIVES) target/bin/replay rust/target/release/jobsheet

# Only one rt works in a crate at a time: the libraries are made one after the other.
.NOTPARALLEL:
$(ARCHIVES): target/staticlib/lib%.a: $(PROVED)
	tools/build $*

target/bin/replay: $(PROVED)
	tools/build replay

# cargo knows itself what is new.
rust/target/release/jobsheet: $(ARCHIVES) FORCE
	cd rust && cargo build --release --offline -p jobsheet

install: install-lib install-bin

install-lib: $(ARCHIVES)
	install -d $(TO)/lib/pkgconfig $(TO)/include
	install -m 644 $(ARCHIVES) $(TO)/lib
	install -m 644 $(HEADERS:%=include/%) $(TO)/include
	for name in $(LIBRARIES); do \
	  sed -e 's|@PREFIX@|$(PREFIX)|' -e 's|@VERSION@|$(VERSION)|' $$name.pc.in > $(TO)/lib/pkgconfig/$$name.pc || exit 1; \
	done

install-bin: target/bin/replay rust/target/release/jobsheet
	install -D -m 755 target/bin/replay $(TO)/bin/osnma-replay
	install -D -m 755 rust/target/release/jobsheet $(TO)/bin/osnma-jobsheet

check:
	.ci/run

FORCE:
.PHONY: all install install-lib install-bin check FORCE
