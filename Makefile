## make              set-up, proof and library, first results to look at, a short story's trace and chart among them, and three C programs over the
##                   library: a host to copy, one with a real clock, and the test of conformance
## make library      set-up, proof and library alone
## make test         the gate: ends with 'N passed, 0 failed'
## make bench        what a call costs against a second machine, in instructions and, on x86-64, in time
## make install      the library for C, its headers and a pkg-config file, below PREFIX (/usr/local), the archive into LIBDIR (PREFIX/lib); proves first,
##                   for some minutes, where the archive is older than a crate;
##                   DESTDIR goes before both, for packages
## make uninstall    takes them away again
## make clean        removes target/ and each crate's out/, all that was made
## make help         these lines
.POSIX:
.PHONY: all help setup library archive look example install uninstall bench test clean

PREFIX = /usr/local
LIBDIR = $(PREFIX)/lib
ARCHIVE = target/libsscf.a

all: look example

help:
	@sed -n 's/^## //p' Makefile

setup:
	.ci/setup

# Proves every crate, and writes the library for C to target/libsscf.a and the trace program to target/bin/trace.
library: setup
	rt all check
	host/archive
	host/program trace

look: library
	examples/wrong-row
	examples/story | host/x86 target/bin/trace | host/names
	examples/chart

example: library
	host/run examples/host.c
	host/run examples/clock.c
	host/run host/conformance.c

# Made anew where a crate is newer, so that no old archive is installed or measured.
archive:
	host/archive

# The version stands in the header alone.
install: archive
	install -d '$(DESTDIR)$(PREFIX)/include' '$(DESTDIR)$(LIBDIR)/pkgconfig'
	install -m 644 include/sscf.h include/sscf_host.h '$(DESTDIR)$(PREFIX)/include'
	install -m 644 $(ARCHIVE) '$(DESTDIR)$(LIBDIR)/libsscf.a'
	version=$$(sed -n 's/^#define SSCF_VERSION "\(.*\)"$$/\1/p' include/sscf.h) && \
	sed -e 's|@PREFIX@|$(PREFIX)|' -e 's|@LIBDIR@|$(LIBDIR)|' -e "s|@VERSION@|$$version|" include/sscf.pc.in | \
	install -m 644 /dev/stdin '$(DESTDIR)$(LIBDIR)/pkgconfig/sscf.pc'

uninstall:
	rm -f '$(DESTDIR)$(PREFIX)/include/sscf.h' '$(DESTDIR)$(PREFIX)/include/sscf_host.h'
	rm -f '$(DESTDIR)$(LIBDIR)/libsscf.a' '$(DESTDIR)$(LIBDIR)/pkgconfig/sscf.pc'

bench: setup archive
	host/bench

test:
	.ci/run

clean:
	rm -rf target crates/*/out
