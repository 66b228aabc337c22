# make            proves and builds the static library and the verdict program, into target/, and the command gate where there is cargo
# make install    installs them, the header and a pkg-config file; what is proved already is not proved again
# make install-lib, install-bin, install-gate    the library with header and pkg-config file alone, the verdict program alone, gate alone
# make uninstall  removes what an install with the same folders wrote
# make test       runs host/test
#
# GATE_LIB_DIR names the folder of a library that was built elsewhere.
.POSIX:

PREFIX = /usr/local
LIBDIR = $(PREFIX)/lib
INCLUDEDIR = $(PREFIX)/include
BINDIR = $(PREFIX)/bin
DESTDIR =
GATE_LIB_DIR ?= target/staticlib

HEADER = include/gate.h
GATE = host/target/release/gate
# The dot stands for the sign that would begin a comment.
VERSION = sed -n 's/^.define GATE_LIBRARY_VERSION "\(.*\)"$$/\1/p' $(HEADER)

.PHONY: all gate install install-lib install-bin install-gate uninstall test

all:
	host/rattle library
	host/rattle program gatecheck
	$(MAKE) gate

target/staticlib/libgate_c.a:
	host/rattle library

target/bin/gatecheck:
	host/rattle program gatecheck

# Cargo knows whether anything has changed.
gate: $(GATE_LIB_DIR)/libgate_c.a
	if command -v cargo > /dev/null; then \
	    GATE_LIB_DIR="$$(cd "$(GATE_LIB_DIR)" && pwd)" cargo build --quiet --release --jobs 1 --manifest-path host/Cargo.toml \
	        --package gate-command --target-dir host/target; \
	else echo 'gate is not built, for there is no cargo' >&2; fi

install: install-lib install-bin install-gate

install-lib: $(GATE_LIB_DIR)/libgate_c.a
	mkdir -p "$(DESTDIR)$(LIBDIR)/pkgconfig" "$(DESTDIR)$(INCLUDEDIR)"
	install -m 644 "$(GATE_LIB_DIR)/libgate_c.a" "$(DESTDIR)$(LIBDIR)/libgate_c.a"
	install -m 644 $(HEADER) "$(DESTDIR)$(INCLUDEDIR)/gate.h"
	sed -e 's|@PREFIX@|$(PREFIX)|' -e 's|@LIBDIR@|$(LIBDIR)|' -e 's|@INCLUDEDIR@|$(INCLUDEDIR)|' \
	    -e "s|@VERSION@|$$($(VERSION))|" gate.pc.in > "$(DESTDIR)$(LIBDIR)/pkgconfig/gate.pc"

install-bin: target/bin/gatecheck
	mkdir -p "$(DESTDIR)$(BINDIR)"
	install -m 755 target/bin/gatecheck "$(DESTDIR)$(BINDIR)/gatecheck"

# Whoever installs may be another than who builds, and may have no cargo.
install-gate: gate
	if [ -f $(GATE) ]; then mkdir -p "$(DESTDIR)$(BINDIR)" && install -m 755 $(GATE) "$(DESTDIR)$(BINDIR)/gate"; \
	else echo 'gate is not installed, for it is not built' >&2; fi

uninstall:
	rm -f "$(DESTDIR)$(LIBDIR)/libgate_c.a" "$(DESTDIR)$(LIBDIR)/pkgconfig/gate.pc" \
	    "$(DESTDIR)$(INCLUDEDIR)/gate.h" "$(DESTDIR)$(BINDIR)/gatecheck" "$(DESTDIR)$(BINDIR)/gate"

test:
	host/test
