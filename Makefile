# make            proves and builds the program and the archive for C
# make example    builds the example importer; CC is a compiler for x86-64, as the archive is
# make install    puts the program, archive, header, pkg-config file and manual page below PREFIX (DESTDIR is put before it)
# make check      runs the gate
PREFIX ?= /usr/local
DESTDIR ?=
VERSION := $(shell cat VERSION)
CC ?= cc
CFLAGS ?= -O2

program := target/bin/covercheck
archive := target/staticlib/libimporter.a
to := $(DESTDIR)$(PREFIX)

.PHONY: all example install uninstall check clean

# Proved anew only where a source changed, and one build at a time.
all:
	tools/prove covercheck
	tools/prove importer

example: all
	$(CC) $(CFLAGS) -std=c99 -Wall -Wextra -Iinclude -o target/importer examples/importer.c $(archive)

install: all
	install -d "$(to)/bin" "$(to)/lib/pkgconfig" "$(to)/include" "$(to)/share/man/man1"
	install -m 755 $(program) "$(to)/bin/covercheck"
	install -m 644 $(archive) "$(to)/lib/libtrestulan.a"
	install -m 644 include/trestulan.h "$(to)/include/trestulan.h"
	awk -v prefix="$(PREFIX)" '{ gsub(/@VERSION@/, "$(VERSION)"); at = index($$0, "@PREFIX@"); \
	    print at ? substr($$0, 1, at - 1) prefix substr($$0, at + 8) : $$0 }' trestulan.pc.in >"$(to)/lib/pkgconfig/trestulan.pc"
	install -m 644 docs/covercheck.1 "$(to)/share/man/man1/covercheck.1"

uninstall:
	rm -f "$(to)/bin/covercheck" "$(to)/lib/libtrestulan.a" "$(to)/include/trestulan.h"
	rm -f "$(to)/lib/pkgconfig/trestulan.pc" "$(to)/share/man/man1/covercheck.1"

check:
	.ci/run

clean:
	rm -rf target
