# make            the library, the bench, the program sheet, and the selector's gate sheet from its table file
# make test       every proof, must-fail edit and program by rt ci, then the tests in C; its last line is rt ci's own count
# make bench      times against plain C
# make install    the header, the library, the bench and a pkg-config file, under PREFIX, within DESTDIR; make uninstall
# make clean      build/ goes; make distclean: so do target/, with the library, and crates/*/out/, with the proofs that rt remembers
SHELL := /bin/bash
.DEFAULT_GOAL := all

include tests/Makefile.inc

PREFIX ?= /usr/local
INSTALLED := $(DESTDIR)$(PREFIX)
VERSION := $(shell sed -n 's/^.define PILGODUR_VERSION "\(.*\)"$$/\1/p' include/pilgodur.h)

define PKG_CONFIG_FILE
prefix=$(PREFIX)
includedir=$${prefix}/include
libdir=$${prefix}/lib

Name: pilgodur
Description: A proved compiler and fault analyser for permit boards
Version: $(VERSION)
Cflags: -I$${includedir}
Libs: -L$${libdir} -lpilgodur
endef
export PKG_CONFIG_FILE

.PHONY: all test install uninstall clean distclean

all: build/pilgodur build/sheet
	build/pilgodur list examples/selector.table

$(LIBRARY): $(shell find crates -name out -prune -o '(' -name '*.rt' -o -name '*.antt' ')' -print)
	cd crates/pilgodur && rt lib
	install -D -m 644 crates/pilgodur/out/libpilgodur.a $@

# rt ci passes with an edit that it cannot apply or read: its line "rt: ok" then counts it as bad, and the gate fails.
test: | build
	set -o pipefail; rt ci 2>&1 | tee build/ci.log
	grep -q '^rt: ok' build/ci.log && ! grep -q '^rt: ok.*, [0-9][0-9]* bad' build/ci.log
	$(MAKE) --no-print-directory -j2 -Otarget test-c
	@tail -n 1 build/ci.log

install: build/pilgodur $(LIBRARY)
	install -d $(INSTALLED)/bin $(INSTALLED)/include $(INSTALLED)/lib/pkgconfig
	install -m 755 build/pilgodur $(INSTALLED)/bin
	install -m 644 include/pilgodur.h $(INSTALLED)/include
	install -m 644 $(LIBRARY) $(INSTALLED)/lib/libpilgodur.a
	@echo "$$PKG_CONFIG_FILE" >$(INSTALLED)/lib/pkgconfig/pilgodur.pc

uninstall:
	cd $(INSTALLED) && rm -f bin/pilgodur include/pilgodur.h lib/libpilgodur.a lib/pkgconfig/pilgodur.pc

clean:
	rm -rf build

distclean: clean
	rm -rf target crates/*/out
