# The C library: build, install under PREFIX, uninstall; the programs.
#   make install PREFIX=$HOME/.local      (DESTDIR, for packages, goes ahead of PREFIX)

PREFIX ?= /usr/local
DESTDIR ?=
VERSION = 0.1.0

library = target/staticlib/libyolkgorge.a
root = $(DESTDIR)$(PREFIX)

.PHONY: all programs install uninstall

all:
	cd crates/yolkgorge && rt lib
	install -D -m 644 crates/yolkgorge/out/libyolkgorge.a $(library)

# the printer and the program that the comparison of records drives
programs:
	cd crates/printer && rt run < stdin > /dev/null
	cd crates/record_driver && rt run < stdin > /dev/null
	install -D crates/printer/out/printer target/bin/printer
	install -D crates/record_driver/out/record_driver target/bin/record_driver

install: all
	install -d "$(root)/include" "$(root)/lib/pkgconfig"
	install -m 644 include/yolkgorge.h "$(root)/include/yolkgorge.h"
	install -m 644 $(library) "$(root)/lib/libyolkgorge.a"
	sed -e 's|@PREFIX@|$(PREFIX)|' -e 's|@VERSION@|$(VERSION)|' yolkgorge.pc.in > "$(root)/lib/pkgconfig/yolkgorge.pc"
	chmod 644 "$(root)/lib/pkgconfig/yolkgorge.pc"

uninstall:
	rm -f "$(root)/include/yolkgorge.h" "$(root)/lib/libyolkgorge.a" "$(root)/lib/pkgconfig/yolkgorge.pc"
