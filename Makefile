# `make` proves the store and builds its archive for C; `make install` puts the header, the archive and
# a file for pkg-config below PREFIX. DESTDIR, for packages, is put before it.
.POSIX:
PREFIX = /usr/local
DESTDIR =
LIBRARY = target/staticlib/libstore.a
to = $(DESTDIR)$(PREFIX)

all:
	tools/build store

install:
	mkdir -p "$(to)/include" "$(to)/lib/pkgconfig"
	cp include/lhrs.h "$(to)/include/lhrs.h"
	cp "$(LIBRARY)" "$(to)/lib/liblhrs.a"
	version=$$(sed -n 's/^#define LHRS_INTERFACE //p' include/lhrs.h) && \
	sed -e "s|@PREFIX@|$(PREFIX)|" -e "s|@VERSION@|$$version|" include/lhrs.pc.in >"$(to)/lib/pkgconfig/lhrs.pc"
	chmod 644 "$(to)/include/lhrs.h" "$(to)/lib/liblhrs.a" "$(to)/lib/pkgconfig/lhrs.pc"
