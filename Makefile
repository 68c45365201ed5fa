# Installs Needlevale as a library for C and as a program, like any other: header, static and shared library, pkg-config
# file, manual pages, and the proved program as needlevale-core.
#
#   make                          makes all of it in target/install
#   make install                  puts it under PREFIX, which is /usr/local if nothing is said
#   make uninstall                takes the same files away again
#   make ARCHIVE=.. PROGRAM=..    takes a library and a program that were proved elsewhere, and needs no kit
#
# PREFIX, BINDIR, LIBDIR, INCLUDEDIR and MANDIR say where; DESTDIR stands before each of them and in no file.
# Without ARCHIVE and PROGRAM both come from dist/, if that is of these sources. If not, the Rattle kit's `rt` proves and
# builds them where a source is newer, which takes minutes the first time. The code is x86-64 on every machine: elsewhere
# the shared library is linked by the cross compiler that scripts/x86-64.sh uses, and what is installed runs under an
# emulator only.

PREFIX = /usr/local
BINDIR = $(PREFIX)/bin
LIBDIR = $(PREFIX)/lib
INCLUDEDIR = $(PREFIX)/include
MANDIR = $(PREFIX)/share/man
INSTALL = install
OUT = target/install

MACHINE := $(shell uname -m)
ifneq ($(MACHINE),x86_64)
ifeq ($(origin CC),default)
CC = x86_64-linux-gnu-gcc
endif
endif

# The soname has both numbers while the first is 0: docs/DECISIONS.md.
VERSION := $(shell scripts/version)
NUMBERS := $(subst ., ,$(VERSION))
ABI := $(if $(filter 0,$(word 1,$(NUMBERS))),0.$(word 2,$(NUMBERS)),$(word 1,$(NUMBERS)))
SONAME = libneedlevale.so.$(ABI)
SHARED = libneedlevale.so.$(VERSION)

PAGES = man/needlevale-core.1 man/needlevale.3
# Each call of the header has a page that leads to the one of all.
OPEN := (
CALLS := $(shell sed -n 's/^[a-z].*[ *]\(needlevale_[a-z_]*\)$(OPEN).*/\1/p' include/needlevale.h)
BUILT = $(OUT)/libneedlevale.a $(OUT)/$(SHARED) $(OUT)/needlevale-core $(PAGES:man/%=$(OUT)/%)
SOURCES := crates.txt $(shell find crates -regex 'crates/[^/]*/out' -prune -o \( -name '*.rt' -o -name '*.antt' \) -print)

INSTALLED = $(BINDIR)/needlevale-core $(INCLUDEDIR)/needlevale.h $(LIBDIR)/libneedlevale.a $(LIBDIR)/$(SHARED) \
    $(LIBDIR)/$(SONAME) $(LIBDIR)/libneedlevale.so $(LIBDIR)/pkgconfig/needlevale.pc \
    $(MANDIR)/man1/needlevale-core.1 $(MANDIR)/man3/needlevale.3 $(CALLS:%=$(MANDIR)/man3/%.3)

.PHONY: all install uninstall list FORCE
.DELETE_ON_ERROR:

all: $(BUILT)
	@[ $(MACHINE) = x86_64 ] || echo "make: this is x86-64 code; on $(MACHINE) it runs under an emulator only"

ifeq ($(shell scripts/dist check 2>/dev/null && echo fits),fits)
ARCHIVE ?= dist/libneedlevale_c.a
PROGRAM ?= dist/needlevale-core
endif
# rt tells by content what must be proved again, and leaves a file that is still right as old as it was.
ifeq ($(origin ARCHIVE),undefined)
ARCHIVE = crates/needlevale_c/out/libneedlevale_c.a
$(ARCHIVE): $(SOURCES)
	@$(HAVE_RT)
	cd crates/needlevale_c && rt lib && touch out/libneedlevale_c.a
endif
ifeq ($(origin PROGRAM),undefined)
PROGRAM = crates/needlevale/out/needlevale
# `rt run` builds it and then asks it nothing; rt's stamp beside it tells that it was built.
$(PROGRAM): $(SOURCES)
	@$(HAVE_RT)
	cd crates/needlevale && rm -f out/needlevale.stamp && \
	    { rt run </dev/null >/dev/null; [ -s out/needlevale.stamp ]; } && touch out/needlevale
endif
HAVE_RT = command -v rt >/dev/null || \
    { echo "make: the Rattle kit's 'rt' is not on the PATH; ARCHIVE=.. and PROGRAM=.. do without" >&2; exit 1; }

# Compared, not dated: what was given by hand last time may be newer and another.
$(OUT)/libneedlevale.a: $(ARCHIVE) FORCE
	@mkdir -p $(OUT)
	@cmp -s $< $@ || cp $< $@
$(OUT)/needlevale-core: $(PROGRAM) FORCE
	@mkdir -p $(OUT)
	@cmp -s $< $@ || cp $< $@

# The whole archive, which is position independent. Of its names the calls alone are seen from outside, and nothing runs
# when it is loaded.
$(OUT)/$(SHARED): $(OUT)/libneedlevale.a include/needlevale.h Makefile
	printf 'NEEDLEVALE_%s { global: needlevale_*; local: *; };\n' $(ABI) >$(OUT)/exports
	$(CC) -shared -nostartfiles -o $@ -Wl,-soname,$(SONAME) -Wl,--version-script=$(OUT)/exports \
	    -Wl,-z,defs,-z,now,-z,relro $(LDFLAGS) \
	    -Wl,--whole-archive $(OUT)/libneedlevale.a -Wl,--no-whole-archive

$(OUT)/%: man/% include/needlevale.h
	@mkdir -p $(OUT)
	sed 's/@VERSION@/$(VERSION)/' $< >$@

install: all
	$(INSTALL) -d $(DESTDIR)$(BINDIR) $(DESTDIR)$(INCLUDEDIR) $(DESTDIR)$(LIBDIR)/pkgconfig \
	    $(DESTDIR)$(MANDIR)/man1 $(DESTDIR)$(MANDIR)/man3
	$(INSTALL) -m 755 $(OUT)/needlevale-core $(DESTDIR)$(BINDIR)
	$(INSTALL) -m 644 include/needlevale.h $(DESTDIR)$(INCLUDEDIR)
	$(INSTALL) -m 644 $(OUT)/libneedlevale.a $(OUT)/$(SHARED) $(DESTDIR)$(LIBDIR)
	ln -sf $(SHARED) $(DESTDIR)$(LIBDIR)/$(SONAME)
	ln -sf $(SONAME) $(DESTDIR)$(LIBDIR)/libneedlevale.so
	$(INSTALL) -m 644 include/needlevale.pc.in $(DESTDIR)$(LIBDIR)/pkgconfig/needlevale.pc
	sed -i -e 's|@PREFIX@|$(PREFIX)|' -e 's|@LIBDIR@|$(LIBDIR:$(PREFIX)/%=$${prefix}/%)|' -e 's|@VERSION@|$(VERSION)|' \
	    -e 's|@INCLUDEDIR@|$(INCLUDEDIR:$(PREFIX)/%=$${prefix}/%)|' $(DESTDIR)$(LIBDIR)/pkgconfig/needlevale.pc
	$(INSTALL) -m 644 $(OUT)/needlevale-core.1 $(DESTDIR)$(MANDIR)/man1
	$(INSTALL) -m 644 $(OUT)/needlevale.3 $(DESTDIR)$(MANDIR)/man3
	for call in $(CALLS); do echo '.so man3/needlevale.3' >$(DESTDIR)$(MANDIR)/man3/$$call.3 || exit 1; done

uninstall:
	rm -f $(INSTALLED:%=$(DESTDIR)%)

# The installed files, one a line.
list:
	@printf '%s\n' $(INSTALLED)
