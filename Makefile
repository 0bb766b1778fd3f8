# Builds the library for C and installs it. The crates themselves are proved and built by rt (README.md).
#
#     make                       out/libsctp-rattle.a: the calls of the crate sctp_c, and memory calls over malloc
#     make shared                out/libsctp-rattle.so.0: the same as a shared library, which exports the calls of the header alone
#     make install PREFIX=DIR    the archive, the headers for C and C++, and sctp-rattle.pc, below DIR (/usr/local), or below DESTDIR/DIR
#     make uninstall PREFIX=DIR
#
# LIBDIR=DIR is where the library goes (PREFIX/lib). SHARED=yes installs the shared library too; its memory calls are those over malloc.
# ARCHIVE=FILE takes another archive of the crate, and asks for no rt. What rt ci has proved and built in this checkout, sctp_c too, is taken as
# it is; packaging/archive.py makes the archive of it.
# There is no build without a proof (docs/DECISIONS.md), so PROVE=no is refused.
PREFIX = /usr/local
LIBDIR = $(PREFIX)/lib
DESTDIR =
CC = cc
AR = ar
CFLAGS = -O2
ARCHIVE = crates/sctp_c/out/libsctp_c.a
OUT = out
SHARED = no

VERSION := $(shell sed -n 's/^.define SCTPR_VERSION_[A-Z]* \([0-9]*\)$$/\1/p' include/sctpr.h | paste -sd .)
SONAME := libsctp-rattle.so.$(shell sed -n 's/^.define SCTPR_VERSION_MAJOR \([0-9]*\)$$/\1/p' include/sctpr.h)
ROOT = $(DESTDIR)$(PREFIX)
ifeq ($(PROVE),no)
$(error there is no build without a proof (docs/DECISIONS.md): ARCHIVE=FILE takes an archive that was built elsewhere)
endif
LIBRARIES = $(DESTDIR)$(LIBDIR)
SOURCES := $(shell find crates -name '*.rt' -path '*/src/*') packaging/archive.py packaging/checks.c include/sctpr.h

all: $(OUT)/libsctp-rattle.a $(OUT)/sctp-rattle.pc
shared: $(OUT)/$(SONAME)

crates/sctp_c/out/libsctp_c.a: $(SOURCES)
	@if ! command -v rt >/dev/null; then echo 'make: no rt on the PATH; ARCHIVE=FILE takes an archive that was built elsewhere'; exit 1; fi
	python3 c_tests/built_libraries.py
	@echo 'make: rt proves the libraries that rt ci has not built here, an hour or more where none is'
	python3 packaging/archive.py

$(OUT)/memory.o: packaging/memory.c
	mkdir -p $(OUT)
	$(CC) $(CFLAGS) -std=c99 -Wall -Wextra -fPIC -ffunction-sections -c $< -o $@

$(OUT)/libsctp-rattle.a: $(ARCHIVE) $(OUT)/memory.o
	cp $(ARCHIVE) $@
	$(AR) rs $@ $(OUT)/memory.o

# The names that the header declares, as a version script: nothing else is exported.
$(OUT)/exports.map: include/sctpr.h
	mkdir -p $(OUT)
	{ echo 'SCTPR_0 { global:'; sed -n 's/^\(sctpr_code\|uint8_t\|uint32_t\|size_t\|void\) \(sctpr_[a-z0-9_]*\)(.*/    \2;/p' $<; \
	echo '  local: *; };'; } > $@

$(OUT)/$(SONAME): $(ARCHIVE) $(OUT)/memory.o $(OUT)/exports.map
	$(CC) -shared -Wl,-soname,$(SONAME) -Wl,--version-script,$(OUT)/exports.map -Wl,--gc-sections -Wl,-z,defs \
	-Wl,--whole-archive $(ARCHIVE) -Wl,--no-whole-archive $(OUT)/memory.o -o $@

# written anew each time: it has the prefix
$(OUT)/sctp-rattle.pc: FORCE
	mkdir -p $(OUT)
	sed 's|@PREFIX@|$(PREFIX)|;s|@LIBDIR@|$(LIBDIR)|;s|@VERSION@|$(VERSION)|' packaging/sctp-rattle.pc.in > $@

install: all $(if $(filter yes,$(SHARED)),shared)
	install -d $(ROOT)/include/sctp-rattle $(LIBRARIES)/pkgconfig $(ROOT)/share/doc/sctp-rattle
	install -m 644 include/sctpr.h include/sctpr.hpp $(ROOT)/include/sctp-rattle
	install -m 644 $(OUT)/libsctp-rattle.a $(LIBRARIES)
	if [ $(SHARED) = yes ]; then install -m 755 $(OUT)/$(SONAME) $(LIBRARIES); ln -sf $(SONAME) $(LIBRARIES)/libsctp-rattle.so; fi
	install -m 644 $(OUT)/sctp-rattle.pc $(LIBRARIES)/pkgconfig
	install -m 644 docs/C.md LICENSE-MIT LICENSE-APACHE $(ROOT)/share/doc/sctp-rattle

uninstall:
	rm -rf $(ROOT)/include/sctp-rattle $(ROOT)/share/doc/sctp-rattle
	rm -f $(LIBRARIES)/libsctp-rattle.a $(LIBRARIES)/$(SONAME) $(LIBRARIES)/libsctp-rattle.so $(LIBRARIES)/pkgconfig/sctp-rattle.pc

clean:
	rm -f $(OUT)/libsctp-rattle.a $(OUT)/$(SONAME) $(OUT)/memory.o $(OUT)/exports.map $(OUT)/sctp-rattle.pc

FORCE:
.PHONY: all shared install uninstall clean FORCE
