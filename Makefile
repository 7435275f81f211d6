# Builds, tests and installs Lintelkite.
#
#   make                  proves the library and builds target/staticlib/liblintelkite.a
#   make test             the gate, .ci/run
#   make install          PREFIX (/usr/local) says where to; DESTDIR is put in front of it, for packages
#   make uninstall        removes what install put there
#
# ARCHIVE names an archive that is built already, for a machine without rt.

VERSION    = 0.1.0
PREFIX     = /usr/local
INCLUDEDIR = $(PREFIX)/include
LIBDIR     = $(PREFIX)/lib
PKGCONFIG  = $(LIBDIR)/pkgconfig
INSTALL    = install

BUILT      = target/staticlib/liblintelkite.a
ARCHIVE    = $(BUILT)

.PHONY: all test install uninstall
all: $(ARCHIVE)

# rt writes crates/lintelkite_c/out/liblintelkite_c.a, for any x86-64. The copy has the library's own name, and lands whole.
$(BUILT): crates.txt $(shell find crates -name out -prune -o -type f -print)
	cd crates/lintelkite_c && rt lib --cpu=x86-64
	@mkdir -p $(@D)
	@cp crates/lintelkite_c/out/liblintelkite_c.a $@.$$$$ && mv $@.$$$$ $@

test:
	.ci/run

install: $(ARCHIVE)
	@case '$(PREFIX)' in /*) ;; *) echo 'PREFIX is to be a whole path: $(PREFIX)' >&2; exit 1 ;; esac
	$(INSTALL) -d '$(DESTDIR)$(INCLUDEDIR)' '$(DESTDIR)$(LIBDIR)' '$(DESTDIR)$(PKGCONFIG)'
	$(INSTALL) -m 644 include/lintelkite.h '$(DESTDIR)$(INCLUDEDIR)/lintelkite.h'
	$(INSTALL) -m 644 '$(ARCHIVE)' '$(DESTDIR)$(LIBDIR)/liblintelkite.a'
	sed -e 's|@VERSION@|$(VERSION)|' -e 's|@PREFIX@|$(PREFIX)|' \
	    -e 's|@INCLUDEDIR@|$(INCLUDEDIR)|' -e 's|@LIBDIR@|$(LIBDIR)|' \
	    lintelkite.pc.in >'$(DESTDIR)$(PKGCONFIG)/lintelkite.pc'
	chmod 644 '$(DESTDIR)$(PKGCONFIG)/lintelkite.pc'

uninstall:
	rm -f '$(DESTDIR)$(INCLUDEDIR)/lintelkite.h' '$(DESTDIR)$(LIBDIR)/liblintelkite.a' \
	    '$(DESTDIR)$(PKGCONFIG)/lintelkite.pc'
