# make            builds the programs and the library, which needs Rattle's toolchain rt; where both are built of crates/ as it is, in a moment
# make check      quick tests of what is built (the gate is .ci/run)
# make install    copies it, without rt, under DESTDIR and PREFIX; make uninstall removes what install made
#
# Every folder may be named by itself: BINDIR, LIBDIR, LIBEXECDIR, INCLUDEDIR, MANDIR, DOCDIR, PYTHONDIR.

DESTDIR =
PREFIX = /usr/local
BINDIR = $(PREFIX)/bin
LIBDIR = $(PREFIX)/lib
LIBEXECDIR = $(PREFIX)/libexec
INCLUDEDIR = $(PREFIX)/include
MANDIR = $(PREFIX)/share/man
DOCDIR = $(PREFIX)/share/doc/tulipcricket
PYTHONDIR = $(PREFIX)/share/tulipcricket/python
INSTALL = install

VERSION := $(shell cat VERSION)
PROGRAMS := $(shell sed -n "s/^all='\(.*\)'$$/\1/p" bin/tulipcricket)
BUILT = $(addprefix target/bin/,$(PROGRAMS))
LIBRARY = target/staticlib/libtulipcricket
PAPERS = README.md NEWS.md LICENSE NOTICE docs/FORMULA.md docs/SHEET.md docs/SHELF.md docs/DIFFERENCES.md
EXAMPLES = c/example.c examples/example.py examples/cell.formula examples/randles.formula examples/frequencies.csv
MODULES = $(wildcard python/tulipcricket/*.py) python/tulipcricket/py.typed

# under DESTDIR
bin = $(DESTDIR)$(BINDIR)
lib = $(DESTDIR)$(LIBDIR)
libexec = $(DESTDIR)$(LIBEXECDIR)/tulipcricket
include = $(DESTDIR)$(INCLUDEDIR)
man = $(DESTDIR)$(MANDIR)/man1
doc = $(DESTDIR)$(DOCDIR)
package = $(DESTDIR)$(PYTHONDIR)/tulipcricket

.PHONY: all check install uninstall built

all:
	bin/tulipcricket build
	c/library

# What install copies is there.
built:
	@for file in $(BUILT) $(LIBRARY).a $(LIBRARY).so $(LIBRARY).built; do \
	  [ -e "$$file" ] || { echo "$$file is not built: make builds it" >&2; exit 1; }; \
	done

check: built
	.ci/steps/02-version
	.ci/quick

install: built
	$(INSTALL) -d "$(bin)" "$(lib)/pkgconfig" "$(libexec)" "$(include)" "$(man)" "$(doc)/examples" "$(package)/data"
	$(INSTALL) -m 755 bin/tulipcricket "$(bin)/tulipcricket"
	$(INSTALL) -m 755 $(BUILT) "$(libexec)"
	$(INSTALL) -m 644 $(addsuffix .built,$(BUILT)) "$(libexec)"
	$(INSTALL) -m 644 $(LIBRARY).a "$(lib)/libtulipcricket.a"
	$(INSTALL) -m 644 $(LIBRARY).so "$(lib)/libtulipcricket.so.0"
	ln -sf libtulipcricket.so.0 "$(lib)/libtulipcricket.so"
	$(INSTALL) -m 644 c/tulipcricket.h "$(include)/tulipcricket.h"
	sed 's|@prefix@|$(PREFIX)|; s|@libdir@|$(LIBDIR)|; s|@includedir@|$(INCLUDEDIR)|; s|@version@|$(VERSION)|' c/tulipcricket.pc.in \
	  >"$(lib)/pkgconfig/tulipcricket.pc"
	chmod 644 "$(lib)/pkgconfig/tulipcricket.pc"
	$(INSTALL) -m 644 bin/tulipcricket.1 "$(man)/tulipcricket.1"
	$(INSTALL) -m 644 $(PAPERS) "$(doc)"
	$(INSTALL) -m 644 $(EXAMPLES) "$(doc)/examples"
	$(INSTALL) -m 644 $(MODULES) "$(package)"
	$(INSTALL) -m 644 drill/player.py "$(package)/data/player.py"
	$(INSTALL) -m 644 docs/SHELF.md "$(package)/data/SHELF.txt"
	$(INSTALL) -m 644 docs/SHEET.md "$(package)/data/SHEET.txt"
	sed -n '1s/^commit \([0-9a-f]*\)\(, .*\)*$$/\1\2/; 1s/, .*/-dirty/; 1s/^no commit$$/unknown/; 1p' $(LIBRARY).built >"$(package)/commit"
	sed -n 2p $(LIBRARY).built >"$(package)/kit"
	chmod 644 "$(package)/commit" "$(package)/kit"
	ln -sfr "$(lib)/libtulipcricket.so.0" "$(package)/libtulipcricket.so"

uninstall:
	rm -f "$(bin)/tulipcricket" "$(man)/tulipcricket.1" "$(include)/tulipcricket.h" "$(lib)/pkgconfig/tulipcricket.pc"
	rm -f "$(lib)/libtulipcricket.a" "$(lib)/libtulipcricket.so" "$(lib)/libtulipcricket.so.0"
	rm -rf "$(libexec)" "$(doc)" "$(package)"
	-rmdir --ignore-fail-on-non-empty "$(DESTDIR)$(PYTHONDIR)" "$(DESTDIR)$(PREFIX)/share/tulipcricket" 2>/dev/null
