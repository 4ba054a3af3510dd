# Builds, installs and tests what users and hosts of the library have: `make help` lists the targets. Proofs and the gate are rt's and .ci/run's.
#
# Variables: PREFIX (absolute, no blanks), DESTDIR (put in front of every path, for packagers), LIBDIR, BINDIR, INCLUDEDIR, DOCDIR, MANDIR, COMPLETIONDIR;
# LIBRARY, a built libsagepliers.a, and BIN, a directory of built programs, which are then taken as they are; BUILD, where the command and the
# libraries are made; RT, CC, AR, CFLAGS, INSTALL, PYTHON, HELP2MAN. The version stands in include/sagepliers.h alone.

VERSION := $(shell sed -n 's/^.define SAGEPLIERS_VERSION "\(.*\)"/\1/p' include/sagepliers.h)
# The part of the version that the shared library's name carries: a host that was linked with another one cannot take this one.
SOVERSION = 0
TOOLCHAIN := $(shell cat TOOLCHAIN)

PREFIX = /usr/local
DESTDIR =
BINDIR = $(PREFIX)/bin
LIBDIR = $(PREFIX)/lib
INCLUDEDIR = $(PREFIX)/include
PKGCONFIGDIR = $(LIBDIR)/pkgconfig
DOCDIR = $(PREFIX)/share/doc/sagepliers
EXAMPLEDIR = $(DOCDIR)/examples
MANDIR = $(PREFIX)/share/man
COMPLETIONDIR = $(PREFIX)/share/bash-completion/completions

RT = rt
CC = cc
AR = ar
CFLAGS = -O2
LDFLAGS =
INSTALL = install
PYTHON = python3
HELP2MAN = help2man

PROGRAMS = answer kernel verify push
LIBRARY = target/staticlib/libsagepliers.a
BIN = target/bin
BUILD = target/host

EXAMPLES = $(wildcard examples/*)
DOCUMENTS = docs/TUTORIAL.md docs/SPECIFICATION.md docs/TRUST.md LICENSE CHANGELOG.md

.PHONY: all proved library programs rebuild command man install install-library install-shared install-command install-programs install-tools \
	uninstall check-package demo test test-quick dist clean help paths
.NOTPARALLEL:

## all              what is missing of library, programs and command (the default)
all: proved command

## ---- the proved parts

## proved           the proved library and programs, built with rt where they are missing
proved: library programs

# rt builds a crate in the crate's folder: the library under the crate's name, and a program as it runs it, here on no input.
build-library = (cd crates/sagepliers_c && $(RT) lib) && mkdir -p target/staticlib && \
	cp crates/sagepliers_c/out/libsagepliers_c.a target/staticlib/libsagepliers.a
build-program = (cd crates/$$name && $(RT) run </dev/null >/dev/null) && mkdir -p target/bin && cp crates/$$name/out/$$name target/bin/$$name

# What is there is taken as it is. What is missing is built, but only in target/: a LIBRARY or BIN of the caller's choice has to be there.
library:
	@if [ -f "$(LIBRARY)" ]; then :; \
	elif [ "$(origin LIBRARY)" = file ]; then set -x; $(build-library); \
	else echo "make: LIBRARY: there is no $(LIBRARY)" >&2; exit 1; fi

# A directory of programs as they are built here, or as make install does it, with sagepliers- in front of the names.
programs:
	@for name in $(PROGRAMS); do \
		if [ -f "$(BIN)/$$name" ] || [ -f "$(BIN)/sagepliers-$$name" ]; then :; \
		elif [ "$(origin BIN)" = file ]; then (set -x; $(build-program)) || exit 1; \
		else echo "make: BIN: there is no $(BIN)/$$name" >&2; exit 1; fi; \
	done

## rebuild          the same, built with rt in any case; rt proves again what has changed
rebuild:
	$(build-library)
	for name in $(PROGRAMS); do $(build-program) || exit 1; done

## ---- the command and the libraries around the proved archive

STRICT = -std=c11 -Wall -Wextra -Wpedantic -Wconversion -Wshadow
COMPILE = $(CC) $(STRICT) $(CFLAGS) -fPIC -Iinclude -DTOOLCHAIN="\"$(TOOLCHAIN)\""
SOURCES = $(filter-out host/meaning.c,$(wildcard host/*.c))
OBJECTS = $(SOURCES:host/%.c=$(BUILD)/%.o)
ARCHIVE = $(BUILD)/libsagepliers.a
SHARED = $(BUILD)/libsagepliers.so.$(VERSION)

## command          the command sagepliers, and the libraries for hosts, in target/host
command: $(BUILD)/sagepliers $(ARCHIVE) $(SHARED)

# Beside the sources: which library, which compiler, which flags. The file is new only when one of them is another, whatever the dates of files say.
$(BUILD)/inputs: library
	@mkdir -p $(BUILD)
	@{ cksum < "$(LIBRARY)" && echo '$(COMPILE) $(LDFLAGS) $(AR)'; } > $@.new
	@if cmp -s $@.new $@; then rm $@.new; else mv $@.new $@; fi

$(BUILD)/%.o: host/%.c $(wildcard host/*.h) include/sagepliers.h $(BUILD)/inputs
	$(COMPILE) -c $< -o $@

# The proved objects as they are, and meaning.o beside them. D: no dates and no owners, so that equal inputs give equal archives.
$(ARCHIVE): $(BUILD)/meaning.o
	@rm -f $@.new
	cp "$(LIBRARY)" $@.new
	chmod u+w $@.new
	$(AR) rDs $@.new $(BUILD)/meaning.o
	mv $@.new $@

$(SHARED): $(ARCHIVE) host/libsagepliers.map
	$(CC) $(CFLAGS) $(LDFLAGS) -shared -Wl,-soname,libsagepliers.so.$(SOVERSION) -Wl,--version-script=host/libsagepliers.map \
		-Wl,-z,defs -Wl,-z,relro -Wl,--whole-archive $(ARCHIVE) -Wl,--no-whole-archive -o $@

$(BUILD)/sagepliers: $(OBJECTS) $(ARCHIVE)
	$(CC) $(CFLAGS) $(LDFLAGS) $(OBJECTS) $(ARCHIVE) -pthread -o $@

## man              write host/sagepliers.1 anew from the help texts (help2man)
man: $(BUILD)/sagepliers
	HELP2MAN="$(HELP2MAN)" host/man.sh $(BUILD)/sagepliers > $(BUILD)/sagepliers.1
	cp $(BUILD)/sagepliers.1 host/sagepliers.1

## ---- install

## install          everything below, under PREFIX
install: install-library install-shared install-command install-programs install-tools

# The pkg-config file holds the paths as they are, so they must be absolute and without what pkg-config or the filling in would read as something else.
paths:
	@for path in "$(PREFIX)" "$(LIBDIR)" "$(INCLUDEDIR)" "$(BINDIR)" "$(DOCDIR)" "$(MANDIR)" "$(COMPLETIONDIR)"; do \
		case "$$path" in \
		*[[:space:]\|\&\\\"\'\$$\#]*) echo "make: the path '$$path' has a blank or one of | & \\ \" ' \$$ # in it" >&2; exit 1;; \
		/*) ;; \
		*) echo "make: '$$path' is no absolute path" >&2; exit 1;; \
		esac; \
	done

## install-library  the static library, the header and the pkg-config file
install-library: paths library $(ARCHIVE)
	$(INSTALL) -d "$(DESTDIR)$(LIBDIR)" "$(DESTDIR)$(INCLUDEDIR)" "$(DESTDIR)$(PKGCONFIGDIR)"
	$(INSTALL) -m 644 $(ARCHIVE) "$(DESTDIR)$(LIBDIR)/libsagepliers.a"
	$(INSTALL) -m 644 include/sagepliers.h "$(DESTDIR)$(INCLUDEDIR)/sagepliers.h"
	sed -e 's|@PREFIX@|$(PREFIX)|' -e 's|@LIBDIR@|$(LIBDIR)|' -e 's|@INCLUDEDIR@|$(INCLUDEDIR)|' -e 's|@EXAMPLEDIR@|$(EXAMPLEDIR)|' \
		-e 's|@VERSION@|$(VERSION)|' sagepliers.pc.in > "$(DESTDIR)$(PKGCONFIGDIR)/sagepliers.pc"
	chmod 644 "$(DESTDIR)$(PKGCONFIGDIR)/sagepliers.pc"

## install-shared   the shared library
install-shared: paths library $(SHARED)
	$(INSTALL) -d "$(DESTDIR)$(LIBDIR)"
	$(INSTALL) -m 755 $(SHARED) "$(DESTDIR)$(LIBDIR)/libsagepliers.so.$(VERSION)"
	ln -sf libsagepliers.so.$(VERSION) "$(DESTDIR)$(LIBDIR)/libsagepliers.so.$(SOVERSION)"
	ln -sf libsagepliers.so.$(SOVERSION) "$(DESTDIR)$(LIBDIR)/libsagepliers.so"

## install-command  the command sagepliers, its man page and its bash completion
install-command: paths library $(BUILD)/sagepliers
	$(INSTALL) -d "$(DESTDIR)$(BINDIR)" "$(DESTDIR)$(MANDIR)/man1" "$(DESTDIR)$(COMPLETIONDIR)"
	$(INSTALL) -m 755 $(BUILD)/sagepliers "$(DESTDIR)$(BINDIR)/sagepliers"
	$(INSTALL) -m 644 host/sagepliers.1 "$(DESTDIR)$(MANDIR)/man1/sagepliers.1"
	$(INSTALL) -m 644 host/sagepliers.bash "$(DESTDIR)$(COMPLETIONDIR)/sagepliers"

# The names of the repository are too general for a directory of everybody's programs.
## install-programs the proved programs, as sagepliers-answer, -kernel, -verify and -push
install-programs: paths programs
	$(INSTALL) -d "$(DESTDIR)$(BINDIR)"
	set -e; for name in $(PROGRAMS); do \
		built="$(BIN)/$$name"; [ -f "$$built" ] || built="$(BIN)/sagepliers-$$name"; \
		$(INSTALL) -m 755 "$$built" "$(DESTDIR)$(BINDIR)/sagepliers-$$name"; \
	done

## install-tools    sagepliers-sheets (Python 3), the documents and the examples
install-tools: paths
	$(INSTALL) -d "$(DESTDIR)$(BINDIR)" "$(DESTDIR)$(DOCDIR)" "$(DESTDIR)$(EXAMPLEDIR)"
	$(INSTALL) -m 755 tools/sheets.py "$(DESTDIR)$(BINDIR)/sagepliers-sheets"
	$(INSTALL) -m 644 $(DOCUMENTS) "$(DESTDIR)$(DOCDIR)"
	$(INSTALL) -m 644 $(EXAMPLES) "$(DESTDIR)$(EXAMPLEDIR)"

## uninstall        remove all of them
uninstall: paths
	rm -f "$(DESTDIR)$(LIBDIR)/libsagepliers.a" "$(DESTDIR)$(INCLUDEDIR)/sagepliers.h" "$(DESTDIR)$(PKGCONFIGDIR)/sagepliers.pc"
	rm -f "$(DESTDIR)$(LIBDIR)/libsagepliers.so" "$(DESTDIR)$(LIBDIR)/libsagepliers.so.$(SOVERSION)" "$(DESTDIR)$(LIBDIR)/libsagepliers.so.$(VERSION)"
	rm -f "$(DESTDIR)$(BINDIR)/sagepliers" "$(DESTDIR)$(MANDIR)/man1/sagepliers.1" "$(DESTDIR)$(COMPLETIONDIR)/sagepliers"
	rm -f "$(DESTDIR)$(BINDIR)/sagepliers-sheets"
	for name in $(PROGRAMS); do rm -f "$(DESTDIR)$(BINDIR)/sagepliers-$$name"; done
	for file in $(notdir $(DOCUMENTS)); do rm -f "$(DESTDIR)$(DOCDIR)/$$file"; done
	for file in $(notdir $(EXAMPLES)); do rm -f "$(DESTDIR)$(EXAMPLEDIR)/$$file"; done
	-[ ! -d "$(DESTDIR)$(EXAMPLEDIR)" ] || rmdir "$(DESTDIR)$(EXAMPLEDIR)"
	-[ ! -d "$(DESTDIR)$(DOCDIR)" ] || rmdir "$(DESTDIR)$(DOCDIR)"

## ---- try and test

## demo             builds what is missing, and goes from a question to a pushed point
demo: command
	@host/demo.sh $(BUILD)/sagepliers

## test             the gate (.ci/run): all tests, and everything proved from nothing
test:
	.ci/run

# Where the scripts find what was built.
BUILT = SAGEPLIERS_LIB_DIR="$(dir $(LIBRARY))" SAGEPLIERS_BIN_DIR="$(BIN)"

## test-quick       the command, the package, the tutorial, and a short comparison with the independent implementation: two minutes once built
test-quick: proved
	$(BUILT) tests/host.sh --quick
	$(BUILT) tests/package.sh
	$(PYTHON) tests/sheets_test.py
	$(BUILT) $(PYTHON) tests/tutorial.py
	$(BUILT) tests/run.sh --quick

## check-package    all tests of the command and of the package, in temporary directories
check-package: proved
	$(BUILT) tests/host.sh
	$(BUILT) tests/package.sh
	$(PYTHON) tests/sheets_test.py
	$(BUILT) $(PYTHON) tests/tutorial.py

## dist             an archive for people without the toolchain: libraries, header, programs, man page, documents, checksums
dist: all
	host/dist.sh "$(MAKE)" "$(VERSION)" "$(LIBRARY)" "$(BIN)" "$(BUILD)"

## clean            remove what make built here; what rt proved stays
clean:
	rm -rf $(BUILD)

## help             this list
help:
	@sed -n 's/^## //p' Makefile
