# Everything built goes below target/, and what rt keeps of its proofs into crates/*/out/. Two tools
# are needed: the Rattle kit (its command rt) and a C compiler.

LIBRARY := target/staticlib/libplanbook.a
PLANBOOK_LIB ?= $(LIBRARY)
CLI_DIR ?= target/cli
COMMAND := $(CLI_DIR)/planbook
EXAMPLE := $(CLI_DIR)/seal_book
PKGCONFIG := $(CLI_DIR)/planbook.pc

CFLAGS ?= -O2 -g
STANDARD := -std=c99 -pedantic -Wall -Wextra
HEADER := include/planbook.h
VERSION := $(shell sed -n 's/^\#define PLANBOOK_VERSION "\(.*\)"/\1/p' $(HEADER))

# Where things go; DESTDIR is put before each. These may hold spaces.
PREFIX ?= /usr/local
BINDIR = $(PREFIX)/bin
LIBDIR = $(PREFIX)/lib
INCLUDEDIR = $(PREFIX)/include
MANDIR = $(PREFIX)/share/man
DOCDIR = $(PREFIX)/share/doc/planbook
COMPLETIONDIR = $(PREFIX)/share/bash-completion/completions

DEB := target/deb
DEB_TREE := $(DEB)/planbook-$(VERSION)

.PHONY: help demo test check lib command page bench bench-record install uninstall deb clean \
    need-kit need-compiler need-platform need-dpkg
.DELETE_ON_ERROR:

help:
	@echo "make demo      build what is missing, then seal, label, open and show the plan in examples/,"
	@echo "               a note and a page"
	@echo "make test      prove everything that rt has not proved before on this machine, and run all"
	@echo "               tests; make check is the same"
	@echo "make lib       the proved library, $(LIBRARY)"
	@echo "make command   the command, $(COMMAND)"
	@echo "make page      the program page, target/bin/page: the planting page of sheet 0 of the book"
	@echo "               on standard input"
	@echo "make bench     measure the library beside plain C, into target/bench/ (bench-record: into docs/)"
	@echo "make install   library, header, command, pkg-config file, manual pages, the format's"
	@echo "               description and the completion for bash below PREFIX=$(PREFIX)"
	@echo "make uninstall remove what make install put there, given the same variables"
	@echo "make deb       two Debian packages in $(DEB)/"
	@echo "make clean     remove target/ and crates/*/out/, and with them what rt keeps of its proofs here"

demo: need-platform need-compiler $(COMMAND) $(EXAMPLE)
	@examples/demo.sh $(COMMAND) $(EXAMPLE) target/demo

test: need-platform need-kit need-compiler
	@echo "Proving every crate, then the tests in C: this takes many minutes."
	@bash .ci/run

check: test

lib: need-platform $(PLANBOOK_LIB)

command: need-platform need-compiler $(COMMAND)

# rt proves it, and links it.
page: need-platform need-kit
	@tools/build page

bench bench-record: need-platform need-compiler $(PLANBOOK_LIB)
	@echo "Measuring: leave the machine alone meanwhile."
	@bench/run $(if $(filter bench-record,$@),--record)

# What install puts where, a line for each file: the file, its place and its mode, between bars, as
# the places may hold spaces. Install and uninstall read it from the environment.
define INSTALLED
$(COMMAND)|$(BINDIR)/planbook|755
$(PLANBOOK_LIB)|$(LIBDIR)/libplanbook.a|644
$(PKGCONFIG)|$(LIBDIR)/pkgconfig/planbook.pc|644
$(HEADER)|$(INCLUDEDIR)/planbook.h|644
cli/planbook.1|$(MANDIR)/man1/planbook.1|644
docs/planbook.3|$(MANDIR)/man3/planbook.3|644
docs/FORMAT.md|$(DOCDIR)/FORMAT.md|644
CHANGELOG.md|$(DOCDIR)/CHANGELOG.md|644
cli/planbook.bash|$(COMPLETIONDIR)/planbook|644
endef
export INSTALLED

install: need-platform need-compiler $(PLANBOOK_LIB) $(COMMAND)
	@echo "Installing below $(DESTDIR)$(PREFIX)"
	@printf '%s\n' 'prefix=$(PREFIX)' 'libdir=$(LIBDIR)' 'includedir=$(INCLUDEDIR)' '' \
	    'Name: planbook' 'Description: Plan books sealed and opened with CLEFIA, proved' \
	    'Version: $(VERSION)' 'Libs: -L"$${libdir}" -lplanbook' 'Cflags: -I"$${includedir}"' | \
	    sed '2,3s|=$(PREFIX)/|=$${prefix}/|' >$(PKGCONFIG)
	@umask 022; printf '%s\n' "$$INSTALLED" | while IFS='|' read -r file place mode; do \
	    install -D -m "$$mode" "$$file" "$(DESTDIR)$$place" || exit 1; \
	done

# Of the folders only DOCDIR is planbook's own; it is kept where something else is in it.
uninstall:
	@echo "Removing planbook below $(DESTDIR)$(PREFIX)"
	@printf '%s\n' "$$INSTALLED" | while IFS='|' read -r file place mode; do \
	    rm -f "$(DESTDIR)$$place" || exit 1; \
	done
	@[ ! -d "$(DESTDIR)$(DOCDIR)" ] || rmdir --ignore-fail-on-non-empty "$(DESTDIR)$(DOCDIR)"

# The packages are built in a copy of the tree that has the library but not the crates, so that
# nothing is proved again.
deb: need-platform need-compiler need-dpkg $(PLANBOOK_LIB)
	@echo "Building the Debian packages in $(DEB)"
	@rm -rf $(DEB) && mkdir -p $(DEB_TREE)/$(dir $(LIBRARY))
	@cp -R CHANGELOG.md Makefile README.md cli debian docs examples include $(DEB_TREE)
	@cp $(PLANBOOK_LIB) $(DEB_TREE)/$(LIBRARY)
	@cd $(DEB_TREE) && env -u MAKEFLAGS -u MAKELEVEL -u PLANBOOK_LIB \
	    dpkg-buildpackage -b -us -uc -d >../log 2>&1 || { cat ../log; exit 1; }
	@ls $(DEB)/*.deb

clean:
	rm -rf target crates/*/out

# rt knows which crates have changed; make only asks it when some file of theirs has.
$(LIBRARY): $(wildcard crates.txt) $(shell find crates -name out -prune -o -type f -print 2>/dev/null)
	@$(MAKE) --no-print-directory need-kit
	@echo "Proving the crates and building $@: minutes the first time, seconds when nothing has changed."
	@tools/build library

$(COMMAND): $(wildcard cli/*.c cli/*.h) $(HEADER) $(PLANBOOK_LIB)
	@echo "Building $@"
	@mkdir -p $(@D)
	@$(CC) $(STANDARD) $(CPPFLAGS) $(CFLAGS) -Iinclude $(wildcard cli/*.c) $(PLANBOOK_LIB) $(LDFLAGS) -o $@

$(EXAMPLE): examples/seal_book.c $(HEADER) $(PLANBOOK_LIB)
	@echo "Building $@"
	@mkdir -p $(@D)
	@$(CC) $(STANDARD) $(CPPFLAGS) $(CFLAGS) -Iinclude examples/seal_book.c $(PLANBOOK_LIB) $(LDFLAGS) -o $@

need-kit:
	@command -v rt >/dev/null || \
	    { echo "make: the Rattle kit is missing: its command rt is not in PATH" >&2; exit 2; }

need-compiler:
	@command -v $(firstword $(CC)) >/dev/null || \
	    { echo "make: no C compiler: $(firstword $(CC)) is not in PATH" >&2; exit 2; }

need-dpkg:
	@command -v dpkg-buildpackage >/dev/null || \
	    { echo "make: dpkg-buildpackage is not in PATH; Debian has it in dpkg-dev" >&2; exit 2; }

need-platform:
	@[ "$$(uname -s) $$(uname -m)" = "Linux x86_64" ] || \
	    { echo "make: the library is for x86-64 Linux, and this is $$(uname -s) $$(uname -m)" >&2; exit 2; }
