# make              proves and builds the programs, as ./filterset does, and makes their manual pages and completions
# make library      proves and builds the library for C
# make install      copies all to PREFIX, below DESTDIR if that is given; with the library for C if that is built
# make uninstall    removes what make install copied, and nothing else
# make check        builds the library for C, and runs the gate, which then tests it
# make dist         writes the sources as OUT/filterset-VERSION.tar.gz
# docs/INSTALL.md has more.
PREFIX = /usr/local
DESTDIR =
OUT = out
COMMAND = crates/filterset/out/filterset
VERSION := $(shell sed -n 's/^const VERSION: &str = "\(.*\)";$$/\1/p' crates/filterset_loading/src/commands.rt)

.PHONY: all programs extras library install uninstall check dist
all: programs
	@$(MAKE) --no-print-directory extras

programs:
	./filterset format 'all()' > /dev/null
	./filterset < examples/first.json > /dev/null

extras:
	scripts/man.py '$(OUT)/man'
	mkdir -p '$(OUT)/completions'
	for shell in bash zsh fish; do $(COMMAND) completions $$shell > '$(OUT)'/completions/$$shell || exit; done

library:
	scripts/library.sh '$(OUT)'

install:
	scripts/install.sh install '$(OUT)' '$(VERSION)' '$(PREFIX)' '$(DESTDIR)'

uninstall:
	scripts/install.sh uninstall '$(OUT)' '$(VERSION)' '$(PREFIX)' '$(DESTDIR)'

check:
	scripts/library.sh out
	bash .ci/run

dist:
	mkdir -p '$(OUT)'
	git archive --prefix=filterset-$(VERSION)/ HEAD | gzip -9n > '$(OUT)/filterset-$(VERSION).tar.gz'
