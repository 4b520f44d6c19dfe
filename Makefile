.PHONY: all prove help test commands bench completions dist deb package-test release-program install uninstall clean

PREFIX ?= /usr/local
DESTDIR ?=
BIN = $(DESTDIR)$(PREFIX)/bin
MAN = $(DESTDIR)$(PREFIX)/share/man/man1
BASH = $(DESTDIR)$(PREFIX)/share/bash-completion/completions
ZSH = $(DESTDIR)$(PREFIX)/share/zsh/site-functions
FISH = $(DESTDIR)$(PREFIX)/share/fish/vendor_completions.d

# Leaves the program as ./jql: the one in dist/ where it was built from these very sources, else as `make prove` builds it.
all:
	@if python3 tools/release.py current; then python3 tools/release.py unpack; else $(MAKE) --no-print-directory prove; fi

# Proves and builds the program, JOBS=n crates at a time, and compares it with the one in dist/ where that is of the same sources.
prove:
	@python3 tools/build.py
	@python3 tools/release.py compare jql

help:
	@echo "make                 leaves the program as ./jql: unpacks it from dist/, or proves it where the sources differ"
	@echo "make prove           proves and builds the program as ./jql, JOBS=n crates at a time, and compares it with dist/"
	@echo "make test            the gate: every proof from nothing, the must-fail edits, all tests"
	@echo "make commands        the commands and examples alone, through ./jql"
	@echo "make bench           measures ./jql beside an installed jq and gojq"
	@echo "make install         installs ./jql, its man page and completions below PREFIX ($(PREFIX)), with DESTDIR before it"
	@echo "make uninstall       removes them"
	@echo "make dist            packs them into dist/ as an archive"
	@echo "make deb             packs them into dist/ as a Debian package"
	@echo "make package-test    installs that package into a fresh root, and runs it (as root)"
	@echo "make completions     writes completions/ anew from the options of the command"
	@echo "make release-program puts ./jql into dist/ as the program of these sources"
	@echo "make clean           removes what was built"

# The gate (every proof from nothing, the must-fail edits, the crates' tests), then the commands and examples.
test:
	python3 tests/run.py --gate

# The commands of tests/ and the examples alone, through the program that `make` left.
commands:
	python3 tests/run.py --program ./jql

# Side by side with an installed jq and gojq.
bench: all
	python3 bench/run.py --program ./jql

completions:
	python3 tools/completions.py

dist: all
	python3 tools/package.py archive

deb: all
	python3 tools/package.py deb

package-test: deb
	python3 tests/package.py

release-program: prove
	python3 tools/release.py pack

# Takes ./jql as it is, so that `sudo make install` builds nothing.
install:
	@test -x jql || { echo "no ./jql: run make first"; exit 1; }
	install -d "$(BIN)" "$(MAN)" "$(BASH)" "$(ZSH)" "$(FISH)"
	install -m 755 jql "$(BIN)/jql"
	install -m 644 docs/jql.1 "$(MAN)/jql.1"
	install -m 644 completions/jql.bash "$(BASH)/jql"
	install -m 644 completions/_jql "$(ZSH)/_jql"
	install -m 644 completions/jql.fish "$(FISH)/jql.fish"

uninstall:
	rm -f "$(BIN)/jql" "$(MAN)/jql.1" "$(BASH)/jql" "$(ZSH)/_jql" "$(FISH)/jql.fish"

clean:
	rm -rf jql crates/*/out dist/*.tar.gz dist/*.deb
