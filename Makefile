# getmail and popd: to build them, to try them out, to check them.
#
#   make demo       serves a message with popd, fetches it with getmail, and shows each step: in a second, or before the
#                   programs are built in two minutes on four cores, in three on two
#   make            proves and builds the programs into bin/: half an hour on four cores; again only what has changed,
#                   if the kit keeps what it has proved (README.md)
#   make check      the gate: every proof, then every test; its last line is 'N passed, 0 failed'
#   make quick      what can be checked in seconds: the layout, the mutants' texts, the documents, these two texts
#   make statement  prints what is promised with all definitions, from the sources: docs/STATEMENT.txt
#   make axioms     prints what is trusted, from the sources: docs/AXIOMS.txt
#   make test       builds the programs and the tests of the libraries, and runs these and the tests from outside;
#                   `make test-getmail WORDS='-k install'` builds only what the tests of getmail need, and runs some
#   make install    puts programs, man pages, completions, units and examples below PREFIX (/usr/local), and builds only
#                   what bin/ lacks; `make uninstall` takes them away
#   make dist       an archive and a Debian package of what bin/ has, for machines without the toolchain
#                   (both refuse programs that were proved from other sources than these, or were changed since)
#   make notices    prints the notices of the kit's crates that the programs contain: NOTICES
#   make bench      builds the programs, then prints speed and memory as ratios; not in the gate

SHELL := /bin/bash
.SHELLFLAGS := -eu -o pipefail -c

.PHONY: all demo check quick statement axioms notices test dist bench install uninstall clean
.PHONY: getmail popd probe libraries proved
.PHONY: test-getmail test-popd test-probe test-libraries
.PHONY: bench-getmail bench-popd bench-probe
.NOTPARALLEL:

# Each ends `make` with a line that says what is missing.
need_sources = $(if $(wildcard crates),,$(error there are no sources here: only demo, install and uninstall can be made))
need_python = $(if $(shell command -v python3),,$(error `python3` is not on PATH: see README.md))
need_rt = $(need_sources)$(need_python)$(if $(shell command -v rt),,$(error `rt`, which the Rattle kit has, is not on PATH: see README.md))

all:
	@$(need_rt)./build.py getmail popd
	install -D -m 755 -t bin crates/getmail/out/getmail crates/popd/out/popd
	install -m 644 -t bin crates/getmail/out/getmail.sha256 crates/popd/out/popd.sha256

getmail popd:
	@$(need_rt)./build.py $@
	install -D -m 755 -t bin crates/$@/out/$@
	install -m 644 -t bin crates/$@/out/$@.sha256

demo:
	@$(need_python)$(if $(and $(wildcard bin/getmail),$(wildcard bin/popd)),,$(need_rt))python3 examples/demo/run.py

check:
	@$(need_rt)tests/gate.sh

# `rattle` looks at the layout of all files at once, and `rt` only at a crate's.
quick:
	@$(need_rt)
	@$$(dirname "$$(rt doc)")/bin/rattle fmt --check $$(find crates -name out -prune -o -name '*.rt' -print -o -name '*.antt' -print)
	@python3 tests/check_edits.py
	@python3 tests/test_documents.py
	@python3 tests/test_sources.py
	@python3 tests/test_surface.py
	@python3 tests/test_tools.py

statement:
	@$(need_sources)python3 tools/$@.py

axioms notices:
	@$(need_rt)python3 tools/$@.py

# The tests from outside and the benchmarks also run a small program that makes the libraries' calls one by one.
probe:
	@$(need_rt)./build.py $@

libraries:
	@$(need_rt)./build.py tests

test:
	@$(need_rt)./build.py getmail popd probe tests
	python3 tests/test_documents.py
	python3 tests/test_sources.py
	python3 tests/test_surface.py
	python3 tests/test_tools.py
	python3 tests/run.py

test-getmail: popd probe
test-getmail test-popd test-probe test-libraries: test-%: %
	python3 tests/run.py --only $* $(WORDS)

bench: bench-getmail bench-popd bench-probe

bench-getmail: getmail popd
	@python3 bench/rehearsal.py
	@python3 bench/getmail.py
	@python3 bench/flushes.py
	@python3 bench/why.py

bench-popd: popd
	@python3 bench/popd.py

bench-probe: probe
	@python3 bench/pop3_client.py
	@python3 bench/fetch_rules.py
	@python3 bench/mail_store.py
	@python3 bench/mboxrd.py

# The programs are built here only if they aren't there: a machine without the toolchain installs what it was given.
bin/getmail bin/popd:
	@$(need_rt)$(MAKE) --no-print-directory $(notdir $@)

proved: bin/getmail bin/popd
	@$(if $(wildcard crates),./build.py --unchanged getmail popd)

# DESTDIR comes before all of it.
PREFIX ?= /usr/local
export PREFIX DESTDIR

install: proved
	./install.sh

uninstall:
	./install.sh --remove

dist: proved
	@$(need_sources)packaging/dist.py

clean:
	rm -rf bin dist
