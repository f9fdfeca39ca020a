# A front on the scripts of this repository.
#
#     make            proves and builds the programs here, if they are not newer than their sources
#     make check      passes the tests, as ./test
#     make quick      runs the cases alone, with the programs as they were built last
#     make install    installs what `./bfqhost` and `./bfqctl` would run, the client, the tools, the manual and the completions of bash
#     make uninstall  removes what was installed, whole or in part
#     make clean      removes what was built here
#
# The place is PREFIX, which DESTDIR stands before. What is installed finds its parts by where it stands, so it can be moved whole.

PREFIX = /usr/local
DESTDIR =
INSTALL = install
# Prints the path of the program that the launcher of this name would run.
WHICH = tests/launch --which

VERSION := $(shell cat VERSION)
PROGRAMS := bfqhost bfqctl
BUILT := $(foreach name,$(PROGRAMS),crates/$(name)/out/$(name))
# A tool has a name of its own where it is installed, as `step` and `export` are those of others.
TOOLS := compare crashes expect export futures iolog page plot step top trace why
SHARED := $(wildcard tools/*.py)
# The page that tools/page puts scripts into.
WEB := web/bfqhost.html
# bfqclient_build.py is read by pip alone.
CLIENT := $(filter-out clients/bfqclient_build.py,$(wildcard clients/*.py))
PAGES := $(wildcard man/*.[1-8])
COMPLETIONS := $(notdir $(wildcard completions/*))
# What a program is made of. A folder is newer if a file has gone from it.
SOURCES := $(wildcard crates.txt) $(shell find crates/*/src crates/*/specs crates/*/proofs 2>/dev/null)

BIN = $(DESTDIR)$(PREFIX)/bin
# Nobody else's files stand in this folder.
OWN = $(DESTDIR)$(PREFIX)/libexec/bfqhost
MAN = $(DESTDIR)$(PREFIX)/share/man
COMPLETION = $(DESTDIR)$(PREFIX)/share/bash-completion/completions

.PHONY: all check quick install uninstall clean
# What is cut short is no program.
.DELETE_ON_ERROR:

all: $(BUILT)

$(BUILT): $(SOURCES)
	python3 tests/build.py --program $(notdir $@)

check:
	./test

quick:
	./test --built

# First it asks for the programs, so that nothing is written if there are none.
install:
	@set -eu; for name in $(PROGRAMS); do program=$$($(WHICH) $$name); test -x "$$program"; done
	$(INSTALL) -d "$(BIN)" "$(OWN)/tools" "$(OWN)/clients" "$(OWN)/web" "$(COMPLETION)"
	set -eu; for name in $(PROGRAMS); do $(INSTALL) -m 755 "$$($(WHICH) $$name)" "$(OWN)/$$name"; done
	$(INSTALL) -m 644 $(SHARED) "$(OWN)/tools"
	$(INSTALL) -m 644 $(CLIENT) "$(OWN)/clients"
	$(INSTALL) -m 644 $(WEB) "$(OWN)/web"
	set -eu; for name in $(TOOLS); do $(INSTALL) -m 755 tools/$$name "$(OWN)/tools/bfq-$$name"; done
	set -eu; put() { $(INSTALL) -m 755 /dev/null "$(BIN)/$$2"; sed "s/@NAME@/$$2/g" packaging/$$1 > "$(BIN)/$$2"; }; \
	for name in $(PROGRAMS); do put program $$name; done; for name in bfqclient bfqnbd; do put client $$name; done; for name in $(TOOLS); do put tool bfq-$$name; done
	set -eu; for page in $(PAGES); do folder="$(MAN)/man$${page##*.}"; $(INSTALL) -d "$$folder"; \
	$(INSTALL) -m 644 /dev/null "$$folder/$${page##*/}"; sed 's/@VERSION@/$(VERSION)/g' $$page > "$$folder/$${page##*/}"; done
	set -eu; for name in $(COMPLETIONS); do $(INSTALL) -m 644 completions/$$name "$(COMPLETION)/$$name"; done

uninstall:
	rm -rf "$(OWN)"
	set -eu; for name in $(PROGRAMS) bfqclient bfqnbd $(addprefix bfq-,$(TOOLS)); do rm -f "$(BIN)/$$name"; done
	set -eu; for page in $(PAGES); do rm -f "$(MAN)/man$${page##*.}/$${page##*/}"; done
	set -eu; for name in $(COMPLETIONS); do rm -f "$(COMPLETION)/$$name"; done

clean:
	rm -rf crates/*/out release/.checked-* tests/__pycache__ tools/__pycache__ clients/__pycache__
