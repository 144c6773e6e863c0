# make help              these lines
# make try               runs the program restart on the example of restart-model(7); nothing is proved by it
# make case-a            proves and builds the program restart, says how far it is, and runs it on that example
# make check-fast        what needs no proof: layout, names, links, linters for Python, Rust, C and shell; about ten seconds, the first time more
# make format            formats the crates, Rust, C and C++
# make hook              runs check-fast before every commit of this clone
# make test              proves every crate, tries the wrong programs of the gate and runs every test
# make wrong-programs    tries all wrong programs one by one, each for a fact of its own, of all crates or of CRATE=NAME
# make lib               target/librestart.a and target/librestart.so.1, the proved library for C
# make example           target/c/restart-cluster, the example over it: machine, leader and client
# make test-c            the tests in C: plainly, under valgrind, with sanitizers and as an installed library
# make fuzz SECONDS=60   compares library and program with the reference on fresh seeds for that time
# make fuzz-guided SECONDS=60   libFuzzer over the C calls and over the cluster's messages, for that time each
# make simulate SECONDS=60 SEED=1   simulated stores that fail again and again, for that time; what it finds is made smaller, told and drawn
# make performance       measures times, instructions and stack, and writes docs/PERFORMANCE.md
# make install           header, library, programs and manual pages under $(DESTDIR)$(PREFIX)
# make uninstall         removes them
# make dist              two archives in target/: the sources as last committed, and the installed tree, which can be unpacked anywhere
# make deb               Debian packages in target/: librestart1, librestart-dev and restart-tools
# make clean             removes target/ and what rt keeps in the crates' folders out/, all proofs among it
.PHONY: help try case-a check-fast format hook test wrong-programs lib example test-c fuzz simulate fuzz-guided performance install uninstall dist deb clean

.DEFAULT_GOAL := try

help:
	@sed -n 's/^# \(make [a-z]\)/\1/p' Makefile

try:
	@mkdir -p target
	@cd crates/restart && rt try <stdin >../../target/try.out 2>../../target/try.log || { cat ../../target/try.log; exit 1; }
	@cat target/try.out
	@echo "(from the source as it stands, compiled with checks; nothing is proved by it: make case-a)"

case-a: target/bin/restart
	@target/bin/restart < crates/restart/stdin

check-fast:
	@python3 checks/fast.py

format:
	@python3 checks/fast.py --format

hook:
	@hooks=$$(git rev-parse --git-path hooks) && mkdir -p "$$hooks" && install -m 755 gate/pre-commit "$$hooks/pre-commit" && echo "written: $$hooks/pre-commit"

test:
	@python3 gate/run.py

CRATE ?=
wrong-programs:
	@python3 gate/wrong.py $(CRATE)

SECONDS ?= 60
fuzz:
	@python3 tests/compare/fuzz.py $(SECONDS)

fuzz-guided: lib
	@sh tests/guided/run.sh $(SECONDS)

performance:
	@python3 bench/performance.py

# ---- The operators' tool: its program, its package and its page

TOOLDIR ?= $(PREFIX)/share/restart
SCHEMAS := $(notdir $(wildcard operators/schemas/*.schema.json))
TOOL_FILES := $(patsubst operators/%,%,$(wildcard operators/restart_text/*.py operators/restart_text/*/*.py))
DOCDIR ?= $(PREFIX)/share/doc/restart
DOCUMENTS := ASSUMPTIONS.md PROMISES.md
CASES := case-a.txt case-b.txt case-f.txt case-i.txt night.txt caps.txt seven.txt eight.txt shift.txt
COMPLETIONDIR ?= $(PREFIX)/share/bash-completion/completions
PYTHON ?= python3

.PHONY: install-tool uninstall-tool
install: install-tool
uninstall: uninstall-tool

install-tool:
	install -d $(TO)$(BINDIR) $(TO)$(MANDIR)/man1 $(TO)$(DOCDIR) $(TO)$(EXAMPLEDIR) $(TO)$(COMPLETIONDIR) $(sort $(dir $(TOOL_FILES:%=$(TO)$(TOOLDIR)/%)))
	for file in $(TOOL_FILES); do sed 's|@VERSION@|$(VERSION)|; s|@DOCDIR@|$(DOCDIR)|' operators/$$file > $(TO)$(TOOLDIR)/$$file && \
	    chmod 644 $(TO)$(TOOLDIR)/$$file || exit; done
	sed 's|@TOOLDIR@|$(TOOLDIR)|' operators/restart-text > $(TO)$(BINDIR)/restart-text
	chmod 755 $(TO)$(BINDIR)/restart-text
	PYTHONPATH=operators $(PYTHON) -B -m restart_text.completing > $(TO)$(COMPLETIONDIR)/restart-text
	chmod 644 $(TO)$(COMPLETIONDIR)/restart-text
	install -m 644 man/restart-text.1 $(TO)$(MANDIR)/man1
	install -m 644 $(SCHEMAS:%=operators/schemas/%) $(TO)$(TOOLDIR)
	install -m 644 $(DOCUMENTS:%=docs/%) $(TO)$(DOCDIR)
	install -m 644 $(CASES:%=examples/%) $(TO)$(EXAMPLEDIR)

uninstall-tool:
	rm -f $(TO)$(BINDIR)/restart-text $(TO)$(MANDIR)/man1/restart-text.1 $(TO)$(COMPLETIONDIR)/restart-text
	rm -f $(DOCUMENTS:%=$(TO)$(DOCDIR)/%) $(CASES:%=$(TO)$(EXAMPLEDIR)/%)
	rm -rf $(TO)$(TOOLDIR)/restart_text $(SCHEMAS:%=$(TO)$(TOOLDIR)/%)
	rmdir $(TO)$(DOCDIR) $(TO)$(EXAMPLEDIR) $(TO)$(TOOLDIR) 2>/dev/null || true

# ---- The library for C and what is built over it

VERSION := $(shell sed -n 's/^\#define RESTART_VERSION "\(.*\)"/\1/p' include/restart.h)
# The number in the shared library's name, raised when what was linked before would no longer run, and the first version that had it.
SONUMBER := 1
SINCE := 0.5.0
SHARED := librestart.so.$(VERSION)
ARCHIVE ?= target/staticlib/libc_planner.a
PROGRAM ?= target/bin/restart
MONDAYS ?= target/bin/mondays
SHEET ?= target/bin/sheet
SOURCES := crates.txt $(shell find crates -name out -prune -o \( -name '*.rt' -o -name '*.antt' \) -print)
CFLAGS ?= -O2
CHECKED := -std=c11 -Wall -Wextra -Werror -pedantic

lib: target/librestart.a target/librestart.so.$(SONUMBER)
example: target/c/restart-cluster

target/staticlib/libc_planner.a: $(SOURCES)
	@python3 gate/prove.py c_planner

target/bin/restart target/bin/mondays target/bin/sheet: $(SOURCES)
	@python3 gate/prove.py $(@F)

# Versions, texts and exported small functions, in plain C.
target/c/restart_extra.o: c/restart_extra.c include/restart.h
	mkdir -p $(@D)
	$(CC) $(CHECKED) $(CFLAGS) -fPIC -Iinclude -c -o $@ c/restart_extra.c

target/librestart.a: $(ARCHIVE) target/c/restart_extra.o
	mkdir -p $(@D)
	cp $(ARCHIVE) $@
	$(AR) rsD $@ target/c/restart_extra.o

# Without start files, which would bring memory that is written.
target/$(SHARED): target/librestart.a c/restart.map
	$(CC) $(LDFLAGS) -shared -nostartfiles -o $@ -Wl,-soname,librestart.so.$(SONUMBER) -Wl,--version-script=c/restart.map \
	    -Wl,-Bsymbolic-functions -Wl,-z,now -Wl,-z,noexecstack -Wl,--no-undefined -Wl,--whole-archive target/librestart.a -Wl,--no-whole-archive

target/librestart.so.$(SONUMBER): target/$(SHARED)
	ln -sf $(SHARED) $@
	ln -sf $(SHARED) target/librestart.so

CLUSTER := $(wildcard examples/cluster/*)
target/c/restart-cluster: $(CLUSTER) include/restart.h target/librestart.a
	mkdir -p $(@D)
	$(CC) $(CHECKED) $(CFLAGS) -Iinclude $(LDFLAGS) -o $@ $(filter %.c,$(CLUSTER)) target/librestart.a

# ---- The simulation: the cluster's own code and the library, between which the linker puts tests/simulate/library.c

SEED ?= 1
SIMULATED := $(addprefix examples/cluster/,disk.c machine.c serve.c keep.c leader.c client.c)
SIMULATION := $(wildcard tests/simulate/*.[ch])
WATCHED := report drop decide fetched prepared order open_view
target/simulate/simulate: $(SIMULATION) $(CLUSTER) include/restart.h target/librestart.a
	mkdir -p $(@D)
	$(CC) $(CHECKED) -Wconversion $(CFLAGS) -DCLUSTER_SWITCHES -DCLUSTER_VIEWS=32 -Iinclude -Iexamples/cluster -Itests/simulate $(LDFLAGS) -o $@ \
	    $(filter %.c,$(SIMULATION)) $(SIMULATED) $(WATCHED:%=-Wl,--wrap=restart_%) target/librestart.a

simulate: target/simulate/simulate
	@python3 tests/simulate/people.py $(SECONDS) $(SEED) $(OPTIONS)

test-c: lib $(PROGRAM) $(MONDAYS) $(SHEET)
	@sh tests/c/run.sh

# ---- Installation

PREFIX ?= /usr/local
BINDIR ?= $(PREFIX)/bin
INCLUDEDIR ?= $(PREFIX)/include
LIBDIR ?= $(PREFIX)/lib
MANDIR ?= $(PREFIX)/share/man
EXAMPLEDIR ?= $(PREFIX)/share/restart/example
PKGCONFIGDIR := $(LIBDIR)/pkgconfig
CMAKEDIR := $(LIBDIR)/cmake/restart
# The functions that the header declares: each has a manual page of its own name.
CALLS := $(shell sh c/names.sh)
EXAMPLES := settings.bin moves.bin moves.txt seven.bin seven.sheet $(CLUSTER:examples/%=%)
REPORTS := $(notdir $(wildcard examples/reports/*.bin))
PAGES_1 := restart.1 restart-cluster.1 mondays.1 sheet.1
PAGES_7 := restart.7 restart-model.7
CONFIGS := restart-config.cmake restart-config-version.cmake
TO := $(DESTDIR)

# Paths in the files for pkg-config and CMake are relative to where these files are installed.
from = $(shell realpath -m --relative-to=$(1) $(2))
# Where programs find shared libraries by themselves. From any other place pkg-config tells the runpath.
MULTIARCH := x86_64-linux-gnu
SEARCHED := $(foreach folder,/lib /usr/lib /usr/local/lib,$(folder) $(folder)64 $(folder)/$(MULTIARCH))
RUNPATH := $(if $(filter $(SEARCHED),$(LIBDIR)),,-Wl\,-rpath\,$${libdir} )
MADE := target/restart.pc $(CONFIGS:%=target/%)
target/restart.pc: HERE = $(PKGCONFIGDIR)
$(CONFIGS:%=target/%): HERE = $(CMAKEDIR)
$(MADE): target/%: c/%.in
	mkdir -p $(@D)
	sed -e 's|@PREFIX@|$(call from,$(HERE),$(PREFIX))|; s|@INCLUDEDIR@|$(call from,$(HERE),$(INCLUDEDIR))|' \
	    -e 's|@VERSION@|$(VERSION)|; s|@SONUMBER@|$(SONUMBER)|; s|@SINCE@|$(SINCE)|; s|@RUNPATH@|$(RUNPATH)|' $< > $@

.PHONY: $(MADE)
install: lib target/c/restart-cluster $(MADE) $(PROGRAM) $(MONDAYS) $(SHEET)
	install -d $(TO)$(BINDIR) $(TO)$(INCLUDEDIR) $(TO)$(PKGCONFIGDIR) $(TO)$(CMAKEDIR) $(TO)$(EXAMPLEDIR)/reports $(TO)$(EXAMPLEDIR)/cluster
	install -d $(TO)$(MANDIR)/man1 $(TO)$(MANDIR)/man3 $(TO)$(MANDIR)/man7
	install -m 755 $(PROGRAM) $(TO)$(BINDIR)/restart
	install -m 755 $(MONDAYS) $(TO)$(BINDIR)/mondays
	install -m 755 $(SHEET) $(TO)$(BINDIR)/sheet
	install -m 755 target/c/restart-cluster $(TO)$(BINDIR)/restart-cluster
	install -m 644 include/restart.h $(TO)$(INCLUDEDIR)
	install -m 644 target/librestart.a $(TO)$(LIBDIR)
	install -m 755 target/$(SHARED) $(TO)$(LIBDIR)
	ln -sf $(SHARED) $(TO)$(LIBDIR)/librestart.so.$(SONUMBER)
	ln -sf $(SHARED) $(TO)$(LIBDIR)/librestart.so
	install -m 644 target/restart.pc $(TO)$(PKGCONFIGDIR)
	install -m 644 $(CONFIGS:%=target/%) $(TO)$(CMAKEDIR)
	install -m 644 $(PAGES_1:%=man/%) $(TO)$(MANDIR)/man1
	install -m 644 man/restart.3 $(TO)$(MANDIR)/man3
	install -m 644 $(PAGES_7:%=man/%) $(TO)$(MANDIR)/man7
	for call in $(CALLS); do ln -sf restart.3 $(TO)$(MANDIR)/man3/$$call.3 || exit; done
	for file in $(EXAMPLES); do install -m 644 examples/$$file $(TO)$(EXAMPLEDIR)/$$file || exit; done
	install -m 644 $(REPORTS:%=examples/reports/%) $(TO)$(EXAMPLEDIR)/reports

uninstall:
	rm -f $(TO)$(BINDIR)/restart $(TO)$(BINDIR)/mondays $(TO)$(BINDIR)/sheet $(TO)$(BINDIR)/restart-cluster $(TO)$(INCLUDEDIR)/restart.h
	rm -f $(TO)$(LIBDIR)/librestart.a $(TO)$(LIBDIR)/$(SHARED) $(TO)$(LIBDIR)/librestart.so.$(SONUMBER) $(TO)$(LIBDIR)/librestart.so
	rm -f $(TO)$(PKGCONFIGDIR)/restart.pc $(CONFIGS:%=$(TO)$(CMAKEDIR)/%)
	rm -f $(PAGES_1:%=$(TO)$(MANDIR)/man1/%) $(TO)$(MANDIR)/man3/restart.3 $(PAGES_7:%=$(TO)$(MANDIR)/man7/%)
	rm -f $(CALLS:%=$(TO)$(MANDIR)/man3/%.3)
	rm -f $(REPORTS:%=$(TO)$(EXAMPLEDIR)/reports/%)
	rm -f $(EXAMPLES:%=$(TO)$(EXAMPLEDIR)/%)
	-rmdir $(TO)$(CMAKEDIR) $(TO)$(EXAMPLEDIR)/reports $(TO)$(EXAMPLEDIR)/cluster $(TO)$(EXAMPLEDIR) $(dir $(TO)$(EXAMPLEDIR))

# ---- Archives

NAME := restart-$(VERSION)
TREE := $(NAME)-x86_64-linux
PACK := tar --sort=name --owner=0 --group=0 --numeric-owner --mtime=@0 -czf

dist:
	rm -rf target/dist
	$(MAKE) --no-print-directory install DESTDIR=$(CURDIR)/target/dist PREFIX=/$(TREE)
	cp CHANGELOG.md target/dist/$(TREE)
	$(PACK) target/$(TREE).tar.gz -C target/dist $(TREE)
	if [ -e .git ]; then git archive --prefix=$(NAME)/ -o target/$(NAME).tar.gz HEAD; \
	else $(PACK) target/$(NAME).tar.gz --exclude=./target --exclude=./crates/*/out --exclude=__pycache__ --transform='s|^\.|$(NAME)|' .; fi
	rm -rf target/dist

deb:
	rm -rf target/deb
	$(MAKE) --no-print-directory install DESTDIR=$(CURDIR)/target/deb/tree PREFIX=/usr LIBDIR=/usr/lib/$(MULTIARCH)
	sh packaging/deb.sh target/deb/tree target $(VERSION) $(SONUMBER)
	rm -rf target/deb

clean:
	rm -rf target crates/*/out
	find . -name __pycache__ -type d -exec rm -rf {} +
