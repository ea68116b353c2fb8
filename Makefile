# What 'make help' prints is each line that begins with '#:'.
#: The shortest first; times are by the clock on 4 cores, by the machine.
#:
#: make help              seconds    this list
#: make clean             seconds    removes what was built
#: make install           seconds    copies both programs, the commands for whole trees, compat.sh, man pages, and
#:                                   completions for bash, zsh and fish below PREFIX (/usr/local); with DESTDIR=.. below
#:                                   another root
#: make uninstall         seconds    removes exactly these
#: make dist              seconds    packs the same, all pages and contrib/ into an archive in dist/, with its SHA-256
#:                                   sum beside it; what is not built is built first
#: make corpus FOLDER=..  seconds    reads each BUILD file below the folder, spells it back byte for byte, and formats
#:                                   it twice
#: make try               1-4 min    what make shows at its end, by both programs, not proved; with FILE=.. over a file of
#:                                   your own, which stays as it is
#: make bench             minutes    time and memory of a delete in a large file, of many commands in one run, also
#:                                   with a journal, of a run over many packages, of one that writes many files, and of
#:                                   reading; with FOLDER=.. of the BUILD files there
#: make little            minutes    what little input takes that could take far more, each run held to the memory that it
#:                                   is to take (up to 11 GB; what the machine lacks the memory for is not run)
#: make shapes            5 min      how much longer reading takes for twice the text, for texts of thirty shapes
#: make largest           6 min      what texts of 4, 16 and 64 MiB cost: a format, a command, one with --journal and
#:                                   an undo (4 GB of memory)
#: make fuzz              10 min     both programs over mutants for MINUTES=10; with SEED=.. the case of that number
#: make hostile           15 min     all of hostile use: torn, deep and made texts, torn and forged journals, killed
#:                                   runs, refused memory, failing calls and devices, runs beside one another, and a
#:                                   loss of power
#: make                   21-42 min  proves and builds both programs, leaves them in bin/, and shows a first run;
#:                                   JOBS=N sets how many processors that takes; KEEP=yes keeps what was proved of each
#:                                   function, for whoever changes the sources
#: make test              46-76 min  the tests: runs of the programs (tests/), every proof from nothing, the edits that
#:                                   the prover must refuse, each program and each test
#: make edits             60-100 min tries the further edits that the prover must refuse, those of edits/; with CRATE=..
#:                                   those of one crate

PROGRAMS = bin/buildozer bin/buildifier

# where they are installed, and the folder that takes the place of the root while a package is made
PREFIX ?= /usr/local
DESTDIR ?=

# the commands for whole trees, scripts that are copied there from contrib/tree/, and the modules that they share
TREES = bin/buildozer-tree bin/buildifier-tree
MODULES = $(patsubst contrib/tree/%,share/kinduzar/%,$(wildcard contrib/tree/kinduzar_tree/*.py))

# the script that takes the options of bazelbuild's programs, by the name that lines of both programs have for it
SCRIPT = share/kinduzar/contrib/compat/compat.sh

# what is installed beside the programs, in the folders where man and each shell look for it
SHARED = $(foreach program,$(notdir $(PROGRAMS) $(TREES)),share/man/man1/$(program).1 share/bash-completion/completions/$(program) \
    share/zsh/site-functions/_$(program) share/fish/vendor_completions.d/$(program).fish) share/man/man7/kinduzar-coming.7 $(MODULES)

# what the programs are made of; a second 'make' with nothing changed does nothing
SOURCES = crates.txt $(shell find crates -name out -prune -o -path '*/must-fail' -prune -o -name README.md -o -type f -print)

.PHONY: all help try share install uninstall dist test edits bench little largest shapes hostile fuzz corpus clean rt

all: $(PROGRAMS) share bin/.shown

help:
	@sed -n 's/^#: \{0,1\}//p' $(firstword $(MAKEFILE_LIST))

rt:
	@command -v rt > /dev/null || { \
	    echo "rt was not found: install a Rattle kit (rattle-kit-13b or later) and put its bin folder on the PATH." >&2; exit 1; }

try: rt
	@tools/try.py $(if $(FILE),"$(FILE)")

# One call makes both, so that what both depend on is proved once, several crates at a time.
$(PROGRAMS) &: $(SOURCES) | rt
	@tools/build.py $(notdir $(PROGRAMS))

# the program of the sheet of cases, with which the scripts of bench/ measure
bin/cases: $(SOURCES) | rt
	@tools/build.py $(notdir $@)

# a first run, shown once for each program that was built
bin/.shown: bin/buildozer bin/buildifier examples/BUILD
	@echo; echo "examples/BUILD:"; echo; cat examples/BUILD
	@echo; echo "bin/buildozer -- delete -:middle < examples/BUILD"; echo
	@bin/buildozer -- delete -:middle < examples/BUILD
	@echo; echo "bin/buildifier < examples/BUILD"; echo
	@bin/buildifier < examples/BUILD
	@touch $@

# pages and completions, made of docs/ each time, and what is copied from contrib/; a file that would not change stays
share:
	@PYTHONDONTWRITEBYTECODE=1 tools/manual.py share
	@PYTHONDONTWRITEBYTECODE=1 tools/completions.py share
	@for file in $(notdir $(TREES)); do install -C -D -m 755 "contrib/tree/$$file" "bin/$$file" || exit 1; done
	@for file in $(MODULES:share/kinduzar/%=%); do install -C -D -m 644 "contrib/tree/$$file" "share/kinduzar/$$file" || exit 1; done
	@install -C -D -m 755 "$(SCRIPT:share/kinduzar/%=%)" "$(SCRIPT)"

# What make has built is installed as it is, so that nothing is built with the rights that installing takes.
install: share
	@for program in $(PROGRAMS); do \
	    [ -x "$$program" ] || { echo "$$program was not found: run make first." >&2; exit 1; }; done
	@umask 022; \
	    for file in $(PROGRAMS) $(TREES) $(SCRIPT); do install -D -m 755 "$$file" "$(DESTDIR)$(PREFIX)/$$file" || exit 1; done; \
	    for file in $(SHARED); do install -D -m 644 "$$file" "$(DESTDIR)$(PREFIX)/$$file" || exit 1; done

uninstall:
	@for file in $(PROGRAMS) $(TREES) $(SCRIPT) $(SHARED); do rm -f "$(DESTDIR)$(PREFIX)/$$file" || exit 1; done
	@for folder in $(addprefix share/kinduzar/,kinduzar_tree contrib/compat contrib) share/kinduzar; do \
	    [ ! -d "$(DESTDIR)$(PREFIX)/$$folder" ] || rmdir --ignore-fail-on-non-empty "$(DESTDIR)$(PREFIX)/$$folder" || exit 1; done

# what is packed beside these: all pages, those of the crates too, so that each link leads somewhere in the archive
PACKED = $(wildcard *.md LICENSE crates/*/README.md) .pre-commit-hooks.yaml $(shell find contrib docs -type f -not -path "*/__pycache__/*")

dist: $(PROGRAMS) share
	@PYTHONDONTWRITEBYTECODE=1 tools/archive.py dist $(PROGRAMS) $(TREES) $(SCRIPT) $(SHARED) $(PACKED)

# Where four processors and the memory for four proofs are there, four run side by side; by its own estimates rt starts fewer.
LANES = $(shell [ "$$(nproc)" -ge 4 ] && [ "$$(awk '/MemAvailable/ { print int($$2 / 1000000) }' /proc/meminfo)" -ge 18 ] && echo RT_JOBS=4)

test: rt
	@env $(LANES) tests/programs.py rt ci

edits: rt
	@tests/edits.py $(CRATE)

bench: $(PROGRAMS) bin/cases
	@bench/delete.sh
	@bench/commands.py
	@bench/journals.py
	@bench/packages.py
	@bench/files.py
	@bench/reading.py $(if $(FOLDER),"$(FOLDER)")

little: $(PROGRAMS)
	@bench/little.py

largest: $(PROGRAMS)
	@bench/largest.py

shapes: bin/cases
	@bench/shapes.py

hostile: $(PROGRAMS) bin/cases
	@HOSTILE=whole tests/scenes/hostile_texts.py $(PROGRAMS) bin/cases
	@HOSTILE=whole tests/scenes/journals.py bin/buildozer
	@HOSTILE=whole tests/scenes/killed.py bin/buildozer
	@HOSTILE=whole tests/scenes/refused_memory_runs.py bin/buildozer bin/cases bin/buildifier
	@HOSTILE=whole tests/scenes/refused_memory_calls.py bin/cases
	@HOSTILE=whole tests/scenes/failing_calls.py $(PROGRAMS)
	@HOSTILE=whole tests/scenes/devices.py $(PROGRAMS)
	@HOSTILE=whole tests/scenes/races.py $(PROGRAMS)
	@HOSTILE=whole tests/scenes/whole_trees.py $(PROGRAMS)
	@HOSTILE=whole tests/scenes/foreign_trees.py $(PROGRAMS)
	@HOSTILE=whole tests/scenes/power.py $(PROGRAMS)
	@HOSTILE=whole tests/scenes/disk_acts.py $(PROGRAMS)
	@HOSTILE=whole tests/scenes/refusal_places.py $(PROGRAMS)

MINUTES = 10

fuzz: $(PROGRAMS)
	@MINUTES=$(MINUTES) tests/scenes/fuzz.py $(PROGRAMS) $(SEED)

corpus: bin/cases bin/buildifier
	@bench/corpus.sh "$(FOLDER)"
	@bench/formats.sh "$(FOLDER)"

clean:
	rm -rf bin share dist crates/*/out
