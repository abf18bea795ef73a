# Proves, builds, tests and installs mgr. `make help` lists the targets.
# All real work is done by rt, the command of the Rattle toolchain.

PREFIX = /usr/local
BINDIR = $(PREFIX)/bin
MANDIR = $(PREFIX)/share/man
DATADIR = $(PREFIX)/share/mgr
DOCDIR = $(PREFIX)/share/doc/mgr
COMPDIR = $(PREFIX)/share/bash-completion/completions
ZSHDIR = $(PREFIX)/share/zsh/site-functions
FISHDIR = $(PREFIX)/share/fish/vendor_completions.d
LISPDIR = $(PREFIX)/share/emacs/site-lisp
FOLDERS = $(foreach name,DESTDIR BINDIR MANDIR DATADIR DOCDIR COMPDIR ZSHDIR FISHDIR LISPDIR,"$(name)=$($(name))")

MAKEFLAGS += --no-print-directory

# Folders too: they are newer once a file in them is gone.
SOURCES := crates.txt HANDLES \
	$(shell find $(wildcard crates/*/src crates/*/specs crates/*/proofs))

# What ends a target if a program is not there, with how one gets it.
need = command -v $(1) >/dev/null || { echo "$(1) is not installed: $(2)" >&2; exit 1; }
NEED_PYTHON = $(call need,python3,apt install python3)
# It is a program of Python.
NEED_RT = $(NEED_PYTHON); $(call need,rt,put KIT/bin of Rattle on PATH; docs/building.md says what that is)
# What says, before all else, which parts of the tests are left out.
without = command -v $(1) >/dev/null || echo "$(1) is not installed (apt install $(2)): $(3)"
SAY_LEFT_OUT = $(call without,strace,strace,scenes in which calls of the system fail are left out); \
	$(call without,cc,gcc libc6-dev,no growth of memory is refused)

NEED_PYTHON = command -v python3 >/dev/null || { echo "python3 is not installed" >&2; exit 1; }

.PHONY: build try scenes test-front hostile-front try-live try-hub try-exchange try-sharing try-engines try-emacs crash hostile files test gate wrong-bodies other-store contracts bench bench-growth bench-beside bench-live pictures install uninstall dist try-install clean help

build: build/mgr
	@echo "build/mgr is up to date"

build/mgr: $(SOURCES)
	@$(NEED_RT)
	@scripts/build.py

# The program, if it was built from these sources: then it is proved.
BUILT = $(shell $(MAKE) -q build/mgr && echo build/mgr)

# With no such program, the example runs before any proof.
try:
	@$(NEED_RT)
	@examples/try.sh $(BUILT)

# The parts of the front, each by itself: no built mgr is needed. Then what mypy and pyflakes say, if they are installed.
test-front:
	@python3 -m unittest discover -s front/tests
	@if command -v mypy > /dev/null; then cd front && mypy --strict mgr_front; else echo "mypy is not installed"; fi
	@if command -v pyflakes3 > /dev/null; then pyflakes3 front/mgr_front; else echo "pyflakes3 is not installed"; fi

# Ten times as many random lines of others as test-front has, for the front and for mgr, which are to take the same ones; and four write while others flood and lie. Some 40 minutes.
hostile-front: build/mgr
	@HOSTILE=10000 MGR=$(CURDIR)/build/mgr python3 -m unittest discover -s front/tests -p test_hostile.py
	@scripts/attackers.py build/mgr

# The front, in a terminal of tmux, and the picture of two people. It takes one to five minutes.
try-live: build/mgr
	@scripts/try_live.py build/mgr
	@scripts/pictures.py --check two-people build/mgr

# A hub, and those who are alone at first, have another note or write under one number. It takes three minutes or more.
try-hub: build/mgr
	@scripts/try_hub.py build/mgr

# Two that exchange over a socket of this machine, and a third that gets the log.
try-exchange: build/mgr
	@scripts/try_exchange.py build/mgr

# The ways to share a note that need no exchange: git, sync tools, one plain text.
try-sharing: build/mgr
	@scripts/try_sharing.py build/mgr

# Four who write in one note in terminals of tmux, by a hub, a folder, a branch of git, a stream of Redis, each disturbed.
# It takes some fifteen minutes, and needs rsync and Redis.
try-engines: build/mgr
	@scripts/try_engines.py build/mgr

# mgr.el in batch Emacs: its tests, notes by ssh, a folder, git and Redis, random sessions with an mgr-live at a hub, how long a key takes.
# It takes some five minutes.
try-emacs: build/mgr
	@$(NEED_PYTHON)
	@scripts/try_emacs.py build/mgr

# Saves, compactions, merges and mends that are killed at each call of the system, by strace.
crash: build/mgr
	@scripts/crash.py build/mgr

# Peers that break off or lie, memory that is refused, files that fail, logs that are made to be slow, random ones, random pairs, random sets that are merged, damaged logs that are mended, and live sessions that are killed.
hostile: build/mgr
	@scripts/hostile_peers.py build/mgr
	@scripts/refused_growths.py build/mgr
	@scripts/failing_files.py build/mgr
	@scripts/shapes.py build/mgr
	@scripts/compactions.py build/mgr
	@scripts/brief_pairs.py build/mgr
	@scripts/merged_sets.py build/mgr
	@scripts/mended_logs.py build/mgr
	@scripts/live_pairs.py build/mgr

# The files of notes that other programs change, and a second session, while they are edited.
files: build/mgr
	@scripts/files.py build/mgr

# The last line is the verdict, so nothing may follow it.
test:
	@$(NEED_RT); $(SAY_LEFT_OUT)
	@scripts/documents.py && scripts/made_refusals.py && exec scripts/gate.py

# The same, and the named wrong bodies.
gate:
	@$(NEED_RT); $(SAY_LEFT_OUT)
	@scripts/documents.py && scripts/made_refusals.py && exec scripts/gate.py --wrong-bodies

# What one does with mgr, and what is to be seen of it: all, or those of one file.
scenes: build/mgr
	@scripts/scenes.py build/mgr $(FILE)

# The wrong bodies that the gate leaves out.
wrong-bodies:
	@$(NEED_RT)
	@scripts/wrong_bodies.py

# The tests that the gate runs over one store, over the other one.
other-store:
	@$(NEED_RT)
	@scripts/other_store.py

# What each public call promises, from the sources.
contracts:
	@scripts/contracts.py

bench:
	@bench/run.sh

# How what works cost grows with their size, with the mgr that make built. It takes some five minutes.
bench-growth: build/mgr build/generate
	@$(NEED_PYTHON)
	@bench/growth.py

# Beside mg, Emacs, crdt.el and Yjs, in one run, with the mgr that make built. It takes some ten minutes.
bench-beside: build/mgr build/generate
	@$(NEED_PYTHON)
	@bench/beside.py

# Writing together, beside other programs, with the mgr that make built. It takes some twenty minutes.
bench-live: build/mgr
	@$(NEED_PYTHON)
	@bench/live.py

# Draws docs/pictures anew, from sessions in terminals of tmux and from the figures of docs/performance.md.
pictures: build/mgr
	@scripts/pictures.py two-people build/mgr
	@scripts/pictures.py figures
	@scripts/pictures.py beside

build/generate build/paged: build/%: bench/%.rs
	@$(call need,rustc,apt install rustc)
	@mkdir -p build
	@rustc --edition 2021 -O -o $@ $<

# What goes where stands in the script.
install: build/mgr
	@$(NEED_PYTHON)
	@scripts/install.py put $(FOLDERS)

uninstall:
	@$(NEED_PYTHON)
	@scripts/install.py remove $(FOLDERS)

# For machines without the prover: an archive and a package of Debian, in build/dist.
dist: build/mgr
	@$(NEED_RT)
	@scripts/dist.py build/mgr

# Both, in a fresh root of Debian. It takes three to ten minutes, and needs root and a network.
try-install:
	@$(NEED_PYTHON)
	@scripts/try_install.py

clean:
	rm -rf build crates/*/out

help:
	@echo "make           proves and builds mgr, and leaves it at build/mgr"
	@echo "make try       a first edit, and one note from two people's logs; it waits for no proof."
	@echo "               Where mgr is built, two of them exchange a note"
	@echo "make test-front"
	@echo "               tests the parts of the front, each by itself (needs python3)"
	@echo "make hostile-front"
	@echo "               gives the front 10,000 random lines of others by each way that they may come, and mgr the same (needs"
	@echo "               python3)"
	@echo "make try-live  runs mgr-live in a terminal of tmux, and looks at what it shows (needs python3 and tmux)"
	@echo "make try-hub   looks at who joins a mgr-hub late, with another note or under a number that is taken (needs python3 and"
	@echo "               tmux)"
	@echo "make try-exchange"
	@echo "               exchanges a note between two mgr on this machine (needs python3)"
	@echo "make try-sharing"
	@echo "               shares a note by git, by a sync tool and from one plain text, and shows what two edits of one"
	@echo "               word become (needs python3 and git); examples/git/README says how to share by git"
	@echo "make try-engines"
	@echo "               has four write in one note, in terminals of tmux, by a hub, a folder, a branch of git and a stream of"
	@echo "               Redis, which are away, emptied, put back, cut off or slow meanwhile, while writers are killed or leave"
	@echo "               (needs python3 and tmux; sshd; git; redis-server and python3-redis; faketime: what is not there is said)"
	@echo "make try-emacs"
	@echo "               tests mgr.el, has two Emacs and one mgr-live write at random at a hub, and measures keys (needs"
	@echo "               python3 and emacs; elpa-package-lint, if it is there; 500 sessions by scripts/try_emacs.py --help)"
	@echo "make test      looks up each name in the documents, looks for AllocErrors that sources make, proves all that"
	@echo "               the kit does not have as proved, runs every test and plays every scene; the last line counts all"
	@echo "               (needs python3)"
	@echo "make gate      the same, and tries the wrong bodies of the gate: each must be refused (needs python3)"
	@echo "make scenes    plays the scenes with the mgr that make built; those of one file: make scenes FILE=scenes/.."
	@echo "               (needs python3)"
	@echo "make wrong-bodies"
	@echo "               tries the wrong bodies that the gate leaves out: each must be refused (needs python3)"
	@echo "make other-store"
	@echo "               runs the tests of documents, buffers and sites over the other store, unproved (needs python3)"
	@echo "make contracts prints each public call with its clauses, from the sources; of one call, with the definitions that"
	@echo "               they reach: scripts/contracts.py NAME; with --down-to CRATE,.. after it these themselves, down to"
	@echo "               those of some crates; what is to be read of the claim: scripts/contracts.py --claim"
	@echo "               (needs python3)"
	@echo "make crash     kills saves, compactions, merges and mends at each call of the system, and loads again (needs"
	@echo "               python3 and strace)"
	@echo "make hostile   exchanges with peers that break off, lie, flood or are deaf; refuses each growth of memory and each"
	@echo "               call of a save; fills a disk; looks for logs that are slow; compacts random ones, exchanges"
	@echo "               random pairs whole and briefly, merges random sets, mends damaged logs, and kills live sessions"
	@echo "               (needs python3, cc, strace and root; what has to be left out without one of these is said)"
	@echo "make files     does to a note's files what other programs do while it is edited, and looks for each word"
	@echo "               (needs python3)"
	@echo "make bench     measures mgr beside a program in plain Rust (needs python3 and rustc)"
	@echo "make bench-growth"
	@echo "               runs mgr on 27 works, each at three sizes, and says which grow faster than they should (needs"
	@echo "               python3 and rustc)"
	@echo "make bench-beside"
	@echo "               measures mgr beside mg and Emacs on a terminal, Yjs, and Emacs with crdt.el, if they are installed"
	@echo "               (needs python3 and rustc; node and node-yjs, elpa-crdt)"
	@echo "make bench-live"
	@echo "               measures writing together by mgr-hub, Redis and git, beside mg, Emacs, crdt.el and tmux if they are"
	@echo "               installed (needs python3)"
	@echo "make pictures  draws docs/pictures: two who write, in terminals of tmux, and the figures of docs/performance.md"
	@echo "               (needs python3 and tmux)"
	@echo "make install   copies mgr, mgr-live, mgr-channel and mgr-hub to BINDIR, their parts to DATADIR, their manuals to"
	@echo "               MANDIR/man1, the guide and the list of commands to DOCDIR, completions for bash, zsh and fish to"
	@echo "               COMPDIR, ZSHDIR and FISHDIR, and mgr.el to LISPDIR (needs python3). They are, by PREFIX=$(PREFIX),"
	@echo "               BINDIR=$(BINDIR), DATADIR=$(DATADIR), MANDIR=$(MANDIR),"
	@echo "               DOCDIR=$(DOCDIR), COMPDIR=$(COMPDIR),"
	@echo "               ZSHDIR=$(ZSHDIR), FISHDIR=$(FISHDIR)"
	@echo "               and LISPDIR=$(LISPDIR); DESTDIR is put before them"
	@echo "make uninstall"
	@echo "               removes what make install put there, with the same words"
	@echo "make dist      packs mgr for machines without the prover, in build/dist: an archive with an install.sh, and a package"
	@echo "               of Debian (needs python3, dpkg-dev and binutils; lintian looks at it, if it is installed)"
	@echo "make try-install"
	@echo "               installs what make dist packed in a fresh root of Debian, has two write there, and removes it"
	@echo "               (needs python3, root, a network and debootstrap)"
	@echo "make clean     removes what was built and proved"
