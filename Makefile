# What a user runs. 'make look' shows the program at once, unproved; 'make build' leaves the proved program at build/wol,
# and 'make demo' shows it on a sample trace. 'make test' proves and tests everything.

PREFIX ?= /usr/local
DESTDIR ?=
CRATES ?=

VERSION := $(shell sed -n 's/^## \([0-9.]*\).*/\1/p' CHANGELOG.md | head -n 1)
ARCHIVE := wol-$(VERSION)-$(shell uname -s | tr A-Z a-z)-$(shell uname -m)
ROOT = $(DESTDIR)$(PREFIX)
DOCUMENTS = $(ROOT)/share/doc/wol

.PHONY: look build demo week test edits clauses hostile clients bench dist install uninstall clean

# Four policies on a sample trace, compiled by `rt try` with no proof. It runs in an empty folder, which is removed.
look:
	@echo "make look: this run is UNPROVED ('rt try'), and some 300 times slower than the proved program ('make demo'). It compiles for 1 to 3 minutes."
	@mkdir -p build
	@cd crates/wol && rt try --data wol.toml=../../samples/wol.toml -- whatif <../../samples/offload.csv >../../build/look.out 2>../../build/look.log \
	|| { cat ../../build/look.log >&2; exit 1; }
	@echo "wol whatif <samples/offload.csv: what the disks of samples/wol.toml would use by four policies (energy in mJ)."
	@cat build/look.out

build:
	@echo "make build: proves the program's crates, as many at a time as there are processors and memory, and leaves the program at build/wol."
	@echo "The first time that takes about half an hour on 4 processors, and an hour on 2; later only what changed is proved."
	@.ci/build

demo: build
	@rm -rf demo
	@mkdir -p demo/off-loading demo/plain
	@cp samples/wol.toml demo/off-loading/wol.toml
	@sed 's/^view = .*/view = []/' samples/wol.toml >demo/plain/wol.toml
	@echo "wol format, on the three volumes of samples/wol.toml, in the new folder demo/off-loading:"
	@cd demo/off-loading && ../../build/wol format
	@echo
	@echo "wol replay <samples/offload.csv: half an hour in which web0 is read every 40 seconds, and usr0 and src0 are written now and then:"
	@cd demo/off-loading && ../../build/wol replay <../../samples/offload.csv
	@echo
	@echo "The same where no volume logs for another (demo/plain): each write wakes its disk."
	@cd demo/plain && ../../build/wol format >/dev/null && ../../build/wol replay <../../samples/offload.csv
	@echo
	@echo "wol check, in both folders: what is stored is the same."
	@cd demo/off-loading && ../../build/wol check
	@cd demo/plain && ../../build/wol check
	@echo
	@echo "wol dump, in demo/off-loading: records that are still in logs."
	@cd demo/off-loading && ../../build/wol dump
	@echo
	@echo "A line that is no line of a trace ends the run, and the lines before it were run:"
	@cd demo/off-loading && { ../../build/wol replay --each <../../samples/bad.csv; echo "exit status $$?"; }

# Four policies on a generated week of 36 volumes, by the program that `make build` leaves. The trace has 151 MB.
week:
	@test -x build/wol || { echo "make week: no build/wol: run 'make build' first" >&2; exit 1; }
	@mkdir -p build/week
	@cp samples/week/wol.toml build/week/wol.toml
	@python3 samples/week/week.py >build/week/week.csv
	@cd build/week && ../wol whatif <week.csv >whatif.txt
	@cat build/week/whatif.txt
	@cd build/week && ../../contrib/wol-report <whatif.txt

# The gate: all proofs and tests, then the program that it built on closed streams, limits and odd files, and the documents against it.
test:
	@.ci/run

# The wrong bodies of tests/edits of some crates: make edits CRATES="energy report". A crate takes 2 to 40 minutes.
edits:
	@test -n "$(CRATES)" || { echo "make edits: say of which crates: make edits CRATES=\"energy report\" (all: CRATES=\"\$$(ls tests/edits)\", many hours)" >&2; exit 1; }
	tests/edits.sh $(CRATES)

# docs/CLAUSES.md, of the sources: a second. The gate refuses another one.
clauses:
	@docs/clauses.py >docs/CLAUSES.md.new && mv docs/CLAUSES.md.new docs/CLAUSES.md

# Kills among writes, clients that leave, refused calls, losses of power, no memory, and spoiled input, in their long form: under an hour.
hostile: build
	python3 tests/hostile/kills.py build/wol --kills 1000
	python3 tests/hostile/sessions.py build/wol --sessions 2000 --kills 200
	python3 tests/hostile/files.py build/wol --rounds 20
	python3 tests/hostile/calls.py build/wol --tries 100 --rounds 5
	python3 tests/hostile/forgets.py build/wol --losses 2000 --races 1000
	python3 tests/hostile/full_disk.py build/wol --rounds 40
	tests/hostile/devices.sh build/wol
	python3 tests/hostile/remote.py build/wol
	python3 tests/hostile/memory.py build/wol --tries 100
	python3 tests/hostile/accounts.py build/wol --configs 60 --lines 100000
	python3 tests/whatif.py build/wol --tries 200 --replays 40
	python3 tests/hostile/drains.py build/wol --rounds 200
	python3 tests/hostile/mutations.py build/wol --images 100000 --lines 1000000 --configs 20000

# Real NBD clients, those that are installed, against `wol serve`, and 100 kills among writes. It fails on none that is missing.
clients: build
	python3 tests/clients.py build/wol

bench: build
	bench/all.sh
	bench/turns.sh
	bench/cost.sh
	bench/drain.sh
	bench/serve.sh
	bench/opening.sh

# The program, its man pages, its completions, the tools of contrib and the documents, which keep their folders, so that their links hold.
# It builds nothing, so it can run as another user.
install:
	@test -x build/wol || { echo "make install: no build/wol: run 'make build' first" >&2; exit 1; }
	install -D -m 755 build/wol "$(ROOT)/bin/wol"
	install -m 755 -t "$(ROOT)/bin" contrib/wol-trace contrib/wol-report
	install -D -m 644 docs/wol.1 "$(ROOT)/share/man/man1/wol.1"
	install -D -m 644 docs/wol.toml.5 "$(ROOT)/share/man/man5/wol.toml.5"
	install -D -m 644 completions/wol.bash "$(ROOT)/share/bash-completion/completions/wol"
	install -D -m 644 completions/_wol "$(ROOT)/share/zsh/site-functions/_wol"
	install -D -m 644 -t "$(DOCUMENTS)" README.md CHANGELOG.md CONTRIBUTING.md
	install -D -m 644 -t "$(DOCUMENTS)/docs" docs/*.md
	install -D -m 644 -t "$(DOCUMENTS)/docs/figures" docs/figures/*
	install -D -m 644 -t "$(DOCUMENTS)/bench" bench/*.md
	install -D -m 644 -t "$(DOCUMENTS)/samples" samples/*.*
	install -D -m 644 -t "$(DOCUMENTS)/samples/week" samples/week/wol.toml
	install -m 755 -t "$(DOCUMENTS)/samples/week" samples/week/week.py
	install -D -m 755 -t "$(DOCUMENTS)/contrib" contrib/wol-trace contrib/wol-report contrib/plot.py
	install -D -m 644 -t "$(DOCUMENTS)/contrib/systemd" contrib/systemd/*

uninstall:
	rm -f "$(ROOT)/bin/wol" "$(ROOT)/bin/wol-trace" "$(ROOT)/bin/wol-report" "$(ROOT)/share/man/man1/wol.1" "$(ROOT)/share/man/man5/wol.toml.5"
	rm -f "$(ROOT)/share/bash-completion/completions/wol" "$(ROOT)/share/zsh/site-functions/_wol"
	rm -rf "$(DOCUMENTS)"

# What `make install` puts down, as an archive with a note of commit and kit and with checksums: it runs on Linux without the toolchain.
dist: build
	@rm -rf "build/$(ARCHIVE)" "build/$(ARCHIVE).tar.gz"
	@$(MAKE) -s install DESTDIR= PREFIX="$(CURDIR)/build/$(ARCHIVE)" >/dev/null
	@cp build/wol.txt "build/$(ARCHIVE)/BUILT"
	@cd "build/$(ARCHIVE)" && find . -type f ! -name SHA256SUMS -print0 | sort -z | xargs -0 sha256sum >../SHA256SUMS && mv ../SHA256SUMS .
	@tar -C build --sort=name --owner=0 --group=0 --numeric-owner -czf "build/$(ARCHIVE).tar.gz" "$(ARCHIVE)"
	@rm -rf "build/$(ARCHIVE)"
	@cd build && sha256sum "$(ARCHIVE).tar.gz" | tee "$(ARCHIVE).tar.gz.sha256"

clean:
	rm -rf build demo
