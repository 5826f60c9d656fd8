# The ways of working. `make` or `make help` lists them.
PREFIX = /usr/local
CRATES = $(notdir $(wildcard wrong-bodies/*))

help: ## lists these targets
	@sed -n 's/^\([a-z-]*\):.*## \(.*\)/\1 \2/p' Makefile | while read -r name what; do \
		printf '%-14s%s\n' "$$name" "$$what"; done

build: ## has a program: the proved one where it is proved already, else one that isn't (3 minutes)
	./strc --keep

prove: ## proves the compiler and keeps the proved program (30 to 45 minutes)
	./strc --prove

gate: ## proves and tests everything, and the documents (some 280 processor minutes)
	@scripts/documents --check; documents=$$?; scripts/unused; unused=$$?; \
	rt ci && ./strc --keep && scripts/refuse-memory --cases && \
	scripts/native-cases --programs 1000 --plain-programs && exit $$((documents + unused))

test: build ## the examples, live runs, and what a shell can do to a run
	scripts/examples
	scripts/live-runs
	scripts/out-files
	scripts/interrupt-runs

bench: prove ## times beside Lua, CPython and C, and by workers, into bench/README.md
	bench/tables

soak: build ## random programs and many workers, refused memory and threads, hostile texts
	scripts/soak-programs
	scripts/soak-workers
	scripts/refuse-memory
	scripts/refuse-threads
	scripts/count-allocations
	scripts/hostile-texts

wrong-bodies: ## tries the wrong bodies that the gate leaves out; CRATES="a b" tries theirs
	scripts/try-wrong-bodies $(CRATES)

pictures: build ## draws the examples' graphs into docs/pictures (Graphviz)
	scripts/pictures

docs: ## writes what scripts write of the documents, the manual page and editors/
	scripts/documents
	scripts/editor-files

install: build ## installs the kept program, its manual page and the editors' files below PREFIX
	./strc --which
	install -D build/strc $(DESTDIR)$(PREFIX)/bin/strc
	install -D -m 644 docs/strc.1 $(DESTDIR)$(PREFIX)/share/man/man1/strc.1
	install -D -m 644 editors/streamit.tmLanguage.json \
		$(DESTDIR)$(PREFIX)/share/strc/streamit.tmLanguage.json
	cd editors/vim && for file in */*.vim; do \
		install -D -m 644 $$file $(DESTDIR)$(PREFIX)/share/vim/vimfiles/$$file || exit; \
	done

.PHONY: help build prove gate test bench soak wrong-bodies pictures docs install
