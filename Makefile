# The newcomer's commands. The test command, and the gate, is `.ci/run`.
OMOSD := crates/omosd/out/omosd

OMOS := crates/omos/out/omos

FRAGMENT := crates/omos_fragment/out/omos_fragment

LINK_CASES := crates/link_cases/out/link_cases

STORE_CASES := crates/store_cases/out/store_cases

TURNS := crates/turn_bench/out/turn_bench

VERSION_BENCH := crates/version_bench/out/version_bench

SHARED_CASES := crates/shared_cases/out/shared_cases

WIRE_CASES := crates/wire_cases/out/wire_cases

# Where `make install` puts the programs, the scripts of contrib/, their pages and their data.
PREFIX ?= /usr/local
DESTDIR ?=
BINDIR := $(PREFIX)/bin
COMPLETIONS := $(PREFIX)/share/bash-completion/completions
SCRIPTS := omos-explain omos-put-dir omos-run

.PHONY: help try try-test build demo server live test trials contrib docs house examples real \
	links stores turns versions shares wires sweep bench memory clean install uninstall

help:
	@echo "make try     builds omosd and omos with no proof, in a minute or two, and runs the demo"
	@echo "make build   proves omosd and omos and builds them as $(OMOSD), $(OMOS)"
	@echo "make demo    make examples; then links one and shows what it prints; then make server"
	@echo "make server  starts a server, wraps an allocator, links both programs and runs them"
	@echo "make live    tries the real programs over real sockets"
	@echo "make test    make live, the examples, contrib/, the README's commands, docs/ and man/"
	@echo "make try-test  the same with the programs of make try"
	@echo "make examples  runs each of examples/ and compares what it prints"
	@echo "make contrib  tries the scripts of contrib/, the completions and make install"
	@echo "make docs    looks at links, names of files, the tables of refusals and of codes, and the"
	@echo "             examples of frames in docs/ and man/"
	@echo "make wires   compares frames, streams and runs of the client with the formats' text"
	@echo "make house   makes ARCHITECTURE's table of crates from crates.txt, and draws docs/house.svg"
	@echo "make install, make uninstall  with PREFIX=, which is /usr/local"
	@echo "make real    compares what is kept of compilers' objects with readelf, and runs with ld's"
	@echo "make sweep   compares links of some 8,000 blueprints with plain descent through names,"
	@echo "             4,000 texts with a slow reader of the grammar, and versions with plain lists"
	@echo "make memory  refuses each allocation of a run in turn"
	@echo "make bench   times it beside other linkers, and counts instructions"
	@echo "rt ci        proves and tests everything; .ci/run, the test command, then runs make live"

# The demo by programs of which nothing is proved.
try:
	@examples/try.sh out/try
	@examples/demo.sh out/try/omosd
	@examples/server.sh out/try/omosd out/try/omos
	@echo "Nothing was proved: make build proves, and builds the programs to use."

build:
	@echo "Proving and building omosd and omos. The first time this takes most of an hour,"
	@echo "later seconds. (make try builds them in a minute or two, and proves nothing.)"
	@tools/build.py omosd=--version omos=--help
	@echo "The proved programs are $(OMOSD) and $(OMOS)."

demo: build examples
	@examples/demo.sh $(OMOSD)
	@examples/server.sh $(OMOSD) $(OMOS)

server: build
	@examples/server.sh $(OMOSD) $(OMOS)

live: build
	@tests/live.sh $(OMOSD) $(OMOS)

examples: build
	@examples/run.sh $(OMOSD)
	@examples/sessions.sh $(OMOSD) $(OMOS)

# All that is tried of the programs as a whole, by those that make build or make try leaves.
test: build
	@$(MAKE) -s trials OMOSD=$(OMOSD) OMOS=$(OMOS)

try-test: try
	@$(MAKE) -s trials OMOSD=out/try/omosd OMOS=out/try/omos

trials:
	@tests/live.sh $(OMOSD) $(OMOS)
	@examples/run.sh $(OMOSD)
	@examples/sessions.sh $(OMOSD) $(OMOS)
	@tests/contrib.sh $(OMOSD) $(OMOS)
	@tests/readme.py $(OMOSD) $(OMOS)
	@tests/docs.sh
	@tests/words.py
	@tests/inside.py

contrib: build
	@tests/contrib.sh $(OMOSD) $(OMOS)

docs:
	@tests/docs.sh

house:
	@docs/house.py

install:
	@for file in $(OMOSD) $(OMOS); do \
	    test -x $$file || { echo "make: $$file is missing: make build" >&2; exit 1; }; done
	install -d $(DESTDIR)$(BINDIR) $(DESTDIR)$(PREFIX)/share/omos
	install -m 755 $(OMOSD) $(OMOS) $(SCRIPTS:%=contrib/%) $(DESTDIR)$(BINDIR)
	install -m 644 docs/refusals.txt $(DESTDIR)$(PREFIX)/share/omos
	for part in 1 5 7; do \
	    install -d $(DESTDIR)$(PREFIX)/share/man/man$$part && \
	    install -m 644 man/*.$$part $(DESTDIR)$(PREFIX)/share/man/man$$part || exit 1; done
	install -d $(DESTDIR)$(COMPLETIONS)
	install -m 644 contrib/omos.bash $(DESTDIR)$(COMPLETIONS)/omos
	for name in omosd $(SCRIPTS); do ln -sf omos $(DESTDIR)$(COMPLETIONS)/$$name; done
	install -d $(DESTDIR)$(PREFIX)/share/zsh/site-functions
	install -m 644 contrib/_omos $(DESTDIR)$(PREFIX)/share/zsh/site-functions/_omos
	install -d $(DESTDIR)$(PREFIX)/share/systemd/user
	sed 's|@BINDIR@|$(BINDIR)|' contrib/omosd.service \
	    > $(DESTDIR)$(PREFIX)/share/systemd/user/omosd.service

uninstall:
	rm -f $(DESTDIR)$(BINDIR)/omosd $(DESTDIR)$(BINDIR)/omos \
	    $(SCRIPTS:%=$(DESTDIR)$(BINDIR)/%) $(DESTDIR)$(PREFIX)/share/omos/refusals.txt \
	    $(foreach part,1 5 7,$(patsubst man/%,$(DESTDIR)$(PREFIX)/share/man/man$(part)/%,\
	    $(wildcard man/*.$(part)))) \
	    $(foreach name,omos omosd $(SCRIPTS),$(DESTDIR)$(COMPLETIONS)/$(name)) \
	    $(DESTDIR)$(PREFIX)/share/zsh/site-functions/_omos \
	    $(DESTDIR)$(PREFIX)/share/systemd/user/omosd.service
	-rmdir $(DESTDIR)$(PREFIX)/share/omos

real: build
	@cd crates/omos_fragment && rt run -- data/twelve.o > out.log 2>&1 || \
	    { tail -n 20 out.log; exit 1; }
	@rm -f crates/omos_fragment/out.log
	@tests/real.py $(FRAGMENT) $(OMOSD)

# The program reads its table from the folder that it is run in, so the run in its own folder only
# builds it.
links:
	@rm -f $(LINK_CASES)
	@cd crates/link_cases && rt run > out.log 2>&1; test -x out/link_cases || \
	    { tail -n 20 out.log; exit 1; }
	@cd crates/link_cases/data && ../out/link_cases > ../out.log && cmp ../out.log ../stdout
	@rm -f crates/link_cases/out.log

stores:
	@rm -f $(STORE_CASES)
	@cd crates/store_cases && rt run > out.log 2>&1; test -x out/store_cases || \
	    { tail -n 20 out.log; exit 1; }
	@cd crates/store_cases/data && ../out/store_cases > ../out.log && cmp ../out.log ../stdout
	@rm -f crates/store_cases/out.log

turns:
	@cd crates/turn_bench && rt run -- 2 1000 > out.log 2>&1 || { tail -n 20 out.log; exit 1; }
	@rm -f crates/turn_bench/out.log

versions:
	@cd crates/version_bench && rt run -- tree 100 > out.log 2>&1 || { tail -n 20 out.log; exit 1; }
	@rm -f crates/version_bench/out.log

shares:
	@rm -f $(SHARED_CASES)
	@cd crates/shared_cases && rt run > out.log 2>&1; test -x out/shared_cases || \
	    { tail -n 20 out.log; exit 1; }
	@rm -f crates/shared_cases/out.log

wires:
	@rm -f $(WIRE_CASES)
	@cd crates/wire_cases && rt run > out.log 2>&1; test -x out/wire_cases || \
	    { tail -n 20 out.log; exit 1; }
	@rm -f crates/wire_cases/out.log
	@tests/wire.py $(WIRE_CASES)

memory: build
	@tests/memory.py $(OMOSD) $(OMOS)

sweep: links
	@tests/sweep.py $(LINK_CASES)
	@tests/dags.py $(LINK_CASES)
	@tests/texts.py $(LINK_CASES)
	@tests/versions.py $(LINK_CASES)

bench: build links stores turns versions shares wires
	@bench/once.sh $(OMOSD)
	@bench/objects.sh $(OMOSD)
	@bench/memory.sh $(OMOSD)
	@bench/operators.sh $(LINK_CASES)
	@bench/evaluate.sh $(LINK_CASES)
	@bench/sharing.sh $(LINK_CASES)
	@bench/text.sh $(LINK_CASES)
	@bench/largest.sh $(LINK_CASES)
	@bench/publish.sh $(LINK_CASES) $(VERSION_BENCH)
	@bench/store.sh $(STORE_CASES)
	@bench/lock.sh $(TURNS)
	@bench/collide.sh $(OMOSD)
	@bench/wire.sh $(WIRE_CASES)
	@bench/session.sh $(OMOSD)
	@bench/cold.sh $(OMOSD)
	@bench/shared.sh $(OMOSD) $(SHARED_CASES)
	@bench/misses.py $(OMOSD)
	@bench/hits.sh $(OMOSD) $(OMOS)
	@bench/wrapping.sh $(OMOSD) $(OMOS)

clean:
	rm -rf crates/*/out
