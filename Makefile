# make demo           four planners at once, and their history gone over: on a ./pit, or else on a program without a proof, left as ./pit-unproved
# make pit            proves and builds ./pit where a source is newer than it
# make check CRATE=C  proves the crate C, over what earlier checks kept: half a minute or so after an edit
# make test           every Rattle test and every shell test, without a proof. On ./pit where it is newer than its sources, else on ./pit-unproved
# make shell          the shell tests on ./pit; TEST=NAME: one of them
# make gate           every proof, proved test, must-fail edit and stored run that no earlier run kept; then the shell tests. Leaves ./pit. ANEW=1: all anew
# make install        puts a proved ./pit, pit-page, the manual page and the completions for bash under PREFIX (/usr/local), itself below DESTDIR
# make uninstall      removes what make install put there
# make audit          what neither has: pages in a browser; on a copy of the tree further edits, planted bodies and proved tests; a soak; drawn days. Takes hours; what passed isn't tried again
# make clean          removes what was built
.PHONY: demo check test shell gate install uninstall audit clean
.DELETE_ON_ERROR:

SHELL := /bin/bash
.SHELLFLAGS := -o pipefail -c

# What the gate builds last of all, from what it has proved.
PROVED := crates/pit/out/pit

PREFIX ?= /usr/local
INTO = $(DESTDIR)$(PREFIX)
PROGRAM = "$(INTO)/bin/pit"
PAGE = "$(INTO)/bin/pit-page"
MANUAL = "$(INTO)/share/man/man1/pit.1"
COMPLETIONS = "$(INTO)/share/bash-completion/completions/pit"
FORMATS = "$(INTO)/share/doc/pit/FORMATS.md"

SOURCES := crates.txt HANDLES $(shell find crates '(' -name out -o -path 'crates/test_*' ')' -prune -o \
    -type f '(' -name '*.rt' -o -name '*.antt' ')' -print)

demo:
	@scripts/demo.sh

# Only a proved program is called so: the crates below it are proved first.
pit: $(SOURCES)
	@scripts/needs.sh
	@scripts/build.sh

pit-unproved: $(SOURCES)
	@scripts/needs.sh
	@scripts/unproved.sh $@

check:
	@[ -n "$(CRATE)" ] || { echo 'usage: make check CRATE=C' >&2; exit 2; }
	@scripts/needs.sh
	cd crates/$(CRATE) && rt check

test:
	@scripts/needs.sh
	@scripts/test.py

shell:
	@scripts/test.py --shell $(TEST)

gate:
	@scripts/needs.sh
	rt ci $(if $(ANEW),$$(rt help 2>&1 | grep -oe --anew | head -n 1)) | scripts/progress.sh
	cp $(PROVED) pit.new
	mv pit.new pit
	@scripts/test.py --shell

pit.1: pit scripts/help.py
	scripts/help.py manual ./pit >$@

pit.bash: pit scripts/help.py
	scripts/help.py completion ./pit >$@

install: pit pit.1 pit.bash
	install -D -m 755 pit $(PROGRAM)
	install -D -m 755 share/pit-page $(PAGE)
	install -D -m 644 pit.1 $(MANUAL)
	install -D -m 644 pit.bash $(COMPLETIONS)
	install -D -m 644 docs/FORMATS.md $(FORMATS)

uninstall:
	rm -f $(PROGRAM) $(PAGE) $(MANUAL) $(COMPLETIONS) $(FORMATS)
	-rmdir "$(INTO)/share/doc/pit"

audit: pit
	@scripts/needs.sh
	audit/run.sh
	audit/soak.py ./pit
	tests/replay.sh ./pit 266 200

clean:
	rm -rf pit pit.new pit-unproved pit-unproved.* pit.1 pit.bash demo audit/out crates/*/out
