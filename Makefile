# Installs the program, its man page, the completion of bash, the units of systemd, the pages, and `ask`, the client for the shell:
#
#     make                                      gets the program (./first-run)
#     make install                              below /usr/local
#     make install PREFIX=/usr DESTDIR=FOLDER   as a package wants it
#     make uninstall
#
# and for those who change it (CONTRIBUTING.md):
#
#     make check                                the crates that a change touches
#     make gate                                 all of it
#     make bench                                how fast the service is here
#
# The program is the one that ./first-run has left, or else that of dist/.
PREFIX = /usr/local
DESTDIR =
PROGRAM = $(firstword $(wildcard crates/lazyset/out/lazyset dist/lazyset))
BIN = $(PREFIX)/bin
LIB = $(PREFIX)/lib/lazyset
MAN = $(PREFIX)/share/man/man1
DOC = $(PREFIX)/share/doc/lazyset
COMPLETIONS = $(PREFIX)/share/bash-completion/completions
UNITS = $(PREFIX)/lib/systemd/system
PARTS = lazyset@.service lazyset@.socket
# Those for operators name others, and these further ones.
PAGES = README.md CHANGELOG.md CONTRIBUTING.md $(wildcard docs/*.md docs/*.svg)

.PHONY: all install uninstall check gate bench

all:
	./first-run

check:
	tools/check-change

gate:
	.ci/run

bench:
	tools/bench/measure

install:
	@[ -n "$(PROGRAM)" ] || { echo "no program: ./first-run gets it"; exit 1; }
	install -D -m 755 "$(PROGRAM)" "$(DESTDIR)$(BIN)/lazyset"
	install -D -m 755 clients/shell/ask "$(DESTDIR)$(LIB)/ask"
	install -D -m 644 docs/lazyset.1 "$(DESTDIR)$(MAN)/lazyset.1"
	install -D -m 644 -t "$(DESTDIR)$(DOC)" $(PAGES)
	install -D -m 644 contrib/lazyset.bash "$(DESTDIR)$(COMPLETIONS)/lazyset"
	install -D -m 644 -t "$(DESTDIR)$(UNITS)" $(PARTS:%=contrib/%)
	sed -i 's|/usr/local/|$(PREFIX)/|' $(PARTS:%="$(DESTDIR)$(UNITS)/%")

uninstall:
	rm -f "$(DESTDIR)$(BIN)/lazyset" "$(DESTDIR)$(LIB)/ask" "$(DESTDIR)$(MAN)/lazyset.1" $(patsubst %,"$(DESTDIR)$(DOC)/%",$(notdir $(PAGES)))
	rm -f "$(DESTDIR)$(COMPLETIONS)/lazyset" $(PARTS:%="$(DESTDIR)$(UNITS)/%")
	rmdir "$(DESTDIR)$(LIB)" "$(DESTDIR)$(DOC)" 2> /dev/null || true
