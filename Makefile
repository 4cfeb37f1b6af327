# make install PREFIX=/usr/local  installs the command lentsheep with its program, tables, tools and manual pages.
#
# It proves and builds the program first if ./sandbox has not done so. PROGRAM names another build. DESTDIR is a prefix of every
# installed path, for packages.
PREFIX = /usr/local
DESTDIR =
PROGRAM = crates/sandbox_cli/out/sandbox_cli
BIN = $(DESTDIR)$(PREFIX)/bin
LIB = $(DESTDIR)$(PREFIX)/lib/lentsheep
MAN = $(DESTDIR)$(PREFIX)/share/man
DOC = $(DESTDIR)$(PREFIX)/share/doc/lentsheep
COMPLETION = $(DESTDIR)$(PREFIX)/share/bash-completion/completions
# Tools that people run by themselves, as lentsheep-NAME.
COMMANDS = make-site running-filters script-of-strace
PAGES = lentsheep.1 lentsheep-harden.1 lentsheep-lint.1 $(COMMANDS:%=lentsheep-%.1) lentsheep-calls.5 lentsheep-script.5 lentsheep-site.5
TOOLS = link-unit make-calls $(COMMANDS)
TREES = tables $(wildcard tools/sites tools/lentsheep)

.PHONY: all install uninstall test FORCE

all: $(PROGRAM)

crates/sandbox_cli/out/sandbox_cli: FORCE
	LENTSHEEP_PROGRAM= ./sandbox sample 0 >/dev/null

install: $(PROGRAM)
	mkdir -p $(BIN) $(LIB)/tools $(MAN)/man1 $(MAN)/man5 $(DOC)/docs $(COMPLETION)
	install -m 755 $(PROGRAM) $(LIB)/program
	rm -f $(LIB)/program.proved
	[ ! -f $(PROGRAM).proved ] || install -m 644 $(PROGRAM).proved $(LIB)/program.proved
	install -m 755 sandbox $(LIB)/sandbox
	for tool in $(TOOLS); do install -m 755 tools/$$tool $(LIB)/tools/ || exit; done
	find $(TREES) \( -name __pycache__ -o -name tests \) -prune -o -type f -exec install -D -m 644 {} $(LIB)/{} \;
	ln -sfn ../lib/lentsheep/sandbox $(BIN)/lentsheep
	for tool in $(COMMANDS); do ln -sfn ../lib/lentsheep/tools/$$tool $(BIN)/lentsheep-$$tool || exit; done
	for page in $(PAGES); do install -m 644 man/$$page $(MAN)/man$${page##*.}/ || exit; done
	install -m 644 tools/completion.bash $(COMPLETION)/lentsheep
	install -m 644 README.md CHANGELOG.md LICENSE-APACHE LICENSE-MIT $(DOC)
	install -m 644 $(wildcard docs/*.md docs/*.png) $(DOC)/docs

uninstall:
	rm -rf $(LIB) $(DOC)
	rm -f $(BIN)/lentsheep $(COMMANDS:%=$(BIN)/lentsheep-%) $(COMPLETION)/lentsheep
	for page in $(PAGES); do rm -f $(MAN)/man$${page##*.}/$$page; done

# The quick tests, which need neither the kit nor a proved program. The gate is rt ci.
test:
	for test in types command sites views docs prose reality graph worst; do tools/test-$$test || exit; done
	tools/graph
