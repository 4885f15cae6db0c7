# munged and its client programs munge, unmunge and remunge, built with the kit's command `rt`.
#   make run          proves and builds the four, with a line for each crate; then runs munged's stored
#                     first session, and seals a credential and opens it twice, frame by frame
#   make build        proves and builds them
#   make try          proves and builds them, and runs them for what no clause says of their mains: that
#                     they hand on all of their words, each stream, the connection and the status, and
#                     that a daemon serves many, silent and broken clients over real sockets; and types
#                     the README's walk-through
#   make install      proves and builds them, and puts munged into DESTDIR PREFIX/sbin, the client
#                     programs into DESTDIR PREFIX/bin, and the manual pages of docs/man into
#                     DESTDIR PREFIX/share/man
#   make uninstall    takes them away from there
#   make check-install installs into a temporary folder, types the README's walk-through with what is
#                     installed there, uninstalls, and sees that no file is left
#   make check        looks over the documents, the manual pages, the tests' vectors and what is made
#                     from the sources
#   make docs         makes again what documents have from the sources
# Variables: PREFIX is where they are to run, DESTDIR a folder that stands for / while a package is
# made, and CPU the processor to build for, in the kit's words: x86-64 (any), x86-64-v2 (what the kit
# takes where CPU is empty) or x86-64-v3.
PREFIX ?= /usr/local
DESTDIR ?=
CPU ?=
PROGRAM = crates/munged_run
BUILT = $(PROGRAM)/out/munged_run
TOOLS = munge unmunge remunge
BUILT_TOOLS = $(foreach tool,$(TOOLS),crates/$(tool)/out/$(tool))
SBIN = $(DESTDIR)$(PREFIX)/sbin
BIN = $(DESTDIR)$(PREFIX)/bin
MAN = $(DESTDIR)$(PREFIX)/share/man
PAGES = $(wildcard docs/man/*.[1-8])
PUT_PAGES = $(foreach page,$(PAGES),$(MAN)/man$(subst .,,$(suffix $(page)))/$(notdir $(page)))

.PHONY: run build try install uninstall check-install check docs

run: build
	tools/first-session $(BUILT) $(PROGRAM)
	tools/seal-and-open $(BUILT)

build:
	tools/build munged_run $(TOOLS) $(if $(CPU),--cpu $(CPU)) -- --version

try: build
	tools/try-main $(BUILT)
	tools/try-tools
	tools/try-serve
	tools/walk-through

install: build
	install -D -m 0755 $(BUILT) $(SBIN)/munged
	install -D -m 0755 -t $(BIN) $(BUILT_TOOLS)
	for page in $(PAGES); do install -D -m 0644 -t $(MAN)/man$${page##*.} $$page || exit; done

uninstall:
	rm -f $(SBIN)/munged $(TOOLS:%=$(BIN)/%) $(PUT_PAGES)

check-install:
	tools/check-install $(PREFIX)

check:
	@mkdir -p build; failed=0; \
	for tool in "crate-tree --check" "definitions --check" "pictures --check" "vectors --check" \
	    option-example check-manuals check-callers check-links; do \
	    tools/$$tool >build/check.log || { failed=1; cat build/check.log; }; \
	done; \
	exit $$failed

docs:
	tools/crate-tree
	tools/definitions
	tools/pictures
	tools/check-links --fix
