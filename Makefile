# `make` proves the crates and builds the proved program, ./gamefile, and `make run` shows what it
# writes of an example; `make library` proves and builds the library for C and Python, and `make page`
# turns it into a page for a browser; `make install PREFIX=..` puts the program, its man page and, if it
# was built, the library in place, `make install-library PREFIX=..` the library alone, and
# `make uninstall PREFIX=..` removes all of these; `make page dist` makes a release, in dist; `make doc`
# writes docs/out, pages about the sources; `make test` proves and tests everything; `make bench` times
# the program and, if it was built, the library; `make clean` removes what was built.

RT ?= rt
export RT
PREFIX ?= /usr/local
LIBDIR ?= $(PREFIX)/lib
ZSHDIR ?= $(PREFIX)/share/zsh/site-functions

version = $(shell sed -n 's/^.define GAMEFILE_VERSION "\(.*\)"/\1/p' library/gamefile.h)
sources := crates.txt $(shell find crates -name out -prune -o -type f -print)

# What was begun and failed is made again.
.DELETE_ON_ERROR:

.PHONY: all run library page install install-program install-library uninstall dist doc test bench \
    clean

all: gamefile release/out/gamefile

gamefile: $(sources)
	./prove gamefile
	cp crates/gamefile/out/gamefile .

# The program that is installed runs without a C library, if `cc` can link it so.
release/out/gamefile: gamefile release/link
	release/link

run: all
	./gamefile canon examples/battle-of-the-sexes.nfg

# library/out, and the Python package, which takes the shared object along.
library: library/out/libgamefile.so.1 python/gamefile/libgamefile.so.1

library/out/libgamefile.so.1: $(sources) $(wildcard library/gamefile.*) library/build
	./prove gamefile_c
	library/build

python/gamefile/libgamefile.so.1: library/out/libgamefile.so.1
	cp library/out/libgamefile.so.1 python/gamefile/

# page/out, of what was proved for the library.
page: library/out/libgamefile.so.1
	page/build

install: install-program $(if $(wildcard library/out/libgamefile.so.1),install-library)

install-program: release/out/gamefile
	install -D -m 755 release/out/gamefile $(DESTDIR)$(PREFIX)/bin/gamefile
	install -D -m 644 docs/gamefile.1 $(DESTDIR)$(PREFIX)/share/man/man1/gamefile.1
	install -D -m 644 completions/gamefile.bash \
	    $(DESTDIR)$(PREFIX)/share/bash-completion/completions/gamefile
	install -D -m 644 completions/_gamefile $(DESTDIR)$(ZSHDIR)/_gamefile

install-library:
	install -D -m 644 library/gamefile.h $(DESTDIR)$(PREFIX)/include/gamefile.h
	install -D -m 644 library/out/libgamefile.a $(DESTDIR)$(LIBDIR)/libgamefile.a
	install -D -m 755 library/out/libgamefile.so.1 $(DESTDIR)$(LIBDIR)/libgamefile.so.1
	ln -sf libgamefile.so.1 $(DESTDIR)$(LIBDIR)/libgamefile.so
	install -d $(DESTDIR)$(LIBDIR)/pkgconfig
	sed -e 's|@PREFIX@|$(PREFIX)|' -e 's|@LIBDIR@|$(LIBDIR:$(PREFIX)/%=$${prefix}/%)|' \
	    -e 's|@VERSION@|$(version)|' library/gamefile.pc.in \
	    > $(DESTDIR)$(LIBDIR)/pkgconfig/gamefile.pc

uninstall:
	rm -f $(addprefix $(DESTDIR)$(PREFIX)/,bin/gamefile share/man/man1/gamefile.1 \
	    share/bash-completion/completions/gamefile include/gamefile.h) \
	    $(DESTDIR)$(ZSHDIR)/_gamefile \
	    $(addprefix $(DESTDIR)$(LIBDIR)/,libgamefile.a libgamefile.so libgamefile.so.1 \
	    pkgconfig/gamefile.pc)

# With the page, if it was built or is asked for too, as in `make page dist`.
dist: release/out/gamefile library/out/libgamefile.so.1 python/gamefile/libgamefile.so.1 \
    $(if $(filter page,$(MAKECMDGOALS))$(wildcard page/out/index.html),page)
	rm -rf dist
	release/build dist

doc:
	docs/reference.py

test:
	tests/gate

bench:
	bench/generate
	bench/run
	if [ -e library/out/libgamefile.a ]; then \
	    $${CC:-cc} -O2 -Ilibrary bench/calls.c library/out/libgamefile.a -o library/out/calls && \
	    library/out/calls ./gamefile examples/*.?fg $(addprefix bench/inputs/,plain-tree.efg outcomes.nfg) && \
	    python3 bench/calls.py examples/*.?fg; \
	fi

clean:
	rm -rf gamefile bench/inputs crates/*/out dist docs/out library/out page/out python/gamefile/libgamefile.so.1 \
	    release/out
