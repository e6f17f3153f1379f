## bplint: `rt` of the kit proves and builds; python3 runs the tests on what is built.
##
##   make build          proves and builds the program, crates/bplint/out/bplint; up to an hour the first time
##   make look FILE=F    lints F with the proved program if it is built, and otherwise with an unproved one, which it keeps and
##                       which is up to a thousand times slower
##   make lib            proves and builds the C library, into crates/bplist_c/out
##   make wheel          the Python package for pip, with the library in it, into dist/
##   make test-wheel     the tests of the Python package, over the library as it is built
##   make dist           archive, Debian packages, wheel and SHA256SUMS, into dist/
##   make install        program, manual page, completions, problem matcher, C library, header and bplist.pc, below PREFIX
##   make uninstall      removes all of it; give it the same words as install
##   make check          for every day: `make build lib` and the quick tests; three minutes and the proofs of what changed
##   make gate           runs the tests of .ci/run, before a push; `make test` is the same
##   make edits          tries every must-fail edit, also those that the gate leaves out
##   make fuzz CASES=N   all calls of the Python package on N changed files, with ASAN and UBSAN
##   make bench          times program and library, and writes docs/BENCHMARKS.md; ten minutes on a quiet machine
##   make clean          removes what was built
##
## PREFIX is /usr/local. DESTDIR, bindir, libdir, includedir, datadir, mandir, INSTALL, CC, AR, LD and LDFLAGS mean what they
## usually mean.

VERSION := $(shell cat VERSION)
BPLINT = crates/bplint/out/bplint
LOOK = out/look/bplint
DIST = dist

# The C library, in LIBRARY: libbplist.a and libbplist.so (no link, which rt refuses there). The kit has the heap's three
# functions.
LIBRARY = crates/bplist_c/out
SONAME = libbplist.so.0
HEAP = $(dir $(shell rt doc))c/liblibc_c.a

# What is built is at least as new as these files and folders. The crates of tests and examples are not among
# them, nor is bplist, on which examples alone stand.
PARTS = $(foreach part,src specs proofs,$(filter-out $(addprefix crates/,bplist/% bplist_calls/% bplist_samples/% bplint_tests/% \
  example_%),$(wildcard crates/*/$(part))))
SOURCES := crates.txt HANDLES $(if $(PARTS),$(shell find $(PARTS)))
PROGRAM_SOURCES = $(filter-out crates/bplist_c/%,$(SOURCES))
LIBRARY_SOURCES = $(filter-out crates/bplint%,$(SOURCES)) bplist.map

# The Python that builds the wheel and runs its tests: Debian's, which python3-dev gives headers, setuptools and wheel.
PYTHON = /usr/bin/python3

INSTALL = install
PREFIX ?= /usr/local
bindir = $(PREFIX)/bin
libdir = $(PREFIX)/lib
includedir = $(PREFIX)/include
datadir = $(PREFIX)/share
mandir = $(datadir)/man
pkgconfigdir = $(libdir)/pkgconfig
bashdir = $(datadir)/bash-completion/completions
zshdir = $(datadir)/zsh/site-functions
fishdir = $(datadir)/fish/vendor_completions.d
# A folder as bplist.pc names it.
below = $(patsubst $(PREFIX)/%,$${prefix}/%,$(1))

INSTALLED = $(addprefix $(DESTDIR),$(bindir)/bplint $(mandir)/man1/bplint.1 $(bashdir)/bplint $(zshdir)/_bplint \
  $(fishdir)/bplint.fish $(includedir)/bplist.h $(libdir)/libbplist.a $(libdir)/$(SONAME) $(libdir)/libbplist.so \
  $(pkgconfigdir)/bplist.pc $(datadir)/bplint/problem-matcher.json)
# The folders that `make install` made.
MADE = $(DESTDIR)$(datadir)/bplint/folders
FOLDERS = $(sort $(patsubst %/,%,$(dir $(INSTALLED) $(MADE))))

.PHONY: build help look lib link-lib wheel pack-wheel test-wheel dist install uninstall check gate test edits fuzz bench clean

build: $(BPLINT)

NEED_RT = @command -v rt >/dev/null || { echo 'rt is not on PATH: install the Rattle kit, as README.md says' >&2; exit 1; }

# `rt` builds the crates below first. It proves only what changed since it last proved them, by this or another command.
$(BPLINT): $(PROGRAM_SOURCES)
	$(NEED_RT)
	cd crates/bplint && rt run -- --version
	@touch $@

help:
	@sed -n 's/^## \{0,1\}//p' $(firstword $(MAKEFILE_LIST))

# By the proved program if no source is newer, and otherwise by an unproved one.
look:
	@test -f '$(FILE)' || { echo "make look FILE=F: there is no file '$(FILE)'" >&2; exit 2; }
	@program=$(BPLINT); $(MAKE) -q --no-print-directory $$program 2>/dev/null || program=$(LOOK); \
	$(MAKE) -s $$program && echo "make look: $$program lint $(FILE)" && status=0 && \
	{ $$program lint '$(FILE)' || status=$$?; } && echo "make look: it ended with status $$status" && exit $$status

$(LOOK): $(PROGRAM_SOURCES)
	$(NEED_RT)
	@echo 'make look: compiles the program unproved, in a minute or two, and keeps it as $@'
	@rm -f $@
	@python3 -B packaging/look.py $@

lib: $(LIBRARY)/libbplist.a

$(LIBRARY)/libbplist.a: $(LIBRARY_SOURCES)
	$(NEED_RT)
	cd crates/bplist_c && rt lib
	$(MAKE) link-lib

# From what is proved and built.
link-lib:
	$(LD) -r -o $(LIBRARY)/bplist.o --whole-archive $(LIBRARY)/libbplist_c.a --no-whole-archive $(HEAP)
	objcopy --wildcard --keep-global-symbol='bplist_*' $(LIBRARY)/bplist.o
	rm -f $(LIBRARY)/libbplist.a
	$(AR) rcsD $(LIBRARY)/libbplist.a $(LIBRARY)/bplist.o
	$(CC) -shared -o $(LIBRARY)/$(SONAME) $(LIBRARY)/bplist.o -Wl,-soname,$(SONAME) \
	  -Wl,--version-script=bplist.map -Wl,-z,relro,-z,now -Wl,--no-undefined $(LDFLAGS)
	cp -f $(LIBRARY)/$(SONAME) $(LIBRARY)/libbplist.so

wheel: lib
	$(MAKE) pack-wheel

# From the library as it is built. pip leaves folders in the one that it builds in, so that it gets a copy.
pack-wheel:
	mkdir -p $(DIST) && rm -f $(DIST)/bplist-*.whl
	@umask 022; copy=$$(mktemp -d) && trap 'rm -rf "$$copy"' EXIT && cp -r python include VERSION "$$copy" && \
	  cp LICENSE "$$copy/python" && \
	  BPLIST_LIBRARY='$(abspath $(LIBRARY))' PYTHONDONTWRITEBYTECODE=1 $(PYTHON) -m pip -q --disable-pip-version-check wheel \
	  --no-index --no-deps --no-build-isolation --no-cache-dir -w $(DIST) "$$copy/python"

# The package's tests, over a new wheel in a folder of its own.
test-wheel:
	$(PYTHON) -B tests/gate/python_package.py

# What is made depends on the commit and its date alone; outside a clone it is the date of today.
dist pack-wheel: export SOURCE_DATE_EPOCH ?= $(or $(shell git log -1 --format=%ct 2>/dev/null),$(shell date +%s))

dist: build lib
	$(MAKE) pack-wheel
	packaging/dist.sh $(DIST)

# The parts of both stand in .ci/run.
check: build lib
	cd crates/bplist_calls && rt run <stdin >/dev/null
	.ci/run --daily

gate test:
	.ci/run

edits: build
	python3 -B tests/gate/edits.py --all

fuzz: lib
	$(PYTHON) -B tests/gate/fuzz_python.py --cases $(or $(CASES),1000000) --seed $(or $(SEED),2)

bench: build lib wheel
	$(PYTHON) -B tests/benchmarks/page.py $(BPLINT) $(LIBRARY) $(DIST)/bplist-*.whl

install: build lib
	@made=$$(for folder in $(FOLDERS); do \
	  while ! test -d $$folder; do echo $$folder; folder=$$(dirname $$folder); done; done | sort -u); \
	  $(INSTALL) -d $(FOLDERS); for folder in $$made; do echo $$folder; done >> $(MADE)
	$(INSTALL) -m 755 $(BPLINT) $(DESTDIR)$(bindir)/bplint
	$(INSTALL) -m 644 man/bplint.1 $(DESTDIR)$(mandir)/man1/bplint.1
	$(INSTALL) -m 644 completions/bplint.bash $(DESTDIR)$(bashdir)/bplint
	$(INSTALL) -m 644 completions/_bplint $(DESTDIR)$(zshdir)/_bplint
	$(INSTALL) -m 644 completions/bplint.fish $(DESTDIR)$(fishdir)/bplint.fish
	$(INSTALL) -m 644 packaging/problem-matcher.json $(DESTDIR)$(datadir)/bplint/problem-matcher.json
	$(INSTALL) -m 644 include/bplist.h $(DESTDIR)$(includedir)/bplist.h
	$(INSTALL) -m 644 $(LIBRARY)/libbplist.a $(DESTDIR)$(libdir)/libbplist.a
	$(INSTALL) -m 755 $(LIBRARY)/$(SONAME) $(DESTDIR)$(libdir)/$(SONAME)
	ln -sf $(SONAME) $(DESTDIR)$(libdir)/libbplist.so
	sed -e 's|@PREFIX@|$(PREFIX)|; s|@VERSION@|$(VERSION)|' \
	  -e 's|@LIBDIR@|$(call below,$(libdir))|; s|@INCLUDEDIR@|$(call below,$(includedir))|' \
	  bplist.pc.in > $(DESTDIR)$(pkgconfigdir)/bplist.pc
	chmod 644 $(DESTDIR)$(pkgconfigdir)/bplist.pc

uninstall:
	rm -f $(INSTALLED)
	@if test -f $(MADE); then \
	  made=$$(sort -r $(MADE)); rm $(MADE); for folder in $$made; do rmdir --ignore-fail-on-non-empty $$folder; done; fi

clean:
	rm -rf crates/*/out out $(DIST)
