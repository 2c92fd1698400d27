# make demo       steps through one session, built without proving
# make examples   runs every example, with the proved programs where they are up to date, and else built without proving
# make scenarios  runs every scenario and example with proved programs; proves what isn't up to date
# make accept NAME..   keeps what comes back of these scenarios as what is wanted, and marks them unread
# make build      proves the programs and leaves them in bin/
# make bench      times whole runs of the programs, on growing grammars and over long parses; FILES="a.y b.y" adds grammar files to them
# make refuse     refuses allocations of a run, each once and each with all later ones, on every example and some scenarios, and counts those of each line of every session; FILES="a.y b.y" refuses some thousands over these grammar files instead
# make debug      refuses the allocations of 14 sessions and 32 commands of ydebug one after the other, gives it 100,000 random command lines over random grammars, shows its screens at a terminal, and types at the script that make install copies, which needs tmux and rlwrap
# make editors    works on a grammar in Neovim and Emacs with ydebug serve, by the settings of docs/EDITORS.md; it takes neovim and emacs-nox with elpa-eglot
# make page-test  steps through the pages of every example in a headless browser, which apt-get installs where it is missing, and compares them with ystep; runs the playground too, where it was made; keeps pictures in screenshots/
# make compare    compares the programs that make build left with plain machines in Python, on grammars drawn at random, for a minute, its reports on conflicts with all canonical sets and with what it says for programs, verdicts with sessions over every scenario, errors with a search over all stacks, texts with a lexer in Python, and what hints and warnings on conflicts say with changed grammars, for a minute each; FILES="a.y b.y" adds these, cut off and spoiled, with a second reader
# make parsers    compares the steps of parsers that ycc makes with those of ystep, over scenarios and 2,000 grammars at random, under other policies of default reductions with those of bison and byacc over 500, their messages for errors with those of ydebug, and builds the calculator of examples/calculator-c in every way; some minutes
# make features   builds small programs, each of which uses a feature of bison's or byacc's files, by the peer and by ycc, and compares what they do; and a calculator by ycc below make, automake's ylwrap, CMake and Meson, beside parsers that are out of date; and languages that ydebug init begins, with their tests. It takes bison, byacc, a C compiler, automake, cmake, meson and ninja; some minutes
# make packages   builds some source packages of Debian with parsers that ycc makes and with those of byacc or bison, runs their own tests, and gives both builds 300 spoiled inputs for each program; PACKAGES="bc units" names some. It takes a network, byacc, bison, flex, cmake, automake and meson
# make drawn      draws 35 source packages of Debian that use bison or byacc, makes each of their parsers by ycc too, compiles both, and says why one differs; PACKAGES="bc units" names some. It takes a network, byacc, bison, and a while
# make drivers    builds the drivers in C and Python, and compares their steps with those of ystep, over scenarios, at random and by tables that are wrong
# make library    proves the crate yembed and leaves libsulderko.a and libsulderko.so.1 in bin/: the proved core for programs in C and Python
# make wheel      makes a wheel of the module in Python in bin/, with the library in it; PYTHON names a Python that has build, setuptools and wheel
# make library-test  runs that library: the scenarios of ystep through C and Python, every room, refused memory, threads; some minutes
# make playground  makes bin/playground.html, one page for grammars and parses with the library in it, as a WebAssembly module, in a checkout whose crates were proved
# make playground-test  runs it: the module by node on the scenarios of ystep and on 2,000 grammars at random, the page in headless browsers, which apt-get installs where they are missing
# make install    copies programs, manual pages, completions, drivers and books below PREFIX (/usr/local), and with DESTDIR below that; make build comes first. The library and its module for Python, which goes to PYTHONDIR (lib/python3/dist-packages), are copied where make library built it, but for NO_LIBRARY=1, and the playground where make playground did. The yacc that writes tables and no C goes to libexec/sulderko; TABLE_WRITER=1 puts it into bin. bin/ydebug is a script that gives a session at a terminal rlwrap and a way back from Ctrl-C, and starts libexec/sulderko/ydebug. YACC_LINK=1 makes bin/yacc a symbolic link to ycc, for builds that call it so, and BISON_LINK=1 bin/bison
# make uninstall  takes the same files away; a bin/yacc or bin/bison that isn't ours stays
# make dist       packs what git has of this state into bin/; its name has what VERSION says
# make deb        makes Debian packages in bin/ of the programs and the library there; make deb-test tries them in a scratch root, with lintian, CMake and Meson (packaging/README.md says what both need)
# make imports    imports grammars drawn at random, for a minute, and those of some source packages of Debian, by the programs that make build left, and compares their tables with bison's; FILES="a.y b.y" or PACKAGES="bash" names others. It takes bison and a network
# make hostile    runs both programs, proved, between devices that fail and on hostile files and streams, and ydebug on full disks and pipes that nobody reads
# make edits      tries every mutant that the prover must refuse, also those that the gate leaves out, over the libraries that the gate left
# make quick      what can run before anything is proved: the scenarios and the tests, built without proof, the tests of the checks, whether each mutant can be applied; four minutes. It is not the gate
# make selftest   gives each check wrong answers, which it has to catch; a minute and a half
# make try-install   tries make install, uninstall and dist in an empty folder, by the programs that make build left
# make test       the gate: every proof from nothing, the mutants, the tests, the stored runs, make selftest, the scenarios, make hostile, make refuse over three examples, the allocations of every session, the parsers, the drivers, each comparison for half a minute at most, and the pages where there is a browser
#
# python3 -m checks --help lists all checks as commands; python3 -m checks scenario NAME runs one scenario.
.PHONY: quick demo examples scenarios accept build bench refuse debug editors page-test compare parsers features packages drawn drivers library library-test playground playground-test wheel install uninstall dist deb deb-test imports hostile edits selftest try-install test

# The checks, and where `make build` leaves a program. Without a path a check takes crates/NAME/out/NAME.
checks := python3 -m checks
at = $(foreach name,$(1),$(name)=bin/$(name))

PREFIX ?= /usr/local
LIBDIR ?= lib
ZSHDIR ?= share/zsh/site-functions
PYTHONDIR ?= lib/python3/dist-packages
VERSION := $(shell cat VERSION)
there := $(DESTDIR)$(PREFIX)
shared := share/ydriver
books := share/doc/sulderko

demo:
	@sh examples/demo.sh statements

examples:
	@$(checks) trace
	@$(checks) scenarios --or-try --at examples

scenarios: build
	@$(checks) scenarios

build:
	@sh examples/build.sh

bench: build
	@$(checks) bench $(call at,yacc ystep) $(FILES)

refuse: build
	@$(checks) refuse $(FILES)
	@$(if $(FILES),true,$(checks) allocations)

debug: build
	@$(checks) refuse-debugger $(call at,ydebug)
	@$(checks) babble $(call at,ydebug)
	@$(checks) terminal $(call at,ydebug)
	@$(checks) keys $(call at,ydebug)

editors: build
	@$(checks) editors $(call at,ydebug)
	@$(checks) babble-server $(call at,ydebug)

page-test: build
	@$(checks) pages --install $(call at,ydebug ystep)
	@$(if $(wildcard bin/playground.html),$(checks) playground --install $(call at,ystep ydebug),true)

compare:
	@$(checks) compare $(call at,yacc ystep)
	@$(checks) conflicts $(call at,ydebug)
	@$(checks) documents $(call at,ydebug)
	@$(checks) verdicts $(call at,ydebug ystep)
	@$(checks) errors $(call at,ydebug ystep)
	@$(checks) texts $(call at,ydebug)
	@$(checks) hints $(call at,ydebug)
	@$(checks) coverage $(call at,ydebug)
	@$(if $(FILES),$(checks) faults $(call at,ystep) $(FILES),true)

parsers: build
	@$(checks) parsers --drawn 2000 $(call at,yacc ystep ycc ydebug)
	@$(checks) policies --drawn 500 $(call at,ycc)
	@$(checks) classes --drawn 200 $(call at,ycc)

features: build
	@$(checks) features $(call at,ycc)
	@$(checks) builds $(call at,ycc)
	@$(checks) begun $(call at,ycc ydebug)

packages: build
	@$(checks) packages $(call at,ycc) $(PACKAGES)

drawn: build
	@$(checks) drawn $(call at,ycc) $(PACKAGES)

objects := bin/ydriver.o bin/ydmessages.o
$(objects): bin/%.o: drivers/c/%.c drivers/c/ydriver.h drivers/c/ydmessages.h
	@mkdir -p bin
	@$(CC) -std=c99 -O2 -Wall -Wextra -c -o $@ $<
bin/libydriver.a: $(objects)
	@$(AR) rcs $@ $(objects)

drivers: build bin/libydriver.a
	@$(checks) drivers $(call at,yacc ystep ydebug)

library:
	@python3 packaging/library.py

library-test:
	@$(checks) library

playground:
	@python3 packaging/playground/build.py

playground-test:
	@$(checks) playground --install $(if $(wildcard bin/ystep),$(call at,ystep)) $(if $(wildcard bin/ydebug),$(call at,ydebug))

# The wheel is made in a folder of its own, with the library beside the module.
PYTHON ?= python3
WHEELS ?= bin
LIBRARY ?= bin/libsulderko.so.1
wheel:
	@test -f "$(LIBRARY)" || { echo "no $(LIBRARY): make library"; exit 1; }
	@rm -rf bin/wheel && mkdir -p bin/wheel/sulderko
	@cp VERSION LICENSE bindings/python/pyproject.toml bindings/python/setup.py bin/wheel
	@cp bindings/python/sulderko/*.py bindings/python/sulderko/py.typed "$(LIBRARY)" bin/wheel/sulderko
	@$(PYTHON) -m build --wheel --no-isolation --outdir "$(WHEELS)" bin/wheel > bin/wheel.log || { cat bin/wheel.log; exit 1; }
	@rm -rf bin/wheel bin/wheel.log

# The files that name where things are.
writer := $(if $(TABLE_WRITER),bin/yacc,libexec/sulderko/yacc)
filled := bin/ydriver.pc bin/sulderko.pc bin/ydebug.sh bin/SulderkoConfig.cmake bin/SulderkoConfigVersion.cmake
fill = mkdir -p bin && sed 's,@PREFIX@,$(PREFIX),; s,@LIBDIR@,$(LIBDIR),; s,@WRITER@,$(writer),; s,@VERSION@,$(VERSION),' $< > $@

.PHONY: $(filled)
bin/ydriver.pc: drivers/c/ydriver.pc.in
	@$(fill)
bin/sulderko.pc: packaging/sulderko.pc.in
	@$(fill)
bin/ydebug.sh: packaging/ydebug.in
	@$(fill)
bin/SulderkoConfig.cmake bin/SulderkoConfigVersion.cmake: bin/%.cmake: packaging/cmake/%.cmake.in
	@$(fill)

# What is copied: a mode, a file, and where it goes.
define copies
755 bin/ycc bin/ycc
755 bin/ystep bin/ystep
755 bin/ydebug libexec/sulderko/ydebug
755 bin/ydebug.sh bin/ydebug
644 man/ycc.1 share/man/man1/ycc.1
644 man/ystep.1 share/man/man1/ystep.1
644 man/ydebug.1 share/man/man1/ydebug.1
644 drivers/c/ydriver.h include/ydriver.h
644 drivers/c/ydmessages.h include/ydmessages.h
644 bin/libydriver.a $(LIBDIR)/libydriver.a
644 bin/ydriver.pc $(LIBDIR)/pkgconfig/ydriver.pc
644 bin/SulderkoConfig.cmake share/cmake/Sulderko/SulderkoConfig.cmake
644 bin/SulderkoConfigVersion.cmake share/cmake/Sulderko/SulderkoConfigVersion.cmake
644 packaging/completions/bash/ycc share/bash-completion/completions/ycc
644 packaging/completions/bash/ystep share/bash-completion/completions/ystep
644 packaging/completions/bash/ydebug share/bash-completion/completions/ydebug
644 packaging/completions/bash/yacc share/bash-completion/completions/yacc
644 packaging/completions/zsh/_ycc $(ZSHDIR)/_ycc
644 packaging/completions/zsh/_ystep $(ZSHDIR)/_ystep
644 packaging/completions/zsh/_ydebug $(ZSHDIR)/_ydebug
644 packaging/completions/zsh/_yacc $(ZSHDIR)/_yacc
644 drivers/c/ydriver.c $(shared)/ydriver.c
644 drivers/c/ydmessages.c $(shared)/ydmessages.c
644 drivers/c/calculator.c $(shared)/calculator.c
644 drivers/python/ydriver.py $(shared)/ydriver.py
644 drivers/python/ydmessages.py $(shared)/ydmessages.py
644 drivers/python/calculator.py $(shared)/calculator.py
644 drivers/calculator.y $(shared)/calculator.y
644 docs/TUTORIAL.md $(books)/TUTORIAL.md
644 docs/MANUAL.md $(books)/MANUAL.md
644 docs/FORMATS.md $(books)/FORMATS.md
644 docs/FAULTS.md $(books)/FAULTS.md
644 packaging/examples/CMakeLists.txt $(books)/examples/CMakeLists.txt
644 packaging/examples/meson.build $(books)/examples/meson.build
644 examples/calculator-c/calc.y $(books)/examples/calc.y
644 drivers/calculator.y $(books)/examples/calculator.y
644 drivers/c/calculator.c $(books)/examples/calculator.c
endef
export copies

# What is copied of the library, where it was built.
define library_copies
644 include/sulderko.h include/sulderko.h
644 bin/libsulderko.a $(LIBDIR)/libsulderko.a
644 bin/libsulderko.so.1 $(LIBDIR)/libsulderko.so.1
644 bin/sulderko.pc $(LIBDIR)/pkgconfig/sulderko.pc
644 man/sulderko.3 share/man/man3/sulderko.3
644 docs/LIBRARY.md $(books)/LIBRARY.md
$(foreach it,$(notdir $(wildcard bindings/python/sulderko/*.py bindings/python/sulderko/py.typed)),$(module_copy))
endef
module_copy = 644 bindings/python/sulderko/$(it) $(PYTHONDIR)/sulderko/$(it)$(newline)
define newline


endef
export library_copies
has_library := test -z "$(NO_LIBRARY)" && test -f bin/libsulderko.a

# The playground, where it was built.
define page_copies
644 bin/playground.html share/sulderko/playground.html
644 docs/PLAYGROUND.md $(books)/PLAYGROUND.md
644 docs/COURSE.md $(books)/COURSE.md
endef
export page_copies
shared_link := $(there)/$(LIBDIR)/libsulderko.so

# The program that writes tables and no C is on the path only where that is asked for.
define aside
755 bin/yacc libexec/sulderko/yacc
644 man/yacc.1 share/man/man1/sulderko-yacc.1
endef
define on_path
755 bin/yacc bin/yacc
644 man/yacc.1 share/man/man1/yacc.1
endef
export aside on_path

install: bin/libydriver.a $(filled)
	@test -z "$(TABLE_WRITER)" || test -z "$(YACC_LINK)" || { echo "TABLE_WRITER and YACC_LINK both want bin/yacc"; exit 1; }
	@for name in ycc yacc ystep ydebug; do test -x bin/$$name || { echo "no bin/$$name: make build"; exit 1; }; done
	@{ echo "$$copies"; echo "$$$(if $(TABLE_WRITER),on_path,aside)"; \
	  ! { $(has_library); } || echo "$$library_copies"; \
	  ! test -f bin/playground.html || echo "$$page_copies"; } | while read -r mode from to; do \
	  test -n "$$to" || continue; \
	  mkdir -p "$(there)/$${to%/*}" && install -m "$$mode" "$$from" "$(there)/$$to" || exit 1; done
	@! { $(has_library); } || ln -sf libsulderko.so.1 "$(shared_link)"
	@test -z "$(YACC_LINK)" || ln -sf ycc "$(there)/bin/yacc"
	@test -z "$(BISON_LINK)" || ln -sf ycc "$(there)/bin/bison"

uninstall:
	@{ echo "$$copies"; echo "$$aside"; echo "$$library_copies"; echo "$$page_copies"; } | while read -r mode from to; do \
	  test -n "$$to" || continue; \
	  rm -f "$(there)/$$to" || exit 1; done
	@rm -f "$(shared_link)"
	@for name in yacc bison; do \
	  test "$$(readlink "$(there)/bin/$$name")" != ycc || rm "$(there)/bin/$$name" || exit 1; done
	@echo "$$on_path" | while read -r mode from to; do \
	  ! cmp -s "$$from" "$(there)/$$to" || rm "$(there)/$$to" || exit 1; done
	@for folder in $(shared) $(books)/examples $(books) share/cmake/Sulderko libexec/sulderko share/sulderko $(PYTHONDIR)/sulderko; do \
	  rmdir "$(there)/$$folder" 2> /dev/null || true; done

dist:
	@mkdir -p bin
	@git archive --prefix=sulderko-$(VERSION)/ -o bin/sulderko-$(VERSION).tar.gz HEAD

deb:
	@sh packaging/build.sh "$(VERSION)"

deb-test: deb
	@sh packaging/try.sh bin/*_$(VERSION)_*.deb

imports:
	@$(checks) cells $(call at,ydebug)
	@$(checks) imports $(call at,ydebug yacc) $(FILES) $(PACKAGES)

hostile: build
	@$(checks) hostile

edits:
	@$(checks) mutants --all

quick:
	@$(checks) quick

selftest:
	@$(checks) selftest

try-install:
	@$(checks) install

test:
	@$(checks) gate

# The names of scenarios stand behind `accept` as goals of their own.
ifeq (accept,$(firstword $(MAKECMDGOALS)))
names := $(wordlist 2,99,$(MAKECMDGOALS))
.PHONY: $(names)
$(names): ;
accept:
	@$(checks) scenarios --or-try --accept $(names)
endif
