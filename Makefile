# make            proves and builds the program, and leaves it as bin/mg
# make try        builds the sample collection, decodes it, and asks it a few questions
# make check      the gate: every proof, edit, test and program, then the black-box suite
# make wrong-bodies  tries the edits that the gate leaves out; CRATES="mg_post mg_bool" those of two crates
# make install    copies the program, its companions, the manual, the completions and the licences below PREFIX
# make uninstall  takes them away
# make dist       leaves an archive of what is installed as bin/mg-VERSION-linux-x86_64.tar.gz
# make deb        leaves a binary package for Debian as bin/mg-retrieval_VERSION_amd64.deb
# make docs       draws docs/layers.svg from crates.txt, by graphviz
# make bench      measures it beside SQLite's FTS5, Xapian, gzip and grep, on the kernel's documentation, beside what it is to
#                 reach, and draws what it saw
# make costs CRATE=mg_bool    lists the modules of a crate's proof by their time
# make libraries CRATE=mg_bool    behind a gate, lets `rt check` of a crate use the libraries that the gate left
#
# NAME is the name of the installed program, of its page and of its completion: Debian has an editor of the name mg, and
# where that is wanted too, `make install NAME=mgr` installs this program beside it. What it prints calls it mg all the same.

NAME ?= mg
PREFIX ?= /usr/local
PROGRAM ?= bin/mg
PACKAGE ?= mg-retrieval
VERSION := $(shell cat VERSION)
DIST := mg-$(VERSION)-linux-x86_64

# What `make` proves: the crates that the program is made of, without the tests, the edits that must fail, the other wrong
# bodies, and mg_bench.
LEFT_OUT := *_tests mg_bench must-fail wrong-bodies out
SOURCES := crates.txt $(shell find crates $(foreach name,$(LEFT_OUT),-path '*/$(name)' -prune -o) -type f -print)

BIN := $(DESTDIR)$(PREFIX)/bin
LIB := $(DESTDIR)$(PREFIX)/lib/mg
MAN1 := $(DESTDIR)$(PREFIX)/share/man/man1
MAN5 := $(DESTDIR)$(PREFIX)/share/man/man5
COMPLETIONS := $(DESTDIR)$(PREFIX)/share/bash-completion/completions
DOC := $(DESTDIR)$(PREFIX)/share/doc/$(NAME)

# What is installed beside the program: the launchers, the packages of Python beside them, the pages, the completions.
LAUNCHERS := $(notdir $(wildcard contrib/mg-*))
PACKAGES := $(notdir $(patsubst %/__init__.py,%,$(wildcard contrib/*/__init__.py)))
PAGES1 := $(filter-out mg.1,$(notdir $(wildcard man/*.1)))
PAGES5 := $(notdir $(wildcard man/*.5))
COMPLETED := $(filter-out mg,$(notdir $(wildcard contrib/completions/*)))
DOCUMENTS := $(wildcard README.md CHANGELOG.md LICENSE-MIT LICENSE-APACHE)

# The modules of Python name the program where they look for it.
MODULES := $(patsubst contrib/%,%,$(foreach name,$(PACKAGES),$(wildcard contrib/$(name)/*.py)))
NAMED := cat
ifneq ($(NAME),mg)
NAMED := sed -e '/"lib", "mg"/!s/"mg"/"$(NAME)"/g'
endif

# Pages and completions as they are installed: with the version, and with the program's name where that is another one.
# What the program prints about itself, between a comment and the end of the display, keeps the name that it prints.
SHOWN := sed -e 's/@VERSION@/$(VERSION)/g'
ifneq ($(NAME),mg)
SHOWN += -e '/^\.\\" What the program prints/,/^\.Ed/{/^\$$ /!b' -e '}' -e 's/^\.Dt MG 1/.Dt $(shell echo $(NAME) | tr a-z A-Z) 1/'
SHOWN += -e 's/^complete -F _mg mg$$/complete -F _mg $(NAME)/' -e '/^complete\|^_mg/b'
SHOWN += -e 's/\(^\|[ \t"]\)mg\([ ;]\|$$\)/\1$(NAME)\2/g'
endif

# The gate proves crates side by side and from nothing, in a copy that has no tests and no edits.
bin/mg: $(SOURCES)
	mkdir -p bin
	set -e; work=$$(mktemp -d); trap 'rm -rf "$$work"' EXIT; \
	tar -cf - $(foreach name,$(LEFT_OUT),--exclude='$(name)') HANDLES crates | tar -xf - -C "$$work"; \
	grep -v -e '^[a-z_]*_tests:' -e '^mg_bench:' crates.txt > "$$work/crates.txt"; \
	jobs=$$(tools/jobs.sh); (cd "$$work" && RT_JOBS=$${RT_JOBS:-$$jobs} rt ci); \
	cp "$$work/crates/mg/out/mg" bin/mg

.PHONY: try check wrong-bodies install uninstall dist deb docs bench costs libraries

try: bin/mg
	bin/mg build examples/letters.mail bin/letters
	bin/mg decode bin/letters | cmp - examples/letters.mail
	bin/mg query bin/letters < examples/questions.txt

# The gate leaves the program that it proved.
check:
	RT_JOBS=$${RT_JOBS:-$$(tools/jobs.sh)} rt ci
	mkdir -p bin
	cp crates/mg/out/mg bin/mg
	python3 tests/run.py bin/mg

# What rt keeps of the crates in crates/*/out is used, and not changed. TABLE=FILE writes the table.
wrong-bodies:
	python3 tools/wrong_bodies.py $(if $(JOBS),--jobs $(JOBS)) $(if $(TABLE),--table $(TABLE)) $(CRATES)

install: $(PROGRAM)
	install -d "$(BIN)" "$(MAN1)" "$(MAN5)" "$(COMPLETIONS)" "$(DOC)" $(PACKAGES:%="$(LIB)/%")
	install -m 755 $(PROGRAM) "$(BIN)/$(NAME)"
	install -m 755 $(LAUNCHERS:%=contrib/%) "$(BIN)"
	umask 022; for file in $(MODULES); do $(NAMED) "contrib/$$file" > "$(LIB)/$$file" || exit; done
	umask 022; $(SHOWN) man/mg.1 > "$(MAN1)/$(NAME).1"
	umask 022; for page in $(PAGES1); do $(SHOWN) "man/$$page" > "$(MAN1)/$$page" || exit; done
	umask 022; for page in $(PAGES5); do $(SHOWN) "man/$$page" > "$(MAN5)/$$page" || exit; done
	umask 022; $(SHOWN) contrib/completions/mg > "$(COMPLETIONS)/$(NAME)"
	install -m 644 $(COMPLETED:%=contrib/completions/%) "$(COMPLETIONS)"
	install -m 644 $(DOCUMENTS) "$(DOC)"

# What others put into our folders stays, and their folders with it.
uninstall:
	rm -f "$(BIN)/$(NAME)" $(LAUNCHERS:%="$(BIN)/%")
	rm -f "$(MAN1)/$(NAME).1" $(PAGES1:%="$(MAN1)/%") $(PAGES5:%="$(MAN5)/%")
	rm -f "$(COMPLETIONS)/$(NAME)" $(COMPLETED:%="$(COMPLETIONS)/%") $(DOCUMENTS:%="$(DOC)/%")
	rm -f $(MODULES:%="$(LIB)/%")
	rmdir $(PACKAGES:%="$(LIB)/%") "$(LIB)" "$(DOC)" 2> /dev/null || true

# The same bytes wherever and whenever it is made of the same program: files in the order of their names, with the date of
# the manual, of no user.
dist: $(PROGRAM)
	mkdir -p bin
	set -e; work=$$(mktemp -d); trap 'rm -rf "$$work"' EXIT; \
	$(MAKE) -s install DESTDIR="$$work/" PREFIX=$(DIST) NAME=$(NAME) PROGRAM="$(PROGRAM)"; \
	date=$$(date -u -d "$$(sed -n 's/^\.Dd //p' man/mg.1)" +%s); \
	tar --create --format=ustar --sort=name --mtime="@$$date" --owner=0 --group=0 --numeric-owner --mode=u=rwX,go=rX \
		-C "$$work" $(DIST) | gzip --no-name --best > bin/$(DIST).tar.gz

deb: $(PROGRAM)
	mkdir -p bin
	set -e; work=$$(mktemp -d); trap 'rm -rf "$$work"' EXIT; \
	$(MAKE) -s install DESTDIR="$$work" PREFIX=/usr DOC="$$work/usr/share/doc/$(PACKAGE)" NAME=$(NAME) PROGRAM="$(PROGRAM)"; \
	debian/build.sh "$$work" $(NAME) $(PACKAGE) $(VERSION) bin

docs:
	test -x /usr/bin/dot || { apt-get update && apt-get install -y --no-install-recommends graphviz; }
	python3 tools/layers.py

bench: bin/mg
	test -d /usr/share/doc/linux-doc-6.1 || { apt-get update && apt-get install -y linux-doc; }
	test -x /usr/bin/time || { apt-get update && apt-get install -y time; }
	/usr/bin/python3 -c 'import sqlite3, xapian, matplotlib' || { apt-get update && apt-get install -y python3 python3-xapian python3-matplotlib; }
	/usr/bin/python3 bench/compare.py bin/mg --figures docs/speeds/figures.json
	/usr/bin/python3 bench/linear.py bin/mg --figures docs/speeds/figures.json
	/usr/bin/python3 bench/goals.py bin/mg --figures docs/speeds/figures.json
	/usr/bin/python3 bench/charts.py docs/speeds/figures.json docs/speeds

costs:
	python3 tools/costs.py $(CRATE)

libraries:
	python3 tools/libraries.py $(CRATE)
