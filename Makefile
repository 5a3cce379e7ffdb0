# `make` alone lists the targets.

# Rattle's command; `make RT=/some/where/rt build` takes another one.
RT ?= rt
PROGRAM := build/bedkeep
UNPROVED := build/bedkeep-unproved

# Where `make install` puts what it installs; DESTDIR comes before each of these folders.
PREFIX ?= /usr/local
DESTDIR ?=
prefix = $(PREFIX)
bindir = $(prefix)/bin
datadir = $(prefix)/share
docdir = $(datadir)/doc/bedkeep
# PYTHONPATH is then this folder, or pip installs it; bedkeep-desk finds it by itself.
pythondir = $(datadir)/bedkeep/python
man1dir = $(datadir)/man/man1
bashdir = $(datadir)/bash-completion/completions
zshdir = $(datadir)/zsh/site-functions
INSTALL ?= install
INSTALL_PROGRAM ?= $(INSTALL) -m 755
INSTALL_DATA ?= $(INSTALL) -m 644
# The Python package, which is installed below pythondir.
PACKAGE = $(addprefix python/,pyproject.toml hatch_build.py README.md LICENSE bedkeep/py.typed) $(sort $(wildcard $(addprefix python/bedkeep/,*.py */*.py */*.css */*.js */page/*)))
# What is installed below docdir, in the folders that it has here, so that links and the steps of the guide work there too.
DOCUMENTS = README.md CHANGELOG.md LICENSE CITATION.cff packaging/r/bedkeep.R $(addprefix docs/,GUIDE.md LENGTHS.md BASES.md PIPELINES.md BEDTOOLS.md bedtools-report.md FORMAT.md PROMISES.md STATEMENT.md BENCHMARKS.md speed.svg desk.png review.png) \
	$(shell find examples -type f ! -path '*/.snakemake/*' ! -name '*.pyc' ! -name corrected.bed ! -name 'review.*' \
		! \( -path '*/workflows/*/*' ! -name '*.cwl' ! -name '*.yaml' \) | LC_ALL=C sort)

.DEFAULT_GOAL := help
.PHONY: help try check build demo install uninstall dist test mutants clean

help:
	@echo 'make try     in a minute, without a proof: the first session of the README, or a run of your own as in make try ARGS="merge -g sizes -i genes.bed"; it leaves $(UNPROVED)'
	@echo 'make check   the examples of tests/, sizes, hints, options and system calls over that program, in minutes'
	@echo 'make build   prove and build the program; it is left at $(PROGRAM)'
	@echo 'make demo    build it, then run the scripts of examples/ over the files beside them'
	@echo 'make install     put the built program, the man pages, its completions and the Python package below PREFIX (/usr/local)'
	@echo 'make uninstall   take them away again'
	@echo 'make dist    build it, then leave an archive, a Debian package and a wheel of a release in build/'
	@echo 'make test    all proofs from nothing, the mutants of must-fail/, and all tests; one to two hours'
	@echo 'make mutants   the mutants that make test leaves out, an hour or more'
	@echo 'make clean   remove all that builds and proofs left behind'
	@echo 'make help    this list'

# The script of a session comes on standard input: make try ARGS='session -g sizes -i genes.bed' < script
try:
	@RT=$(RT) scripts/test/try.sh $(ARGS)

# The tests of the program that need neither a proof nor its speed.
check:
	@RT=$(RT) scripts/test/unproved.sh
	python3 scripts/test/transcripts.py $(UNPROVED)
	python3 scripts/test/options.py $(UNPROVED)
	python3 scripts/test/hints.py $(UNPROVED)
	python3 scripts/test/sizes.py $(UNPROVED)
	python3 scripts/test/system_calls.py $(UNPROVED)

build:
	RT=$(RT) python3 scripts/prove/build.py
	RT=$(RT) scripts/prove/names_logic.sh crates/bedkeep/out/bedkeep
	mkdir -p build && cp crates/bedkeep/out/bedkeep $(PROGRAM)

demo: build
	scripts/test/examples.sh --show $(PROGRAM)

# It builds nothing, so that it can run as another user than the one who built.
install:
	@test -x $(PROGRAM) || { echo '$(PROGRAM) is not there: run make build first' >&2; exit 1; }
	$(INSTALL) -d $(addprefix $(DESTDIR),$(bindir) $(man1dir) $(bashdir) $(zshdir) $(docdir))
	$(INSTALL_PROGRAM) $(PROGRAM) $(DESTDIR)$(bindir)/bedkeep
	$(INSTALL_PROGRAM) python/bedkeep-desk $(DESTDIR)$(bindir)/bedkeep-desk
	$(INSTALL_DATA) man/bedkeep.1 man/bedkeep-desk.1 $(DESTDIR)$(man1dir)
	$(INSTALL_DATA) completions/bedkeep.bash $(DESTDIR)$(bashdir)/bedkeep
	$(INSTALL_DATA) completions/_bedkeep $(DESTDIR)$(zshdir)/_bedkeep
	set -e; for file in $(DOCUMENTS); do \
		mode=644; test ! -x $$file || mode=755; \
		$(INSTALL) -D -m $$mode $$file $(DESTDIR)$(docdir)/$$file; \
	done
	set -e; for file in $(PACKAGE:python/%=%); do $(INSTALL_DATA) -D python/$$file $(DESTDIR)$(pythondir)/$$file; done
	umask 022; python3 scripts/release/reference.py $(DESTDIR)$(docdir)/docs/reference.html

uninstall:
	rm -f $(addprefix $(DESTDIR),$(bindir)/bedkeep $(bindir)/bedkeep-desk $(man1dir)/bedkeep.1 $(man1dir)/bedkeep-desk.1 $(bashdir)/bedkeep $(zshdir)/_bedkeep)
	rm -f $(addprefix $(DESTDIR)$(docdir)/,$(DOCUMENTS))
	rm -f $(addprefix $(DESTDIR)$(pythondir)/,$(PACKAGE:python/%=%))
	rm -f $(DESTDIR)$(docdir)/docs/reference.html
	rm -rf $(addprefix $(DESTDIR)$(pythondir)/,$(addsuffix __pycache__,$(sort $(dir $(filter %.py,$(PACKAGE:python/%=%))))))
	find $(DESTDIR)$(docdir) $(DESTDIR)$(datadir)/bedkeep -depth -type d -empty -delete 2> /dev/null || true

# A release is linked from the object file of the program, which the build leaves beside it.
dist: build
	RT=$(RT) scripts/release/pack.sh

# rt ci leaves the program that it proved and built beside the crate. What a script leaves out because a tool isn't there it also adds to
# a file, LEFT_OUT.
test: export LEFT_OUT = $(CURDIR)/build/left_out
test:
	@mkdir -p build && : > "$$LEFT_OUT"
	python3 scripts/test/lint.py --try
	python3 scripts/test/lint.py
	python3 scripts/test/refused_rows.py
	python3 scripts/test/words.py
	python3 scripts/release/address.py --check
	python3 scripts/prove/reached.py --check
	python3 scripts/prove/mutants.py --applies
	RT=$(RT) scripts/prove/check.sh
	RT=$(RT) scripts/prove/names_logic.sh crates/bedkeep/out/bedkeep
	cp crates/bedkeep/out/bedkeep $(PROGRAM)
	scripts/test/interactive.sh $(PROGRAM)
	scripts/test/command_line.sh $(PROGRAM)
	python3 scripts/test/transcripts.py $(PROGRAM)
	python3 scripts/test/sizes.py $(PROGRAM)
	python3 scripts/test/promised_sizes.py $(PROGRAM)
	python3 scripts/test/system_calls.py $(PROGRAM)
	python3 scripts/test/cuts.py $(PROGRAM)
	python3 scripts/test/growth.py $(PROGRAM)
	scripts/test/examples.sh $(PROGRAM)
	scripts/test/at_scale.sh $(PROGRAM)
	scripts/test/workflows.sh $(PROGRAM)
	scripts/test/packaging.sh $(PROGRAM)
	scripts/test/python.sh $(PROGRAM)
	python3 scripts/test/review_page.py $(PROGRAM)
	python3 scripts/test/options.py $(PROGRAM)
	python3 scripts/test/hints.py $(PROGRAM)
	python3 scripts/test/pages.py $(PROGRAM)
	python3 scripts/test/fuzz.py $(PROGRAM) --seed 1 --seconds 20
	@if [ -s "$$LEFT_OUT" ]; then sort -u "$$LEFT_OUT"; else echo 'nothing was left out'; fi

mutants:
	RT=$(RT) python3 scripts/prove/mutants.py

clean:
	rm -rf build crates/*/out
