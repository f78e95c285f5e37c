# Every command that a person has to know.
#
#   make try      answers a first script in front of you within a minute or two, by a trial build: it proves nothing, and leaves
#                 no program. SCRIPT=FILE for another one; the tool reads its input whole first, so none can be typed
#   make run      the same by the proved program, which it builds first: all that it stands on is proved, in a quarter of an hour to an hour
#   make build    leaves the program at build/retro, so that `build/retro run < FILE` works on any script
#   make libraries  proves all libraries side by side and keeps what came of it, which the daily work on a crate begins with
#   make check    proves one crate over what was proved before: make check CRATE=retro_queue
#   make unit     runs the tests of the crates by a trial build with checks, some ten minutes, and proves nothing
#   make fmt      lays all sources out
#   make install  proves first where that was not done, as do bench, recipes and hostile; puts it into bin below PREFIX, which is /usr/local where none is named
#   make test     the gate: every proof, every must-fail edit, every test, every example, and of the built program
#                 what stands in tests/ and the recipes; needs Python 3
#   make bench    measures the program beside others and writes docs/MEASURED.md, in a quarter of an hour; needs
#                 Python 3, and rustc for the others; QUICK=1 for a first look, which writes into build/
#   make recipes  runs docs/RECIPES.md as it stands, and the client in Python with 100,000 lines
#   make planted  outside the gate, after make libraries: tries the wrong bodies of tests/planted, which the prover must refuse;
#                 CRATE=NAME for those of one crate
#   make integrations  outside the gate: what needs a browser, dask or PostgreSQL, each where it is there, and 1,000 kills of a journal's writer
#   make hostile  outside the gate: forged evidence, drawn scripts and refused memory; needs Python 3 and cc

SCRIPT ?= examples/late_job.script
PREFIX ?= /usr/local

SOURCES := $(shell find crates -name out -prune -o -type f \( -name '*.rt' -o -name '*.antt' \) -print) crates.txt

.PHONY: run try build said libraries check unit fmt install test bench planted hostile recipes integrations

run: said build
	@echo
	@echo "The script $(SCRIPT):"
	@sed 's/^/    /' $(SCRIPT)
	@echo "and its answers:"
	@build/retro run < $(SCRIPT) | sed 's/^/    /'

try:
	@echo "A trial build of the program: it proves nothing, and takes a minute or two."
	@echo "The script has to be a file: the tool reads its input whole first, so a typed one does not work with it."
	@echo
	@echo "The script $(SCRIPT):"
	@sed 's/^/    /' "$(SCRIPT)"
	@echo "and its answers:"
	@sh .ci/try "$(SCRIPT)"

build: build/retro

said:
	@echo "First all that the program stands on is proved and built, unless that was done: a quarter of an hour to an hour. \`make try\` proves nothing."

# A program is built only once it is proved.
build/retro: $(SOURCES)
	@python3 .ci/build

libraries:
	@python3 .ci/libraries $(CRATE)

check:
	@cd crates/$(CRATE) && rt check

unit:
	@for crate in script_gen base_tests tree_tests structure_tests script_tests; do \
	    echo "== $$crate"; (cd crates/$$crate && rt try --test --seconds 900) || exit 1; done

fmt:
	@for crate in crates/*/; do (cd "$$crate" && rt fmt) || exit 1; done

install: said build
	@mkdir -p "$(DESTDIR)$(PREFIX)/bin"
	@cp build/retro "$(DESTDIR)$(PREFIX)/bin/retro"
	@echo "The program is $(DESTDIR)$(PREFIX)/bin/retro"

test:
	@sh .ci/gate

bench: said build
	@python3 bench/measure.py $(if $(QUICK),--quick) build/retro

recipes: said build
	@python3 tests/client.py build/retro
	@python3 tests/recipes.py build/retro

planted: libraries
	@python3 tests/planted.py $(CRATE)

integrations: said build
	@python3 clients/python/tests/integrations.py build/retro

hostile: said build
	@python3 tests/hostile/forge.py build/retro
	@python3 tests/hostile/random_scripts.py build/retro
	@if command -v rustc > /dev/null; then python3 tests/hostile/long_scripts.py build/retro; \
	    else echo "Left out: long scripts, since there is no rustc"; fi
	@python3 tests/hostile/refusals.py build/retro
