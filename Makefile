# INTAKE_ARCHIVE, RUN_PROGRAM, UNROLL_PROGRAM and REPLAY_PROGRAM name another archive or program to test or time than the proved one, from
# the root of the repository. BAY names the run file of `make run`, `make show`, `make paper`, `make page` and `make unroll`, NAMES a file of
# names for the last four.
INTAKE_ARCHIVE ?= target/staticlib/libintake.a
RUN_PROGRAM ?= target/bin/run
UNROLL_PROGRAM ?= target/bin/unroll
REPLAY_PROGRAM ?= target/bin/replay
BAY ?= examples/intake.bin
NAMED = $(if $(NAMES),--names '$(NAMES)')

# The bays whose runs the benchmark times.
BAYS = $(addprefix examples/, intake.bin rinse.bin hatch.bin grading.bin valve.bin topping-mended.bin overflow-mended.bin)
export INTAKE_ARCHIVE
WARNED = gcc -std=c11 -Wall -Wextra -Werror -pedantic
SANITIZED = $(WARNED) -O1 -g -fsanitize=address,undefined -fno-sanitize-recover
# Where a function begins in its cache line changes its time by a tenth.
OPTIMIZED = $(WARNED) -O2 -falign-functions=64
TIMED = $(OPTIMIZED) -DBUILT_BY='"$(OPTIMIZED)"'
CARGO_WORDS = --release --offline --quiet --target-dir target/cargo --manifest-path
CARGO = cargo run $(CARGO_WORDS)
SOURCES := crates.txt $(shell find crates -name out -prune -o \( -name '*.rt' -o -name '*.antt' \) -print)

# `make install` puts the files below $(DESTDIR)$(PREFIX), and the pkg-config file names $(PREFIX).
PREFIX ?= /usr/local
EXAMPLES = share/intake/examples
INSTALLED_EXAMPLES = host/example.c host/example_box.c examples/clean.bin examples/tour.bin
VERSION = $(shell sed -n 's/^\#define INTAKE_VERSION_[A-Z]* \([0-9]*\)$$/\1/p' include/intake.h | paste -sd .)

HOST_TESTS = host-rust host-c host-tick-rust host-tick-c host-box-rust host-box-c host-unroll-rust host-unroll-c host-replay-rust \
	host-replay-c host-reactions host-store host-power host-example host-example-box host-replay-program host-stack host-archive \
	host-freestanding host-header host-install host-again figures

# The two programs are built anew for whatever archive is named.
.PHONY: help run show paper page unroll replay vectors-diff test lib install uninstall clean certificate host $(HOST_TESTS) host-plain \
	show-test format-test pages-test certificate-test demands-test quotes-test cone-test spec-book bench bench-check bench-tick bench-box \
	bench-unroll bench-replay bench-growth bench-steps bench-run search target/host/stack target/host/dearest

help: # lists the targets
	@sed -n 's/^\([a-z-]*\):[^#]*# /\1: /p' Makefile

run: $(RUN_PROGRAM) # lists a run of a shipped example; BAY=examples/rinse.bin for another
	@$(RUN_PROGRAM) < '$(BAY)'

show: $(RUN_PROGRAM) # shows the commands and the run of a shipped example; BAY as above
	@$(RUN_PROGRAM) < '$(BAY)' | tools/show $(NAMED) --listing - '$(BAY)'

paper: $(RUN_PROGRAM) # shows that run on paper, by rewriting, and compares it with the listing; BAY as above
	@$(RUN_PROGRAM) < '$(BAY)' | tools/show --paper $(NAMED) --listing - '$(BAY)'

page: $(RUN_PROGRAM) # writes the bay of a shipped example to target/page as one page for a browser; BAY as above
	@mkdir -p target/page
	@$(RUN_PROGRAM) < '$(BAY)' | tools/show $(NAMED) --html 'target/page/$(notdir $(BAY)).html' --listing - '$(BAY)'
	@echo 'target/page/$(notdir $(BAY)).html'

unroll: $(UNROLL_PROGRAM) # shows the commands of a shipped example, and those with its loops written out beside them; BAY as above
	@$(UNROLL_PROGRAM) < '$(BAY)' | tools/show $(NAMED) --unrolled - '$(BAY)'

replay: $(REPLAY_PROGRAM) # replays a recording of a shipped example; RECORDING=file, BAY as above
	@head -c $$((6 + $$(od -An -tu2 -N2 '$(BAY)'))) '$(BAY)' | cat - '$(RECORDING)' | $(REPLAY_PROGRAM)

vectors-diff: target/bin/vectors # shows each line that the vectors print otherwise than crates/vectors/stdout has it
	@target/bin/vectors < crates/vectors/stdin | diff -U 1 -F '^[^ ]' --label expected --label printed crates/vectors/stdout -

test: # proves everything and runs all tests: the gate
	.ci/run

lib: target/lib/SHA256SUMS # writes the archive, the headers and a pkg-config file to target/lib, with their sha256

install: lib # installs them below PREFIX, with the example hosts; DESTDIR=folder goes before it
	install -d '$(DESTDIR)$(PREFIX)/lib/pkgconfig' '$(DESTDIR)$(PREFIX)/include' '$(DESTDIR)$(PREFIX)/$(EXAMPLES)'
	install -m 644 target/lib/libintake.a '$(DESTDIR)$(PREFIX)/lib/libintake.a'
	install -m 644 target/lib/intake.h target/lib/intake_store.h '$(DESTDIR)$(PREFIX)/include'
	install -m 644 $(INSTALLED_EXAMPLES) '$(DESTDIR)$(PREFIX)/$(EXAMPLES)'
	sed 's|@PREFIX@|$(PREFIX)|; s|@LIBDIR@|$${prefix}/lib|; s|@INCLUDEDIR@|$${prefix}/include|; s|@VERSION@|$(VERSION)|' \
		include/intake.pc.in > target/lib/installed.pc
	install -m 644 target/lib/installed.pc '$(DESTDIR)$(PREFIX)/lib/pkgconfig/intake.pc'
	@rm -f target/lib/installed.pc

uninstall: # takes away what make install has put below PREFIX; DESTDIR as above
	rm -f '$(DESTDIR)$(PREFIX)/lib/libintake.a' '$(DESTDIR)$(PREFIX)/lib/pkgconfig/intake.pc'
	rm -f '$(DESTDIR)$(PREFIX)/include/intake.h' '$(DESTDIR)$(PREFIX)/include/intake_store.h'
	rm -f $(foreach file, $(notdir $(INSTALLED_EXAMPLES)), '$(DESTDIR)$(PREFIX)/$(EXAMPLES)/$(file)')
	@for folder in '$(EXAMPLES)' share/intake; do rmdir '$(DESTDIR)$(PREFIX)'/$$folder 2> /dev/null || true; done

clean: # takes away all that was built, proofs too
	rm -rf target crates/*/out

certificate: # writes docs/CERTIFICATE.md from the last run of the gate
	tools/certificate

host: $(HOST_TESTS) # runs all host tests against the archive

host-rust: $(INTAKE_ARCHIVE) # compares the archive with the check on an explicit tree
	$(CARGO) host/check/Cargo.toml

host-c: $(INTAKE_ARCHIVE) # runs the examples through include/intake.h under sanitizers
	@mkdir -p target/host
	$(SANITIZED) -Iinclude host/check.c $(INTAKE_ARCHIVE) -o target/host/check && target/host/check host/examples.txt

host-tick-rust: $(INTAKE_ARCHIVE) # compares the archive with the tick by expansion and by rewriting
	$(CARGO) host/tick/Cargo.toml

host-tick-c: $(INTAKE_ARCHIVE) # runs the bays and more ticks through include/intake.h under sanitizers
	@mkdir -p target/host
	$(SANITIZED) -Iinclude host/tick.c $(INTAKE_ARCHIVE) -o target/host/tick && target/host/tick host/ticks.txt

host-box-rust: $(INTAKE_ARCHIVE) # compares the archive's calls on a box with a model of eight bays
	$(CARGO) host/box/Cargo.toml

host-box-c: $(INTAKE_ARCHIVE) # runs calls on a box through include/intake.h under sanitizers
	@mkdir -p target/host
	$(SANITIZED) -Iinclude host/box.c $(INTAKE_ARCHIVE) -o target/host/box && target/host/box host/examples.txt

host-unroll-rust: $(INTAKE_ARCHIVE) # compares the archive's loops written out with those on an explicit tree, and runs both
	$(CARGO) host/unroll/Cargo.toml

host-unroll-c: $(INTAKE_ARCHIVE) # writes loops out through include/intake.h under sanitizers
	@mkdir -p target/host
	$(SANITIZED) -Iinclude host/unroll.c $(INTAKE_ARCHIVE) -o target/host/unroll && target/host/unroll host/unrolls.txt

host-replay-rust: $(INTAKE_ARCHIVE) # compares the archive's replay of recordings with a model of it
	$(CARGO) host/replay/Cargo.toml

host-replay-c: $(INTAKE_ARCHIVE) # runs replays through include/intake.h under sanitizers
	@mkdir -p target/host
	$(SANITIZED) -Iinclude host/replay.c $(INTAKE_ARCHIVE) -o target/host/replay && target/host/replay host/examples.txt

host-reactions: $(INTAKE_ARCHIVE) # holds the reactions and ceilings that tools/show prints to the archive's
	@mkdir -p target/host
	$(SANITIZED) -Iinclude host/reactions.c $(INTAKE_ARCHIVE) -o target/host/reactions
	host/reactions_test.py target/host/reactions

host-example: $(INTAKE_ARCHIVE) $(RUN_PROGRAM) # compares the example host with the run program
	@mkdir -p target/host
	$(WARNED) -O2 -Iinclude host/example.c $(INTAKE_ARCHIVE) -o target/host/example
	$(SANITIZED) -Iinclude host/example.c $(INTAKE_ARCHIVE) -o target/host/example-sanitized
	host/example_test.py $(RUN_PROGRAM) target/host/example target/host/example-sanitized

host-example-box: $(INTAKE_ARCHIVE) # runs the examples side by side in a box by the example host with several bays
	@mkdir -p target/host
	$(WARNED) -O2 -Iinclude host/example_box.c $(INTAKE_ARCHIVE) -o target/host/example-box
	$(SANITIZED) -Iinclude host/example_box.c $(INTAKE_ARCHIVE) -o target/host/example-box-sanitized
	host/example_box_test.py target/host/example-box target/host/example-box-sanitized

host-store: # cuts writes of the store of include/intake_store.h at every byte and in every order of words, under sanitizers
	@mkdir -p target/host
	$(SANITIZED) -Iinclude host/store.c -o target/host/store && target/host/store

host-power: $(INTAKE_ARCHIVE) # cuts the example host with several bays, starts it again, and holds its ledgers to its recordings
	@mkdir -p target/host
	$(SANITIZED) -Iinclude host/example_box.c $(INTAKE_ARCHIVE) -o target/host/example-box-power
	host/power_test.py target/host/example-box-power

host-replay-program: $(INTAKE_ARCHIVE) $(REPLAY_PROGRAM) # replays what the example host records by the program for planners
	@mkdir -p target/host
	$(WARNED) -O2 -Iinclude host/example_box.c $(INTAKE_ARCHIVE) -o target/host/example-box-recording
	host/replay_test.py $(REPLAY_PROGRAM) target/host/example-box-recording

host-stack: target/host/stack # measures the stack of a call at the greatest depth, by painting
	target/host/stack

target/host/stack: $(INTAKE_ARCHIVE)
	@mkdir -p target/host
	$(WARNED) -D_DEFAULT_SOURCE -O2 -Iinclude host/stack.c $(INTAKE_ARCHIVE) -pthread -o $@

target/host/dearest: $(INTAKE_ARCHIVE)
	@mkdir -p target/host
	$(WARNED) -O2 -Iinclude -Ibench host/dearest.c bench/plain.c $(INTAKE_ARCHIVE) -lm -o $@

figures: target/host/stack target/host/dearest # holds what docs/HOST.md and the header say that the archive requires to what it takes
	host/figures.py $(INTAKE_ARCHIVE) target/host/stack target/host/dearest

host-freestanding: $(INTAKE_ARCHIVE) # links and runs a host without any library
	@mkdir -p target/host
	$(WARNED) -O2 -ffreestanding -fno-stack-protector -nostdlib -static -Iinclude host/freestanding.c $(INTAKE_ARCHIVE) \
		-o target/host/freestanding && target/host/freestanding

host-header: $(INTAKE_ARCHIVE) # compiles the headers and the pages' hosts as every C and C++
	host/header_test.py $(INTAKE_ARCHIVE)

host-install: lib # installs into a temporary folder, and builds and runs the example host from there
	host/install_test.py

host-again: target/staticlib/libintake.a # builds the archive once more, in another folder, and compares the bytes
	host/again_test.py

certificate-test: # tests tools/certificate
	tools/test_certificate.py

host-archive: $(INTAKE_ARCHIVE) # shows the read-only data of the archive: jump tables and no constant array
	host/archive_test.py $(INTAKE_ARCHIVE)

host-plain: target/plain/libintake.a # runs the host tests against plain C, with which the benchmarks compare
	$(MAKE) host-rust host-c host-tick-rust host-tick-c host-box-rust host-box-c host-unroll-rust host-unroll-c \
		host-replay-rust host-replay-c host-reactions \
		INTAKE_ARCHIVE=target/plain/libintake.a

show-test: # tests tools/show and tools/runfile
	tools/test_show.py

demands-test: # holds the names of the rows of docs/DEMANDS.md, and what cites them, together
	tools/test_demands.py

quotes-test: # holds what comments and pages quote to the papers, or, where they are not at hand, to docs/quotations.txt
	tools/test_quotes.py

format-test: # holds the tables of docs/FORMAT.md, FILES.md and GLOSSARY.md, and what CONTRIBUTING.md quotes, to what they repeat
	tools/test_format.py

pages-test: # holds docs/ARCHITECTURE.md, TRAVERSALS.md and GLOSSARY.md to the crates, and every page to its length and links
	tools/test_pages.py

cone-test: # tests tools/cone and tools/spec_book, and holds docs/READING.md to what the contracts and the cited theorems mean
	tools/test_cone.py

spec-book: # writes all definitions that the contracts and the cited theorems mean to target/spec-book.html, one page to read or print
	@mkdir -p target
	@tools/spec_book target/spec-book.html
	@echo 'target/spec-book.html'

bench: bench-check bench-tick bench-box bench-unroll bench-replay bench-growth # times all of it against plain C

bench-check: $(INTAKE_ARCHIVE) # times the check
	@mkdir -p target/bench
	$(TIMED) -Iinclude bench/check.c bench/plain.c $(INTAKE_ARCHIVE) -lm -o target/bench/check
	@target/bench/check

bench-tick: $(INTAKE_ARCHIVE) # times the tick, and the dearest instant
	@mkdir -p target/bench
	$(TIMED) -Iinclude bench/tick.c bench/plain.c $(INTAKE_ARCHIVE) -lm -o target/bench/tick
	@target/bench/tick $(BAYS)

bench-box: $(INTAKE_ARCHIVE) # times the tick of a bay against intake_tick, and admission, previews and dear instants against plain C
	@mkdir -p target/bench
	$(TIMED) -Iinclude bench/box.c bench/plain.c bench/plain_box.c $(INTAKE_ARCHIVE) -lm -o target/bench/box
	@target/bench/box $(BAYS)

# A sequence with setpause is turned down.
bench-unroll: $(INTAKE_ARCHIVE) # times the writing out of loops
	@mkdir -p target/bench
	$(TIMED) -Iinclude bench/unroll.c bench/plain.c bench/plain_unroll.c $(INTAKE_ARCHIVE) -lm -o target/bench/unroll
	@target/bench/unroll $(filter-out examples/grading.bin, $(BAYS))

bench-replay: $(INTAKE_ARCHIVE) # times the replay of a day's recording
	@mkdir -p target/bench
	$(TIMED) -Iinclude bench/replay.c bench/plain.c $(INTAKE_ARCHIVE) -lm -o target/bench/replay
	@target/bench/replay $(BAYS)

bench-growth: $(INTAKE_ARCHIVE) # times ticks, rounds and previews that grow in one measure
	@mkdir -p target/bench
	$(OPTIMIZED) -Iinclude bench/growth.c bench/plain.c $(INTAKE_ARCHIVE) -lm -o target/bench/growth
	@target/bench/growth

bench-steps: $(INTAKE_ARCHIVE) # times the archive against another one with the same calls; BEFORE=file
	@mkdir -p target/bench
	@test -f '$(BEFORE)' || { echo 'BEFORE=file: the archive to compare with'; exit 1; }
	objcopy $(foreach call, $(PLAIN_CALLS), --redefine-sym intake_$(call)=before_$(call)) '$(BEFORE)' target/bench/before.a
	$(OPTIMIZED) -Iinclude bench/steps.c bench/plain.c $(INTAKE_ARCHIVE) target/bench/before.a -lm -o target/bench/steps
	@target/bench/steps $(BAYS)

search: $(INTAKE_ARCHIVE) # searches anew for the dearest round of a box and the dearest preview, for some minutes
	@mkdir -p target/bench
	$(OPTIMIZED) -Iinclude bench/search.c $(INTAKE_ARCHIVE) -lm -o target/bench/search
	@target/bench/search

bench-run: $(RUN_PROGRAM) # times the run program on its greatest input, for some minutes
	@mkdir -p target/bench
	$(OPTIMIZED) bench/greatest.c bench/plain.c -o target/bench/greatest
	target/bench/greatest > target/bench/greatest.bin
	@bash -c 'time $(RUN_PROGRAM) < target/bench/greatest.bin > target/bench/greatest.txt'
	@tail -n 2 target/bench/greatest.txt

target/staticlib/libintake.a: $(SOURCES)
	@tools/progress tools/archive

# In this folder the pkg-config file finds the others beside itself, wherever the folder goes.
target/lib/SHA256SUMS: target/staticlib/libintake.a include/intake.h include/intake_store.h include/intake.pc.in Makefile
	@rm -rf target/lib && mkdir -p target/lib
	cp target/staticlib/libintake.a include/intake.h include/intake_store.h target/lib
	sed 's|@PREFIX@|$${pcfiledir}|; s|@LIBDIR@|$${prefix}|; s|@INCLUDEDIR@|$${prefix}|; s|@VERSION@|$(VERSION)|' \
		include/intake.pc.in > target/lib/intake.pc
	cd target/lib && sha256sum libintake.a intake.h intake_store.h intake.pc > SHA256SUMS

PLAIN_CALLS = check ceiling tick deliver unroll replay $(addprefix box_, admit release tick save restore forget service panel preview \
	ledger new_year)
PLAIN_NAMES = $(foreach call, $(PLAIN_CALLS), -Dplain_$(call)=intake_$(call))

PLAIN_PARTS = plain plain_box plain_unroll

target/plain/libintake.a: $(foreach part, $(PLAIN_PARTS), bench/$(part).c bench/$(part).h)
	@mkdir -p target/plain && rm -f $@
	for part in $(PLAIN_PARTS); do $(OPTIMIZED) $(PLAIN_NAMES) -c bench/$$part.c -o target/plain/$$part.o || exit 1; done
	ar rcs $@ $(PLAIN_PARTS:%=target/plain/%.o)

# 'rt run' proves and builds, and then runs, here on no input; what it builds it leaves in the crate's out/.
target/bin/run target/bin/unroll target/bin/replay target/bin/vectors: target/bin/%: $(SOURCES)
	@tools/progress rt run $*
	@mkdir -p target/bin
	@cp crates/$*/out/$* $@
