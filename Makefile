# The page protection core. The targets, with the tools that each needs:
#
#   make run     builds pagerun, all crates below it proved first, and runs the sample node   (rt)
#   make rights  counts the rights over all images of a folder: make rights IMAGES=FOLDER     (rt)
#   make lib     builds the bench's static library, proved first, where a source has changed  (rt)
#   make prove   proves every crate from nothing; no must-fail edits, no programs, no tests   (rt)
#   make times   the same, one crate at a time, and prints the time that each takes           (rt)
#   make test    the gate: proofs, must-fail edits, programs, tests                           (rt, bash, gcc, cargo, python3)
#   make speed   compares the library, writer, planner, least mask and rights with plain C    (rt, gcc, valgrind)

.PHONY: help run rights lib prove times test speed
.NOTPARALLEL:

help:
	@sed -n 's/^#   //p' Makefile

# Names every tool of the list that is missing. All lines of a recipe are expanded before its first is run, so nothing has started then.
missing = $(strip $(foreach tool,$(1),$(if $(shell command -v $(tool) 2>/dev/null),,$(tool))))
need = $(if $(call missing,$(1)),$(error missing: $(call missing,$(1)). README.md, "Try it", says what each tool is for))

# Stops where what is built cannot be written: into target/, and by rt into the folder out/ of each crate.
writable = @mkdir -p target 2>/dev/null; for d in target crates/*; do [ -d $$d ] && [ -w $$d ] || \
	{ echo "cannot write $(CURDIR)/$$d, where what is built goes" >&2; exit 1; }; done

run:
	$(call need,rt)
	$(writable)
	@echo "building pagerun; every crate that it needs is proved first .."
	@tools/progress.sh run tools/program.sh pagerun
	@echo "the sample node:"
	@crates/pagerun/out/pagerun < crates/pagerun/stdin

# The program alone stands on standard output, so that what it prints can be kept.
rights:
	$(call need,rt)
	$(writable)
	$(if $(IMAGES),,$(error which images? make rights IMAGES=FOLDER))
	@tools/progress.sh rights tools/program.sh rightsum >&2
	@tools/pairs.sh "$(IMAGES)" >target/rights.site
	@crates/rightsum/out/rightsum <target/rights.site

lib: target/staticlib/librun.a
	@echo "target/staticlib/librun.a, to be used with include/bench.h"

# Directories are among the sources: their time shows that a file has gone.
target/staticlib/librun.a: crates.txt $(shell find crates/*/src crates/*/specs crates/*/proofs)
	$(call need,rt)
	$(writable)
	@echo "building the static library of the bench; every crate that it needs is proved first .."
	@tools/progress.sh lib tools/library.sh

prove:
	$(call need,rt)
	$(writable)
	@echo "proving every crate from nothing .."
	@tools/progress.sh prove rt all verdict

times:
	$(call need,rt)
	$(writable)
	@echo "proving every crate from nothing, one at a time .."
	@tools/progress.sh times rt all verdict --jobs 1
	@awk '/^== .*, [0-9]+ s$$/ { printf "%-12s %4d s\n", substr($$2, 1, length($$2) - 1), $$3 - before; before = $$3 } \
		END { printf "%-12s %4d s\n", "all", before }' target/times.log

test:
	$(call need,rt bash gcc cargo python3)
	$(writable)
	@echo "running the gate: proofs, must-fail edits, programs, tests .."
	@.ci/run

speed:
	$(call need,rt gcc valgrind)
	@$(MAKE) --no-print-directory lib
	@echo "comparing the bench with the plain C program .."
	@tests/speed/run.sh target/staticlib
	@echo "comparing the writer of images with the plain C program .."
	@tests/speed/write.sh
	@echo "comparing the planner of contexts with the plain C program .."
	@tests/speed/plan.sh
	@echo "comparing the least mask with the plain C program .."
	@tests/speed/mask.sh
	@echo "comparing the count of rights with the plain C program .."
	@tests/speed/rights.sh
