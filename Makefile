# What a target prints on standard output is what its program printed, and nothing else: building speaks on standard error. tests/answered runs the
# program and says whether it answered.
CHAIN ?= examples/address.chain
TEXT ?= examples/address.text
STEPS ?= 3
SHARES ?= examples/address.shares
COPIES ?= 3
LOSS ?= 1
REBUILD ?= 20
FINISH ?= 100
LIMIT ?= 1e-9
# From the command line alone: other tools use an OUT or a STATE in the environment.
OUT =
STATE =

# Recipes take these from the environment, so that a path may hold any byte.
export CHAIN TEXT STEPS SHARES COPIES LOSS REBUILD FINISH LIMIT OUT STATE

.PHONY: report show chain near limit steps reorder within check salvage plan table fewest help test memory bench fmt clean

report: target/bin/nightchance ## the report of a chain file (CHAIN=)
	@tests/answered $< <"$$CHAIN"

show: target/bin/showchain ## its text (CHAIN=)
	@tests/answered $< <"$$CHAIN"

chain: target/bin/makechain ## the chain file of a text, on standard output or in a file (TEXT=, OUT=)
	@tests/answered --out "$$OUT" $< <"$$TEXT"

near: target/bin/nightnear ## its chance, however small, and that of missing (CHAIN=, STATE= for another start)
	@tests/answered $< $${STATE:+"$$STATE"} <"$$CHAIN"

limit: target/bin/nightlimit ## whether its chance is at most a limit (CHAIN=, LIMIT=)
	@tests/answered $< "$$LIMIT" <"$$CHAIN"

steps: target/bin/nightsteps ## its step list (CHAIN=)
	@tests/answered $< <"$$CHAIN"

reorder: target/bin/reorder ## its file with a chosen order, on standard output or in a file (CHAIN=, OUT=)
	@tests/answered --out "$$OUT" $< <"$$CHAIN"

within: target/bin/nightwithin ## its chance within so many steps (CHAIN=, STEPS=)
	@tests/answered $< "$$STEPS" <"$$CHAIN"

check: target/bin/checkshares ## whether a table is its chance at every state (CHAIN=, SHARES=)
	@tests/answered --shares "$$SHARES" $< <"$$CHAIN"

salvage: target/bin/salvage ## what is left of it where it is damaged (CHAIN=)
	@tests/answered $< <"$$CHAIN"

plan: target/bin/plancopies ## the chance that a job loses all its copies (COPIES=, LOSS=, REBUILD=, FINISH=)
	@tests/answered $< "$$COPIES" "$$LOSS" "$$REBUILD" "$$FINISH"

table: target/bin/plantable ## that chance for 1 to 32 copies, however small (LOSS=, REBUILD=, FINISH=)
	@tests/answered $< "$$LOSS" "$$REBUILD" "$$FINISH"

fewest: target/bin/fewestcopies ## how many copies keep it at or below a limit (LOSS=, REBUILD=, FINISH=, LIMIT=)
	@tests/answered $< "$$LOSS" "$$REBUILD" "$$FINISH" "$$LIMIT"

help: ## this list
	@sed -n 's/^\([a-z]*\):.*## /make \1\t/p' Makefile | expand -t 16

# Only a proved program is built, so the first build takes as long as its proofs. Two makes at once build one after the other.
ALONE := $(if $(shell command -v flock 2>/dev/null),flock target/.building)
target/bin/%: $(shell find crates -name out -prune -o -name '*.rt' -print -o -name '*.antt' -print) crates.txt
	@mkdir -p target
	@$(ALONE) tests/build $* >&2
	@test -x $@ && touch $@

test: ## the gate: proves what it has not proved here yet, then runs every test
	bash .ci/run

memory: ## a sample of the tests under valgrind, on x86-64, after make test
	tests/memory

bench: ## timings beside FLINT and LAPACK
	tests/build egorstream
	bench/run

fmt: ## lays out every file of Rattle
	for crate in crates/*; do (cd $$crate && rt fmt) || exit 1; done

clean: ## removes target/, where what is built is put; what the prover keeps lies in crates/*/out
	rm -rf target
