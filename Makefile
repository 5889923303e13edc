# `make help` lists the targets. Each needs `rt`, the command of the Rattle kit, on the path.

.DEFAULT_GOAL := build
.PHONY: build install demo demo-bytes demo-edges run test bench believe rooms hostile clean help

DIR := -
WORDS :=
PREFIX := /usr/local

build: ## prove all crates side by side, put the programs in build/: wtf, wtf_file, wtf_check, wtf_heal
	@tools/build

install: ## [PREFIX=/usr/local]: put the built programs and the tools for files into PREFIX/bin (at once)
	@tools/install "$(PREFIX)"

demo: ## run examples/ and compare, built fast, unproved (1 to 2 minutes)
	@tools/demo

run: ## SCRIPT=FILE [DIR=..] [WORDS=..]: run a script, by build/wtf where it is newer than the sources
	@tools/run-fast "$(SCRIPT)" "$(DIR)" $(WORDS)

demo-bytes: build ## 1 MiB in and out; records sorted; a store gone on with; a run killed; lost servers healed (a minute after the build)
	@examples/bytes.sh
	@examples/records.sh
	@examples/again/run.sh
	@examples/journal/run.sh
	@examples/heal.sh

demo-edges: build ## closed streams, a folder in use, wrong first words (seconds after the build)
	@tools/edges build/wtf

test: ## the gate, rt ci, on everything (the first time, the longest)
	rt ci

bench: build ## print tables of what calls, lines, long lists, scans and sorts of records cost (minutes)
	@tools/bench

believe: ## whether docs/BELIEVE.md lists what the clauses of the programs' calls cite (at once)
	@tools/believe --page | diff docs/BELIEVE.md - && echo "docs/BELIEVE.md is up to date"

rooms: ## draw docs/rooms.svg of crates.txt and docs/costs.svg of docs/MEASUREMENTS.md, and say what changed (at once)
	@tools/rooms > docs/rooms.svg
	@tools/costs docs/MEASUREMENTS.md > docs/costs.svg
	@git diff --stat -- docs/rooms.svg docs/costs.svg

hostile: build ## run the program over devices that fail, cut scripts, damaged images, want of memory, and kills (minutes)
	@cd crates/wtf_hostile && exec rt run -- more
	@tools/hostile-memory
	@tools/hostile-kills

clean: ## remove what was built (at once)
	rm -rf build crates/*/out

help: ## list the targets
	@awk -F ':.*## ' '/^[a-z-]+:.*## / { printf "make %-10s %s\n", $$1, $$2 }' $(MAKEFILE_LIST)
