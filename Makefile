# What a developer calls, by short names. Each target calls what is there; tests/all needs no make.
.PHONY: help try office build check test case edit polls claim all teller

N = 500
SEED = 1

help: ## list these targets
	@sed -n 's/^\([a-z]*\):.*## /make \1\t/p' Makefile | expand -t 12

try: ## build without any proof, and count two examples; ARGS="check --poll FILE" runs these words
	@tests/try $(ARGS)

office: ## open the office of an example election in the browser, with the program that make try builds
	@tests/try --office

build: ## prove and build the program, crates/debvote/out/debvote
	@tests/build
	@docs/make-teller

check: ## prove the crate CRATE=..
	@tests/support/near_names.py crate "$(CRATE)" && cd "crates/$(CRATE)" && rt check

test: ## run most tests that need no proof, in some minutes; with NAME=.. that test of the crates of tests alone
	@if [ -z "$(NAME)" ]; then exec tests/quick; fi; \
	crates=$$(cd crates && grep -lE "^fn \w*$(NAME)" tests_*/src/*.rt | cut -d/ -f1 | sort -u); \
	[ -n "$$crates" ] || { echo "no test of the crates is called so: grep -A1 '#.test.' crates/*/src/*.rt lists them" >&2; exit 1; }; \
	for crate in $$crates; do (cd "crates/$$crate" && rt try --test --seconds 600 -- "$(NAME)") || exit; done

case: ## run the case NAME=.. of tests/cases with the built program
	@tests/cases/run "$(NAME)"

edit: ## try the edit NAME=.. of the crate CRATE=.., which the prover must refuse
	@tests/one-edit "$(CRATE)" "$(NAME)"

polls: ## compare the built program with the reference on N=500 random polls from SEED=1 on
	@tests/random-polls --n "$(N)" --seed "$(SEED)"

claim: ## make docs/claim.html from the sources, what one believes when one believes a sheet, and the pages of the other commands
	@docs/make-claim

all: ## prove everything, try all edits, and run all tests: tests/all
	@tests/all

teller: ## make the pages of the tellers, which are the same for every vote
	@docs/make-teller
