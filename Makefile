# make run     sets examples/first.job to a DVI file
# make build   proves and builds the program
# make test    the gate of the proofs, then the program's own checks
.PHONY: run build test

run:
	@scripts/run_example

build:
	@scripts/build

test:
	@.ci/run
