# make run: proves and builds the program, and runs it on the yard example. make test: the whole gate.
.PHONY: run test

run:
	cd crates/roadsheet && rt run < ../../examples/yard.crn

test:
	.ci/run
