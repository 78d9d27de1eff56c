# run: proves and builds the program, and lists the sample container file. test: the gate (proofs, must-fail edits, programs, tests).
.PHONY: run test

run:
	cd crates/girvoupa && rt run -- check $(CURDIR)/examples/sample.containers

test:
	.ci/run
