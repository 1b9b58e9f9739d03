# run: proves and builds the rig, and carries out the example. test: the gate.
.PHONY: run test

run:
	cd crates/rig && rt run < ../../examples/power-cut.rig

test:
	.ci/run
