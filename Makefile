.PHONY: help run test

help:
	@echo "make run                run the built-in demonstration"
	@echo "make run SCRIPT=FILE    run an operator's script"
	@echo "make test               run the gate: prove everything, try every edit, run every program and test"

# The program is proved before it is built.
run:
	@mkdir -p target/bin
	@(cd crates/ap101s && rt run) >target/run.log 2>&1 </dev/null || { cat target/run.log; exit 1; }
	@cp crates/ap101s/out/ap101s target/bin/ap101s
	@target/bin/ap101s $(SCRIPT)

test:
	@.ci/run
