# `make test` is the gate. `make run` builds and proves the desk, then runs it on the shipped example.
.PHONY: test run

test:
	.ci/run

run:
	@mkdir -p target
	@echo "proving and building the desk; the first time takes some minutes"
	@cd crates/desk && rt run </dev/null >../../target/desk.log 2>&1 || { cat ../../target/desk.log; exit 1; }
	@crates/desk/out/desk <examples/plan.txt
