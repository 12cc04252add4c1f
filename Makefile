# make run      prove, build and run the program on a sample trace
# make test     the gate: everything proved, every must-fail edit tried, everything compared (.ci/run)
# make compare  the comparison with the independent program, at length
# make bench    speed: the proved library and the plain Rust one, in one run

SAMPLE = examples/sample.trace
CARGO  = cargo --quiet --offline
RUST   = --release --manifest-path rust/Cargo.toml

.PHONY: run test compare compare-quick bench library program tools fmt clean

run: program
	@echo "target/bin/bench < $(SAMPLE)"
	@target/bin/bench < $(SAMPLE)

test:
	@bash .ci/run

program:
	@bash .ci/prove program bench

library:
	@bash .ci/prove library ghindulza

tools:
	@bash .ci/tools

compare-quick: tools library program
	@bash .ci/compare 4

compare: tools library program
	@bash .ci/compare 40

bench: tools library
	@for place in 0 16 32 48; do PLACE=$$place $(CARGO) run $(RUST) --example ratios || exit 1; done

fmt:
	@for crate in crates/*; do (cd $$crate && rt fmt) || exit 1; done

clean:
	rm -rf target rust/target crates/*/out
