.PHONY: run try test bench examples build

# proves the crates that the program needs, side by side, builds it and runs the two-site example; the log of what fails is shown
run:
	@prove/run run 1 10 < examples/two_sites.txt

# runs the two-site example with no proof
try:
	@echo 'make try proves nothing: it builds the program without its proofs, and make run proves it' >&2
	@cd crates/surf && rt try -- run 1 10 < ../../examples/two_sites.txt

# proves everything, tries the edits that must be refused, and runs the tests and the repository's own checks
test:
	@bash .ci/run

# runs each manifest for ten events, evaluates circuits, draws one as a surface, takes the automata a few steps on, and lets the cells of one take three steps in their own time
examples: build
	@for file in examples/*.txt; do echo "$$file"; crates/surf/out/surf run 1 10 < "$$file" || exit 1; done
	@echo examples/full_adder.blif; crates/surf/out/surf eval 110 < examples/full_adder.blif
	@echo examples/c17.blif; crates/surf/out/surf eval 10101 < examples/c17.blif
	@echo examples/inverter.blif; crates/surf/out/surf circuit < examples/inverter.blif
	@echo examples/growth.rle; crates/surf/out/surf step 2 < examples/growth.rle
	@echo examples/torus.rle; crates/surf/out/surf step 2 < examples/torus.rle
	@echo examples/gun.rle; crates/surf/out/surf step 30 < examples/gun.rle
	@echo examples/glider.rle; crates/surf/out/surf step 40 < examples/glider.rle
	@echo examples/signal.table; crates/surf/out/surf step 3 < examples/signal.table
	@crates/surf/out/surf automaton 0 3 < examples/signal.table | crates/surf/out/surf run 1 1000 | tail -n 6

# times the built program on surfaces that the script generates
bench: build
	@bash bench/run

# builds the program, crates/surf/out/surf
build:
	@$(MAKE) --no-print-directory run > build.out
