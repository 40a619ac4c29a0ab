# The commands of this repository.
.PHONY: test run play bench soak

CARGO_TARGET_DIR := $(CURDIR)/target/cargo
export CARGO_TARGET_DIR
BENCH := --manifest-path bench/Cargo.toml --offline

# The gate: layout, every proof, must-fail edit, test and program, the documents, the tools' and the yardstick's tests, SHA-1 against sha1sum, the
# front against the yardstick, and the player against a second reading.
test:
	@tools/gate

# A monitor in small, then the bench sheet and the SHA-1 vectors, each line with what is expected and what came. The sheet's lines 'wrong on
# purpose' show that a difference is seen.
run:
	@echo 'proving and building example_monitor, conformance and sha1_vectors (many minutes the first time)'
	@tools/built example_monitor conformance sha1_vectors
	@crates/example_monitor/out/example_monitor
	@crates/conformance/out/conformance <crates/conformance/stdin
	@crates/sha1_vectors/out/sha1_vectors

# Plays a capture (docs/PLAY.md): CAPTURE names its file; without it the capture is standard input.
play:
	@[ -n "$(CAPTURE)" ] || [ ! -t 0 ] || { echo 'usage: make play CAPTURE=file, or a capture from a pipe' >&2; exit 2; }
	@[ -x crates/play/out/play ] || echo 'proving and building play (many minutes the first time)' >&2
	@tools/built play
	@crates/play/out/play $(if $(CAPTURE),<'$(CAPTURE)')

# The proved SHA-1 and the proved bus cycles beside ordinary ones, both built for release.
bench:
	cd crates/sha1_exports && rt lib
	cd crates/tis_exports && rt lib
	cargo build --quiet --release $(BENCH) --features rattle
	target/cargo/release/bench_sha1
	target/cargo/release/bench_cycles

# N more calls through the front and the yardstick, from a seed that the clock gives; `make soak N=1000000 SEED=7` picks both.
N := 50000000
SEED := $(shell date +%s)
soak:
	CALLS=$(N) SEED=$(SEED) tools/compare-calls
