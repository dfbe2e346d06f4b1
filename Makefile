# make demo         the main job, from nothing: build, load a sheet, print its order, key a picture by it
# make              prove every crate, and build lib/libhubeltxa.a and target/bin/walklist
# make lib          lib/libhubeltxa.a, for include/hubeltxa.h
# make parts        what the tests and the benchmark use: the library, the archives of rebuild and replay, walklist
# make test         the whole test; its last line is rt's verdict
# make test-long    all 2^32 floats in each channel, and more tables, calls, queries and sheets, compared with the straight scan
# make fuzz         random calls and damaged inputs compared with the straight scan, for SECONDS=60; SEED=s again, ROUND=r alone
# make definitions  the definitions, compared with the straight scan by computing both
# make must-fail    every must-fail edit; CRATE=order for those of one crate
# make rules        changed rules of the reference machine, each of which must break the proof of its call
# make believed     how many lines of definitions a reader must believe; BY=-v each definition
# make map          draw crates.txt, as docs/architecture.svg
# make bench        how fast it is, beside C++, nanoflann, FLANN and a scan; written to docs/BENCHMARK.md
# make fmt          format Rattle and Rust
# make clean        remove what is built

.PHONY: all demo lib parts test test-long fuzz definitions must-fail rules believed map bench fmt clean

all:
	@tools/build
	@echo "Proved. lib/libhubeltxa.a and target/bin/walklist are built."

demo:
	@tools/demo

lib:
	@tools/build hubeltxa

parts:
	@tools/build hubeltxa rebuild replay walklist

test:
	@tools/test

test-long: parts
	@tools/needs cargo cc
	@cd rust && cargo test --release --offline -- --ignored --show-output

fuzz: lib
	@tools/needs cargo cc
	@cd rust && FUZZ_SECONDS=$(or $(SECONDS),60) FUZZ_SEED=$(SEED) FUZZ_ROUND=$(ROUND) cargo test --release --offline --test fuzz

definitions:
	@tools/needs rt cargo cc
	@tools/definitions/run

must-fail:
	@tools/must-fail $(CRATE)

rules:
	@tools/rules/run

believed:
	@tools/believed $(BY)

map:
	@tools/map > docs/architecture.svg

bench: parts
	@tools/needs c++
	@bench/build
	@target/bench/bench docs

fmt:
	@for crate in crates/*/; do (cd $$crate && rt fmt) || exit 1; done
	@cd rust && cargo fmt
	@rustfmt --edition 2021 tools/definitions/generator/main.rs

clean:
	@rm -rf target lib rust/target crates/*/out
