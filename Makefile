# make test       the whole gate: layout, proofs, must-fail edits, programs, the sample without a proof; then the bindings and a short comparison, where their tools are at hand
# make quick      for the desk, not the verdict: what changed and what stands above it is proved; no edits, no programs
# make run        the main program on a sample; before it is proved, the same sources built without a proof
# make prove      proves the main program and what it stands on, a line for each crate
# make library    the static library for C and Rust, target/staticlib/librdoq_c.a
# make dist       the library packed for others, target/dist/rdoq-VERSION-x86_64-linux.tar.gz; make dist-twice builds it twice and compares
# make install PREFIX=/usr/local
#                 headers, static and shared library, pkg-config and CMake files below a prefix
# make bindings   the static library, the C programs, the tests of the Rust crate, and the packed library tried from outside
# make fuzz CALLS=10000000 SEED=1
#                 searches on arrays at the edge of pages that can't be touched, right and damaged; make bindings runs a short one
# make compare N=1000 CLASSES=1,2 SEED=1 WITHOUT=beam
#                 the leaf calls, tokens, groups, the small product, and N blocks of each size class, by the Rust and by this port (compare/README.md says what is compared)
# make coupon IN=picture.ppm
#                 a scanned coupon from end to end, its own or a picture of yours: pictures in target/coupon, tables printed
# make bench PASSES=31
#                 times beside the Rust's, printed, and put into docs/PERFORMANCE.md and docs/performance.svg
# make bench MODE=instructions
#                 the same tables in instructions, counted by callgrind (valgrind), printed, and put into docs/PERFORMANCE.md

SHELL := bash
.SHELLFLAGS := -euo pipefail -c
MAKEFLAGS += --no-print-directory

# Overrides for a comparison: see the top.
N ?= 1000
SEED ?= 1
CLASSES ?=
WITHOUT ?=

# And for the bench.
MODE ?= times
PASSES ?= 31

# The Rust, for comparisons: the folder that holds src/group/trellis.rs.
JIXEL_SRC ?= $(abspath ../shared/docs/src)
export JIXEL_SRC

.PHONY: test quick run prove library dist dist-twice install bindings fuzz compare coupon bench

# rt's closing line, 'N passed, 0 failed', is kept back and printed last.
test:
	@diff docs/frequency-contexts.md <(tools/frequency_sheet.sh) || { echo 'docs/frequency-contexts.md is not what tools/frequency_sheet.sh prints' >&2; exit 1; }
	@tools/ans_table.py --check
	@tools/refusals.py --check
	@tools/contracts.py --check
	@mkdir -p target
	@rt ci | tee target/ci.log | awk 'NR > 1 { print last; fflush() } { last = $$0 } END { print last > "target/verdict.txt" }'
	@tools/edit_logs.sh target/ci.log
	@(cd crates/level_search && rt try) < examples/blocks.bin 2> target/try.log | diff - examples/blocks.txt || { cat target/try.log >&2; echo 'level_search, built without a proof as by make run, does not print examples/blocks.txt' >&2; exit 1; }
	@$(MAKE) bindings > target/bindings.log 2>&1 || { cat target/bindings.log; exit 1; }
	@grep '^bindings:' target/bindings.log
	@if command -v cargo > /dev/null && [ -f "$(JIXEL_SRC)/src/group/trellis.rs" ]; then $(MAKE) compare N=100; \
	else echo 'compare: no cargo, or not the Rust in JIXEL_SRC: left out'; fi
	@cat target/verdict.txt

quick:
	@rt all check

run:
	@mkdir -p target
	@tools/run.sh

prove:
	@tools/prove.sh

CC_STRICT := gcc -std=c99 -Wall -Wextra -Werror -Iinclude
CXX_STRICT := g++ -std=c++17 -pedantic -Wall -Wextra -Werror -Iinclude
STATICLIB := target/staticlib/librdoq_c.a

library:
	@tools/archive.sh

PREFIX ?= /usr/local

dist:
	@tools/dist.sh

dist-twice:
	@tools/dist_twice.sh

install:
	@tools/dist.sh "$(PREFIX)"

# Without gcc or without cargo, that part is left out, and said so.
bindings: library
	@tools/readme_snippets.sh
	@if command -v gcc > /dev/null; then \
	    $(CC_STRICT) -o target/example_c bindings/c/example.c $(STATICLIB) -lm && target/example_c && \
	    $(CC_STRICT) -o target/quick_start_c bindings/c/quick_start.c $(STATICLIB) && target/quick_start_c && \
	    $(CC_STRICT) -pedantic -o target/easy_c bindings/c/easy.c $(STATICLIB) && target/easy_c && \
	    $(CC_STRICT) -pedantic -std=c89 -o target/easy_c bindings/c/easy.c $(STATICLIB) && target/easy_c && \
	    $(CC_STRICT) -o target/rounding_c bindings/c/rounding.c $(STATICLIB) -lm && target/rounding_c && \
	    $(CC_STRICT) -pthread -o target/stack_c bindings/c/stack.c $(STATICLIB) && target/stack_c && \
	    $(CC_STRICT) -O1 -o target/fuzz_c bindings/c/fuzz.c $(STATICLIB) && target/fuzz_c 100000 && \
	    echo 'bindings: the C programs answer as they should'; \
	else echo 'bindings: no gcc here: the C programs are left out'; fi
	@if command -v g++ > /dev/null; then \
	    $(CXX_STRICT) -o target/easy_cpp -x c++ bindings/c/easy.c -x none $(STATICLIB) && target/easy_cpp && \
	    echo 'bindings: the headers serve C++17'; \
	else echo 'bindings: no g++ here: C++ is left out'; fi
	@if command -v cargo > /dev/null; then \
	    (cd bindings/rust && cargo test --offline && cargo test --offline --no-default-features --tests && \
	     cargo run --quiet --offline --example quick_start) && \
	    echo 'bindings: the tests of the Rust crate pass, with std and without'; \
	else echo 'bindings: no cargo here: the tests of the Rust crate are left out'; fi
	@if command -v cargo > /dev/null; then \
	    (cd coupon && cargo test --quiet --offline) && echo 'bindings: a coupon goes through all of it'; \
	else echo 'bindings: no cargo here: the coupon is left out'; fi
	@if cargo clippy --version > /dev/null 2>&1; then \
	    (cd bindings/rust && export RDOQ_LIB_DIR=/nowhere CARGO_TARGET_DIR=target/without && \
	     cargo clippy --quiet --offline --all-targets -- -D warnings && \
	     cargo clippy --quiet --offline --no-default-features -- -D warnings && \
	     RUSTDOCFLAGS='-D warnings' cargo doc --quiet --offline --no-deps) && \
	    echo 'bindings: without the archive the Rust crate is checked and documented, with no warning of its own'; \
	else echo 'bindings: no clippy here: left out'; fi
	@if command -v gcc > /dev/null && git rev-parse --quiet --verify HEAD > /dev/null; then \
	    tools/dist.sh && tools/dist_test.sh && echo 'bindings: the packed library serves a stranger'; \
	else echo 'bindings: no gcc or no commit here: nothing is packed'; fi

# Overrides for fuzz: see the top.
CALLS ?= 10000000

fuzz: library
	@$(CC_STRICT) -O1 -o target/fuzz_c bindings/c/fuzz.c $(STATICLIB)
	@target/fuzz_c $(CALLS) $(SEED)

compare: library
	@command -v cargo > /dev/null || { echo 'make compare needs cargo, and the Rust in the folder that JIXEL_SRC names'; exit 2; }
	@mkdir -p target
	@(cd crates/level_search && rt run < /dev/null) > target/compare.log 2>&1 || { cat target/compare.log >&2; exit 1; }
	@cargo build --quiet --release --offline --manifest-path compare/Cargo.toml --bin compare --bin leaves --bin tokens --bin groups --bin small
	@mkdir -p target/sample; compare/target/release/compare --sample target/sample; diff -r target/sample examples -x context-sheet.txt || { echo 'examples/blocks.bin and blocks.txt are not what compare --sample writes' >&2; exit 1; }
	@compare/target/release/leaves
	@compare/target/release/tokens --list target/token_list.txt; diff target/token_list.txt bindings/rust/tests/token_list.txt || { echo 'bindings/rust/tests/token_list.txt is not what tokens --list writes' >&2; exit 1; }
	@compare/target/release/tokens
	@compare/target/release/groups
	@compare/target/release/small
	@compare/target/release/compare $(N) --seed $(SEED) --port crates/level_search/out/level_search $(if $(CLASSES),--classes $(CLASSES)) $(if $(WITHOUT),--without $(WITHOUT))

# The Rust beside it where it is at hand.
IN ?=

coupon: library
	@command -v cargo > /dev/null || { echo 'make coupon needs cargo'; exit 2; }
	@cargo build --quiet --release --offline --manifest-path coupon/Cargo.toml
	@coupon/target/release/coupon target/coupon $(IN)
	@if [ -f "$(JIXEL_SRC)/src/group/trellis.rs" ]; then \
	    cargo build --quiet --profile speed --offline --manifest-path compare/Cargo.toml --bin coupon_rust && \
	    compare/target/speed/coupon_rust target/coupon $(IN); \
	else echo 'coupon: not the Rust in JIXEL_SRC: left out'; fi
	@echo 'coupon: pictures in target/coupon'

BENCH_times = times $(PASSES) docs/PERFORMANCE.md docs/performance.svg
BENCH_instructions = instructions docs/PERFORMANCE.md

bench: library
	@command -v cargo > /dev/null || { echo 'make bench needs cargo, and the Rust in the folder that JIXEL_SRC names'; exit 2; }
	@cargo build --quiet --profile speed --offline --manifest-path compare/Cargo.toml --bin bench
	@compare/target/speed/bench $(BENCH_$(MODE))
