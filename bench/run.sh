#!/bin/sh
# The benchmark: the library beside unverified Rust of the same algorithm.
#
# usage: bench/run.sh
#   HOURLOG_LIB  the folder that holds libhourlog_c.a (else it is built)
set -eu

folder=$(dirname "$0")
HOURLOG_LIB=$("$folder/../tests/library.sh")
export HOURLOG_LIB
cd "$folder/.."

echo "== the benchmark is built" >&2
cargo build --quiet --offline --release --manifest-path bench/Cargo.toml --target-dir target/bench
echo "== the benchmark runs (a minute; the machine should be quiet)" >&2
target/bench/release/bench
