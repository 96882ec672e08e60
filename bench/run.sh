#!/usr/bin/env bash
# Proves the board and builds it as a static library, builds and tests the bench, and prints every table.
# Pictures go to docs/bench-*.svg.
set -euo pipefail
cd "$(dirname "$0")/.."
mkdir -p target
(cd crates/station && rt lib) > target/staticlib.log 2>&1 || { cat target/staticlib.log; exit 1; }
kit=$(dirname "$(rt doc)")
export STATION_ARCHIVE=$PWD/crates/station/out/libstation.a
export LIBC_C_ARCHIVE=$kit/c/liblibc_c.a
cargo test --quiet --release --offline --manifest-path bench/Cargo.toml > target/bench-test.log 2>&1 || { cat target/bench-test.log; exit 1; }
cargo build --quiet --release --offline --manifest-path bench/Cargo.toml
exec bench/target/release/bench docs
