#!/bin/sh
# Runs the worked examples, then checks the claims about the serial order on
# many random scripts: selftest.sh [COUNT] [FIRST_SEED]
set -eu
cd "$(dirname "$0")"
cargo test --quiet --release
cargo run --quiet --release --bin selfcheck -- "${1:-20000}" "${2:-1}"
