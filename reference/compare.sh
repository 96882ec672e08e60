#!/bin/sh
# Plays fresh random scripts with another program and with the reference, and
# stops at the first difference:
#   compare.sh PLAY COUNT [FIRST_SEED]
# PLAY is a program that reads a script on standard input.
set -eu
if [ $# -lt 2 ] || [ $# -gt 3 ]; then
    echo "usage: compare.sh PLAY COUNT [FIRST_SEED]" >&2
    exit 2
fi
play=$(realpath "$1")
shift
cd "$(dirname "$0")"
cargo build --quiet --release
left=target/difference
rm -rf "$left"
if target/release/compare "$play" "$@"; then
    exit 0
fi
if [ -d "$left" ]; then
    echo "script, expected and got answers are in $PWD/$left; the differences begin:"
    diff "$left/expected" "$left/got" | head -20
fi
exit 1
