#!/bin/sh
# Writes random scripts and their answers into a folder, as pairs
# NNNN.script and NNNN.answers, where NNNN is the seed, and the names of all
# pairs, one to a line, as `index`:
#   make-cases.sh OUT COUNT
# Seeds are taken from 1 on. Dull scripts are left out. So that the folder stays
# small, only one script in 60 may be longer than 1,900 bytes; of those longer
# than 4,000 bytes only two are taken, one as long as a script may be, and one
# that is a byte longer. One script in 16 may end at its header.
# Prints at the end what came of them.
set -eu
if [ $# -ne 2 ]; then
    echo "usage: make-cases.sh OUT COUNT" >&2
    exit 2
fi
mkdir -p "$1"
out=$(cd "$1" && pwd)
count=$2
cd "$(dirname "$0")"
cargo build --quiet --release
bin=$PWD/target/release
rm -f "$out"/[0-9]*.script "$out"/[0-9]*.answers
: > "$out/index"

# Is there enough among the answers that is rare? A warped commit and refusals
# 14 and 15 count most, refusals 16 to 18 least.
is_lively() {
    awk '$2 == 0 && $4 > 0 && $3 > $4 || $2 == 14 || $2 == 15 { rare += 6; next }
         $2 >= 9 && $2 <= 12 { rare += 3; next }
         $2 >= 16 { rare += 1 }
         END { exit !(3 * rare >= NR) }' "$1"
}

long_left=$((count / 60))
refused_left=$((count / 16))
lengths_left="32768 32769"
seed=0
written=0
while [ "$written" -lt "$count" ]; do
    seed=$((seed + 1))
    name=$(printf '%04d' "$seed")
    script=$out/$name.script
    answers=$out/$name.answers
    "$bin/generate" "$seed" > "$script"
    "$bin/reference" < "$script" > "$answers"
    bytes=$(wc -c < "$script")
    keep=no
    if [ "$bytes" -gt 4000 ]; then
        case " $lengths_left " in
            *" $bytes "*)
                keep=yes
                lengths_left=$(echo "$lengths_left" | sed "s/$bytes//")
                ;;
        esac
    elif [ "$bytes" -gt 1900 ]; then
        [ "$long_left" -eq 0 ] || { keep=yes; long_left=$((long_left - 1)); }
    elif [ "$(wc -l < "$answers")" -le 1 ]; then
        [ "$refused_left" -eq 0 ] || { keep=yes; refused_left=$((refused_left - 1)); }
    elif is_lively "$answers"; then
        keep=yes
    fi
    if [ "$keep" = yes ]; then
        written=$((written + 1))
        echo "$name" >> "$out/index"
    else
        rm "$script" "$answers"
    fi
done
"$bin/stats" "$out"/*.script
echo "last seed          $seed"
echo "bytes              $(cat "$out"/*.script "$out"/*.answers | wc -c)"
