#!/bin/sh
# Prints what the program `cases` must print about the cases in a folder that
# make-cases.sh has written:
#   expected-cases.sh DATA > crates/cases/stdout
# Everything is counted by awk in the stored answers, and then compared with
# what the reference counts while it plays the stored scripts. Where the two
# differ, nothing is printed and the status is 1.
set -eu
if [ $# -ne 1 ]; then
    echo "usage: expected-cases.sh DATA" >&2
    exit 2
fi
data=$(cd "$1" && pwd)
cd "$(dirname "$0")"
cargo build --quiet --release

# Names and numbers as `stats` prints them, but with one space.
counted=$(
    cat "$data"/*.answers |
        awk -v scripts="$(wc -l < "$data/index")" '
            { refusals[$2]++ }
            $2 == 0 && $4 > 0 { granted++ }
            $2 == 0 && $4 > 0 && $3 > $4 { warped++ }
            END {
                print "scripts", scripts + 0
                print "answer lines", NR
                print "accepted lines", refusals[0] + 0
                for (number = 1; number <= 18; number++)
                    print "refusal", number, refusals[number] + 0
                print "granted commits", granted + 0
                print "warped", warped + 0
            }'
)
played=$(
    target/release/stats "$data"/*.script |
        awk '{ $1 = $1 }
             !/^(of updates|of readers|skipped writes|removed versions) / { print }'
)
if [ "$counted" != "$played" ]; then
    echo "the stored answers are not those of the reference" >&2
    exit 1
fi
echo "$counted" | awk '
    /^scripts/ { scripts = $2; next }
    /^answer lines/ { print scripts " scripts, " $3 " answer lines: no difference"; next }
    /^accepted/ { print "accepted: " $3; next }
    /^refusal/ { print "refusal " $2 ": " $3; next }
    /^granted/ { print "granted commits: " $3; next }
    /^warped/ { print "warped commits: " $2 }'
