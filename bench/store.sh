#!/usr/bin/env bash
# Counts, by callgrind, the instructions inside the calls of a store: a hit, plain and after a publish
# elsewhere, for footprints of 1 and of 257 paths; a place and a list of placements in a book of
# 10,000; counts in a short and in a long record; and a publish. Each answer is compared with what is
# wanted.
#
#   usage: bench/store.sh STORE_CASES
set -eu
shopt -s inherit_errexit
cases=$(realpath "$1")
. "$(dirname "$0")/common.sh"
need valgrind python3
cp "$here"/crates/store_cases/data/*.o .

inside() { # FUNCTION: the instructions inside the calls of it over the rows
    local count
    count=$(collected "--toggle-collect=$1" "$cases")
    if grep -qv '^ok' output || ! [ "$count" -gt 0 ]; then
        echo "bench: $1 in $count instructions, $(grep -v '^ok' output | head -c 200)" >&2
        exit 1
    fi
    echo "$count"
}

rows() { # KIND COUNT..: the rows, and what they answer
    python3 "$here/bench/rows.py" "$@" > rows.txt
}

each() { # FUNCTION FEWER MORE KIND WORD..: of the calls that MORE has beside FEWER
    local function=$1 fewer=$2 more=$3 less all
    shift 3
    rows "$@" "$fewer"
    less=$(inside "$function")
    rows "$@" "$more"
    all=$(inside "$function")
    echo "$(((all - less) / (more - fewer)))"
}

ask=store_cases::row::ask
for paths in 1 257; do
    plain=$(each $ask 100 200 hits "$paths")
    other=$(each $ask 100 200 others "$paths")
    echo "a hit, footprint of $paths: $plain instructions; after a publish elsewhere $(((other - plain) / paths)) more a path of it"
done
echo "a place in a book of 10,000 placements: $(each store_cases::link::place 10000 10010 places) instructions"
echo "the placements of a path among 10,000: $(each store_cases::row::placed 100 110 lists 10000) instructions"
echo "the counts, behind 100 steps: $(each store_cases::row::looked 100 110 counts 100) instructions; behind 20,000: $(each store_cases::row::looked 100 110 counts 20000)"
for paths in 4096 8192; do
    put=$(each store_cases::row::put "$paths" "$((paths + 64))" puts)
    echo "a publish beside $paths paths: $put instructions with its line of output"
done
