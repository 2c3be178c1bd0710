#!/usr/bin/env bash
# Counts, by callgrind, the instructions of links whose blueprints are named more than once, beside
# those of the same leaves where each use has a blueprint of its own; and the most memory that both
# hold. All code of each image is compared with what is wanted.
#
#   usage: bench/sharing.sh LINK_CASES
set -eu
. "$(dirname "$0")/counts.sh"

peak() { # KIND SIZE: the most kilobytes that a run over the case holds, reading it included
    rm -f ./*.o ./*.txt massif.out
    python3 "$here/bench/links.py" "$here/tests" "$@"
    valgrind --tool=massif --massif-out-file=massif.out "$cases" > output 2> valgrind.out
    sed -n 's/^mem_heap_B=//p' massif.out | sort -n | tail -n 1 | awk '{ printf "%d", $1 / 1024 }'
}

compare() { # WHAT SHARED APART SIZE
    local shared apart
    shared=$(link "$2" "$4")
    apart=$(link "$3" "$4")
    echo "$1: $shared instructions, $(ratio "$apart" "$shared") of the $apart that they take apart;" \
        "at most $(peak "$2" "$4") KiB held, and $(peak "$3" "$4") apart"
}

compare "256 leaves by eight overrides" doubled apart 8
compare "50 variants of a library of five objects" variants libraries 50
half=$(link objects 125)
whole=$(link objects 250)
echo "250 objects in one merge take $whole instructions, $(((whole - half) / 125)) each"
