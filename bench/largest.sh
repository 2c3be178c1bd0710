#!/usr/bin/env bash
# What the deepest blueprints and texts take: the instructions inside the call, by callgrind, and the
# stack, as the least limit under which the program still answers what is wanted.
#
#   usage: bench/largest.sh LINK_CASES
set -eu
. "$(dirname "$0")/counts.sh"

answers() { # KIB: whether the case is answered as is wanted with so much stack
    # The shell tells of a program that is killed; nobody wants to read it.
    { (ulimit -s "$1" && exec "$cases" > output); } 2> /dev/null && [ "$(grep -c '^ok' output)" = 1 ]
}

stack() { # the least stack, to 4 KiB
    local low=0 high=8192
    while ((high - low > 4)); do
        local middle=$(((low + high) / 2))
        if answers $middle; then high=$middle; else low=$middle; fi
    done
    echo "$high"
}

tell() { # NAME FUNCTION: of the case of this name
    cp "$here"/crates/link_cases/data/*.o .
    # The first row of that name, with the lines that go on with it.
    awk -v name="$1 | " 'index($0, name) == 1 && !found { found = on = 1; print; next }
        on && /^  / { print; next }
        { on = 0 }' "$here/crates/link_cases/data/cases.txt" > cases.txt
    echo "$1: $(inside "$2") instructions; $(stack) KiB of stack"
}

link=link_cases::answer::answer_of
tell "32 blueprints of 62 operators inside one another" $link
tell "62 overrides inside one another" $link
tell "4,096 nodes" $link
tell "a table of 256 leaves by eight overrides" $link
tell "64 parentheses with a list" 'bp_tree::parser::parse*'
