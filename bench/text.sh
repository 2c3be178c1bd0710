#!/usr/bin/env bash
# Counts, by callgrind, the instructions inside the calls that read and write a blueprint's text of
# 65,536 bytes: with 64 parentheses inside one another, one merge of paths, and a show of names; and
# for half of each. Each text is compared with the one that is written of what was read.
#
#   usage: bench/text.sh LINK_CASES
set -eu
. "$(dirname "$0")/counts.sh"

one_call() { # FUNCTION: the instructions of one of its two calls in a case
    local count
    count=$(inside "$1") || exit 1
    echo $((count / 2))
}

costs() { # FUNCTION SHAPE: instructions a byte, and how many times as many twice the input takes
    local half whole
    python3 "$here/bench/texts.py" "$2" 32768
    half=$(one_call "$1") || exit 1
    python3 "$here/bench/texts.py" "$2" 65536
    whole=$(one_call "$1") || exit 1
    echo "$((whole / 65536)) instructions a byte, $(ratio "$half" "$whole") times as many for twice the input"
}

tell() { # SHAPE WHAT-IT-IS
    local read written
    read=$(costs 'bp_tree::parser::parse*' "$1")
    written=$(costs 'bp_tree::printer::print*' "$1")
    echo "$2: read in $read; written in $written"
}

tell deep "64 parentheses in 65,536 bytes"
tell wide "a merge of 65,536 bytes"
tell names "65,536 bytes of names"
