#!/usr/bin/env bash
# Counts, by callgrind, what the answer to a hit takes in a session that has a store for itself
# (`omosd stdio`) and in one of many on a hub (shared_cases, over links in memory): inside the call
# that both make for each frame, of 600 hits less those of 100. Every reply is compared with the one
# that tests/shared.py works out.
#
# What lies outside of that call is the same code in both, over other sources and sinks: `omosd stdio`
# has the system copy an image into its pipe, a link in memory copies it itself.
#
#   usage: bench/shared.sh OMOSD SHARED_CASES
set -eu
shopt -s inherit_errexit
omosd=$(realpath "$1")
cases=$(realpath "$2")
. "$(dirname "$0")/common.sh"
need valgrind python3

stream() { # COUNT: hits.in, and hits.out as tests/shared.py works replies out
    python3 - "$here" "$omosd" "$1" <<'PY'
import struct, subprocess, sys
sys.path.insert(0, sys.argv[1] + "/tests")
import shared as case
count = int(sys.argv[3])
frames = [case.put("/a", case.V1), case.link("/a")] + [case.link("/a")] * count + [case.END]
image = case.linked(1, case.FIRST, case.V1)
replies = case.published(1) + image * (count + 1) + case.BYE
open("hits.in", "wb").write(b"".join(frames))
open("hits.out", "wb").write(replies)
totals = f"sessions 1 requests {count + 2} version 1 placements 1 hits {count} stored 1 evicted 0"
open("cases.txt", "w").write(
    f"hits\nsocket s 1 1 4 2000\n0 300 {totals}\nworker up 0 a up\nhits 16384\n")
PY
}

answers() { # PROGRAM WORD..: the instructions inside the answers
    collected "--toggle-collect=omos_session::answering::answer" \
        "--toggle-collect=omos_session::answering::answer::*" "$@"
}

alone() {
    stream "$1"
    answers "$omosd" stdio 4 2000 < hits.in
    cmp output hits.out >&2
}

shared() {
    stream "$1"
    answers "$cases"
    [ "$(grep -c '^ok' output)" = 3 ] && [ "$(wc -l < output)" = 3 ] || { cat output >&2; exit 1; }
}

each() { # KIND: of a hit, from two runs
    local few many
    few=$("$1" 100)
    many=$("$1" 600)
    [ "$few" -gt 0 ] || { echo "bench: nothing was counted inside the answers" >&2; exit 1; }
    echo "$(((many - few) / 500))"
}

one=$(each alone)
many=$(each shared)
echo "the answer to a hit: $one instructions in a session alone, $many in a shared session"
