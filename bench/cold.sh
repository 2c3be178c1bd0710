#!/usr/bin/env bash
# Times whole sessions of `omosd stdio` that publish objects and link them for the first time,
# beside ld, gold, lld and tcc, those that are installed, on the same objects: 200 small ones that
# call one another, 250 of C with 33 relocations each, and one with 35,000. What each linked is run
# first, and must behave alike. The median and the least of ROUNDS runs, 41 if left out.
#
#   usage: bench/cold.sh OMOSD [ROUNDS]
set -eu
omosd=$(realpath "$1")
rounds=${2:-41}
. "$(dirname "$0")/common.sh"
need as gcc ld python3

linkers=(omosd ld)
for tool in ld.gold ld.lld tcc; do type -P $tool > /dev/null && linkers+=($tool); done
for kind in ring calls one; do
  python3 "$here/bench/cold.py" $kind "$omosd" "$rounds" "${linkers[@]}"
done
