#!/usr/bin/env bash
# Counts, by callgrind, the instructions of a merge of many tables and of a long chain of renames,
# freezes and hides over many references, and of each for half the input. Each link is compared with
# what is wanted.
#
#   usage: bench/operators.sh LINK_CASES
set -eu
. "$(dirname "$0")/counts.sh"

half=$(link merge 128)
whole=$(link merge 256)
echo "a merge of 256 tables with 2,000 names each: $((whole / 512000)) instructions a name; twice the input takes $(ratio "$half" "$whole") times as many"
half=$(link chain 50000 1000)
whole=$(link chain 100000 1000)
none=$(link chain 100000 0)
echo "1,000 operators over 100,000 references: $(((whole - none) / 100000000)) instructions a reference and operator; twice the input takes $(ratio "$half" "$whole") times as many"
