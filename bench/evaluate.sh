#!/usr/bin/env bash
# Counts, by callgrind, the instructions of planning and linking: for each object of a merge, and
# for each relocation of an object; and times whole runs, in which the objects are read and published
# too. All code of each image is compared with what is wanted.
#
#   usage: bench/evaluate.sh LINK_CASES
set -eu
. "$(dirname "$0")/counts.sh"

half=$(link objects 100)
whole=$(link objects 200)
echo "a merge of 200 objects: $(((whole - half) / 100)) instructions an object; twice the input takes $(ratio "$half" "$whole") times as many; a whole run takes $(milliseconds) ms"
half=$(link references 20000)
whole=$(link references 40000)
echo "40,000 relocations: $(((whole - half) / 20000)) instructions each; twice the input takes $(ratio "$half" "$whole") times as many; a whole run takes $(milliseconds) ms"
