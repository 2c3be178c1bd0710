#!/usr/bin/env bash
# Prints what a session of `omosd stdio` holds of memory for each of five large objects that are
# published, beside what is allowed: 1.5 times the file, 32 bytes a symbol and 48 a relocation, and
# 4 MB. It fails where one takes more.
#
#   usage: bench/memory.sh OMOSD
set -eu
omosd=$(realpath "$1")
. "$(dirname "$0")/common.sh"
need python3

python3 "$here/bench/memory.py" "$here/tests" "$omosd"
