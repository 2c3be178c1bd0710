#!/usr/bin/env bash
# Counts the instructions that `omosd once` takes for each relocation and for each symbol of large
# objects, by callgrind, and the memory that it holds. An object and one of twice the size are
# linked, and what they cost apart is divided; the images are compared with what is wanted.
#
#   usage: bench/objects.sh OMOSD
set -eu
omosd=$(realpath "$1")
. "$(dirname "$0")/common.sh"
need valgrind python3

python3 "$here/bench/objects.py" "$here/tests"

instructions() { # of a run over an object
    collected "$omosd" once < "$1"
    cmp output "$1.image" >&2
}

per() { # WHAT SMALL LARGE COUNT
    local a b
    a=$(instructions "$2")
    b=$(instructions "$3")
    echo "$1: $(((b - a) / $4)) instructions each"
}

per "relocations against a global name" global-20000.o global-40000.o 20000
per "relocations against a local symbol" local-20000.o local-40000.o 20000
per "exports with a name of 9 bytes" exports-12000.o exports-24000.o 12000
per "local symbols" locals-12000.o locals-24000.o 12000
if [ -x /usr/bin/time ]; then
    /usr/bin/time -f %M -o memory "$omosd" once < global-40000.o > image
    echo "most memory held over $(stat -c %s global-40000.o) bytes of object: $(cat memory) KB"
fi
