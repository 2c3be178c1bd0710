#!/usr/bin/env bash
# Counts, by callgrind, the instructions inside the calls `feed` and `next` of a decoder: for a byte
# of a large put, in large pieces and byte by byte, and for a small request. What the decoder hands
# out, and after how many bytes, is compared with what the formats say.
#
# Callgrind counts a string instruction (`rep movsb`, by which the C library copies a piece) once
# for each byte that it moves, so what the copies take is told apart.
#
#   usage: bench/wire.sh WIRE_CASES
set -eu
shopt -s inherit_errexit
cases=$(realpath "$1")
. "$(dirname "$0")/common.sh"
need valgrind python3

stream() { # SIZE KIND COUNT: a case, cut into pieces of this size, and what comes of it
    PYTHONPATH="$here/tests" python3 - "$@" << 'END'
import sys
from frames import request_frame, stream_line
size, kind, count = int(sys.argv[1]), sys.argv[2], int(sys.argv[3])
if kind == "put":
    data = request_frame(("put", b"/p", b"A" * count))
    text = f"{data[:9].hex()} {count}*41"
else:
    data = request_frame(("link", b"/p")) * count
    text = data.hex()
open("cases.txt", "w").write(f"stream {size} | {kind} | {text}\n")
open("wanted", "w").write(f"{kind}: {stream_line(data, [size])}\n")
END
}

taken() { # SIZE KIND COUNT: the instructions inside both calls
    local count
    stream "$@"
    count=$(collected --toggle-collect=wire_cases::stream::feed \
        --toggle-collect=wire_cases::stream::next "$cases")
    if ! cmp -s output wanted || ! [ "$count" -gt 0 ]; then
        echo "bench: $* took $count instructions, $(head -c 200 output)" >&2
        exit 1
    fi
    echo "$count"
}

copied() { # of these, those of the C library's copies
    callgrind_annotate --threshold=100 out | python3 -c '
import re, sys
found = (re.match(r"\s*([\d,]+) .*mem(cpy|move|set)", line) for line in sys.stdin)
print(sum(int(row[1].replace(",", "")) for row in found if row))'
}

put() { # SIZE COUNT: the line of a put of so many bytes, and of one of half
    local half whole copies
    half=$(taken "$1" put "$(($2 / 2))")
    whole=$(taken "$1" put "$2")
    copies=$(copied)
    python3 -c "
print(f'a put of {$2:,} bytes in pieces of {$1:,}: {$whole / $2:.2f} instructions a byte, of which',
      f'{$copies / $2:.2f} in copies; twice the bytes take {$whole / $half:.2f} times as many')"
}

put 16384 2000000
put 4096 2000000
put 1 200000
few=$(taken 4096 links 1000)
more=$(taken 4096 links 2000)
echo "a small request: $(((more - few) / 1000)) instructions"
