#!/usr/bin/env bash
# Counts by callgrind what names and targets cost that were chosen to share a hash, beside as many
# that were drawn by lot (bench/collide.py says how they are chosen): an object alone, linked by
# `omosd once`, and a merge of eight, published and linked in a session. Chosen ones are to cost at
# most 3 times what others do; it ends by status 1 where one costs more, or where a run takes longer
# than five minutes.
#
#   usage: bench/collide.sh OMOSD
set -eu
omosd=$(realpath "$1")
. "$(dirname "$0")/common.sh"
need python3 valgrind

python3 "$here/bench/collide.py" "$here/tests"

requests() { # KIND: those that publish its eight parts and link them
    python3 - "$1" <<'PY'
import struct, sys
out = sys.stdout.buffer
def frame(kind, name, content=b""):
    body = kind + struct.pack("<H", len(name)) + name + content
    out.write(struct.pack("<I", len(body)) + body)
parts = [b"/o/%d" % k for k in range(8)]
for k, path in enumerate(parts):
    frame(b"\x01", path, open(f"{sys.argv[1]}-{k}.o", "rb").read())
frame(b"\x02", b"/p", b"(image (merge " + b" ".join(parts) + b"))")
frame(b"\x03", b"/p")
out.write(struct.pack("<I", 1) + b"\x07")
PY
}

counted() { # WORD..: the instructions of the program with these words, or nothing after 5 minutes
    timeout 300 valgrind --tool=callgrind --callgrind-out-file=out "$omosd" "$@" > output 2> log ||
        echo "bench: omosd $1 ended by status $?: $(tail -n 1 log)" >&2
    sed -n 's/.*Collected : //p' log
}

once() { # KIND: what its object takes
    counted once < "$1.o"
    [ "$(head -c 4 output | tail -c 3)" = ELF ] || echo "bench: $1 has no image" >&2
}

session() { # KIND: what its eight parts take
    requests "$1" > sent
    counted stdio 64 60000 < sent
    grep -q ELF output || echo "bench: $1-0 to $1-7 have no image" >&2
}

status=0
for run in once session; do
    for chosen in names-alike names-steered slots-alike; do
        others=$($run "${chosen%%-*}-random")
        count=$($run "$chosen")
        python3 - "$run" "$chosen" "$others" "$count" <<'PY' || status=1
import sys
run, chosen, others, count = sys.argv[1:]
if not (others and count):
    sys.exit(print(f"{run}, {chosen}: not done") or 1)
ratio = int(count) / int(others)
print(f"{run}, {chosen}: {int(count):,} instructions, {int(others):,} drawn by lot: {ratio:.2f} times")
sys.exit(ratio > 3)
PY
    done
done
exit $status
