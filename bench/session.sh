#!/usr/bin/env bash
# Counts by callgrind what one session takes: a hit, and an image of an object and a blueprint that
# are new. Each figure is the difference of two whole runs of `omosd stdio`, a number of requests
# apart, after the replies were compared. Then `omosd workload 100`, whole, by image.
#
# Then it times hits of an image of 8 KiB over pipes, beside a C program that answers as many bytes
# (bench/pipes.c, which also asks both): the median round trip and the least of 20,000. Both ends are
# held on one processor, where taskset is installed: elsewhere the median tells where the system put
# them.
#
#   usage: bench/session.sh OMOSD
set -eu
omosd=$(realpath "$1")
. "$(dirname "$0")/common.sh"
need as gcc python3 valgrind

gcc -c -ffreestanding -fno-stack-protector -O2 -o numerals.o "$here/examples/numerals/numerals.c"
"$omosd" once < numerals.o > once

# KIND COUNT: the requests of a session
stream() {
  python3 - "$1" "$2" <<'PY'
import struct, sys
kind, count = sys.argv[1], int(sys.argv[2])
out = sys.stdout.buffer
def frame(body): out.write(struct.pack("<I", len(body)) + body)
def path(name): return struct.pack("<H", len(name)) + name
thing = open("numerals.o", "rb").read()
if kind == "hits":
    frame(b"\x01" + path(b"/a") + thing)
    frame(b"\x02" + path(b"/p") + b"(image /a)")
    frame(b"\x03" + path(b"/p"))
    for k in range(count): frame(b"\x03" + path(b"/p"))
else:
    for k in range(count):
        name = b"%d" % k
        frame(b"\x01" + path(b"/a/" + name) + thing)
        frame(b"\x02" + path(b"/p/" + name) + b"(image /a/" + name + b")")
        frame(b"\x03" + path(b"/p/" + name))
frame(b"\x07")
PY
}

# KIND COUNT: the instructions of a session
instructions() {
  stream "$1" "$2" > requests
  "$omosd" stdio 64 60000 < requests > replies
  [ "$(tail -c 5 replies | od -An -tx1)" = ' 01 00 00 00 87' ] || { echo "not answered to the end"; exit 1; }
  if [ "$1" = hits ]; then
    tail -c "$(($(stat -c %s once) + 5))" replies | head -c -5 | cmp - once || exit 1
  fi
  collected "$omosd" stdio 64 60000 < requests
  cmp replies output
}

for kind in hits images; do
  few=$(instructions $kind 100)
  more=$(instructions $kind 600)
  echo "$kind: $(((more - few) / 500)) instructions each, of an image of $(stat -c %s once) bytes"
done

line='objects 100 images 200 bytes 1638400 hits 100 evicted 36 placements 100 version 200'
taken=$(collected "$omosd" workload 100)
[ "$(cat output)" = "$line" ] || { echo "the workload's line is another"; exit 1; }
echo "workload 100: $((taken / 200)) instructions an image, of 200 images, 100 of them hits"

gcc -O2 -Wall -o pipes "$here/bench/pipes.c"
as -o code.o - <<END
        .globl _start
_start: mov \$60, %eax
        syscall
        .skip 4000, 0x90
END
python3 - "$omosd" <<'PY'
import struct, subprocess, sys
def frame(body): return struct.pack("<I", len(body)) + body
def path(name): return struct.pack("<H", len(name)) + name
link = frame(b"\x03" + path(b"/p"))
setup = frame(b"\x01" + path(b"/a") + open("code.o", "rb").read())
setup += frame(b"\x02" + path(b"/p") + b"(image /a)") + link
ran = subprocess.run([sys.argv[1], "stdio", "4", "65536"], input=setup + link + frame(b"\x07"),
                     stdout=subprocess.PIPE, check=True)
replies = ran.stdout[:-5]
size = 4 + struct.unpack("<I", replies[26:30])[0]
assert len(replies) == 26 + 2 * size and replies[26:26 + size] == replies[-size:]
for name, data in (("setup", setup), ("begin", replies[:-size]), ("request", link),
                   ("reply", replies[-size:])):
    open(name, "wb").write(data)
PY
held=()
if command -v taskset > /dev/null; then held=(taskset -c 0); fi
for program in omosd plain omosd plain; do
  if [ $program = omosd ]; then words=("$omosd" stdio 4 65536); else words=(./pipes answer begin reply); fi
  echo "a hit of $(stat -c %s reply) bytes over pipes, $program:" \
    "$("${held[@]}" ./pipes ask setup begin request reply 20000 "${words[@]}") us"
done
