#!/usr/bin/env bash
# The real programs, over real sockets and files: a server with four workers, clients beside one
# another, and clients that behave badly. Ends with 'N passed, M failed'.
#
#   usage: tests/live.sh OMOSD OMOS
set -u
omosd=$(realpath "$1")
omos=$(realpath "$2")
here=$(cd "$(dirname "$0")/.." && pwd)
work=$(mktemp -d)
passed=0
failed=0
cd "$work" || exit 1
trap 'kill $(jobs -p) 2> /dev/null; rm -rf "$work"' EXIT

check() { # NAME: the last command's status decides
  if [ $? -eq 0 ]; then passed=$((passed + 1)); else failed=$((failed + 1)); echo "FAILED: $1"; fi
}

start() { # SESSIONS: starts a server at ./socket, and waits until it listens, when it sets the mode
  rm -f totals
  timeout 60 "$omosd" socket ./socket 4 "$1" 16 60000 > totals 2> errors &
  server=$!
  for _ in $(seq 500); do
    [ "$(stat -c %a socket 2> /dev/null)" = 600 ] && return
    sleep 0.02
  done
  echo "the server didn't start"
}

for name in app alloc trace; do
  gcc -c -ffreestanding -fno-builtin -fno-stack-protector -O2 -o $name.o \
    "$here/examples/wrapped/$name.c" || exit 1
done

# ---- one after the other

start 10
[ "$(stat -c %a socket)" = 600 ]; check "the socket file is its owner's alone"
[ "$("$omos" ./socket put /app app.o)" = 'published 1' ]; check 'put'
"$omos" ./socket put /alloc alloc.o > /dev/null; check 'a second put'
"$omos" ./socket put /trace trace.o > /dev/null; check 'a third put'
"$omos" ./socket blueprint /traced "$here/examples/wrapped/traced.bp" > /dev/null; check 'blueprint'
"$omos" ./socket link /traced traced > line; check 'link'
grep -q '^image version 4 base 0x400000 bytes ' line; check "link's line"
[ -x traced ] && ./traced | cmp -s - "$here/examples/wrapped/expected.traced"; check 'the image runs'
[ "$("$omos" ./socket link /nothing none 2> said)" = 'refused L1 /nothing 0 /nothing' ]
check "a refusal's line"
[ "$(head -n 1 said)" = 'omos: Nothing is published at /nothing, which node 0 of /nothing names.' ]
check 'what it means, for people'
[ "$(wc -l < said)" = 2 ]; check 'and its cure'
[ ! -e none ]; check 'no file is written on a refusal'
"$omos" ./socket where /traced | grep -q '^0x400000 '; check 'where'
[ "$("$omos" ./socket flush /traced)" = 'flushed 1' ]; check 'flush'
"$omos" ./socket stats > line
[ "$(cat line)" = 'version 4 paths 4 placements 1 asked 2 hits 0 stored 1 evicted 1 held 0 steps 13' ]
check 'stats'
printf '\x01\x00\x00\x00\x09' | timeout 5 python3 -c '
import socket, sys
s = socket.socket(socket.AF_UNIX); s.connect("./socket"); s.sendall(sys.stdin.buffer.read())
assert s.recv(10) == b""' ; check 'rubbish ends its session alone'
wait $server; check 'the server ends with 0'
[ "$(cat totals)" = 'sessions 10 requests 9 version 4 placements 1 hits 0 stored 1 evicted 1' ]
check 'the totals'
[ ! -e socket ]; check 'the socket file is gone'

# ---- clients that go away, and many of them

start 1004
timeout 50 python3 - "$work" <<'PY'
import socket, struct
def connect():
    s = socket.socket(socket.AF_UNIX); s.connect("./socket"); return s
def frame(body): return struct.pack("<I", len(body)) + body
cut = connect(); cut.sendall(frame(b"\x05")[:3]); cut.close()
lazy = connect(); lazy.sendall(frame(b"\x05") * 2000); lazy.close()
half = connect(); half.sendall(frame(b"\x02\x02\x00/p" + b"x" * 100)[:50]); half.close()
silent = connect(); silent.close()
for k in range(1000):
    s = connect(); s.sendall(frame(b"\x05") + frame(b"\x07"))
    data = b""
    while len(data) < 82:
        more = s.recv(100)
        assert more, "a session ended early"
        data += more
    assert data[:5] == b"\x49\0\0\0\x85" and data[77:] == b"\x01\0\0\0\x87"
    s.close()
PY
check '1,000 connections, behind clients that went away'
wait $server; check 'the server outlives them'
grep -q '^sessions 1004 ' totals; check 'it counts them all'

# ---- sixteen at once

start 17
for name in app alloc trace; do :; done
timeout 50 python3 - app.o alloc.o <<'PY'
import socket, struct, sys, threading
def connect():
    s = socket.socket(socket.AF_UNIX); s.connect("./socket"); return s
def frame(body): return struct.pack("<I", len(body)) + body
def path(name): return struct.pack("<H", len(name)) + name
def read(s, n):
    data = b""
    while len(data) < n:
        more = s.recv(n - len(data))
        assert more, "the server went away"
        data += more
    return data
def ask(s, body):
    s.sendall(frame(body))
    reply = read(s, struct.unpack("<I", read(s, 4))[0])
    return reply[0], reply[1:]
app, alloc = (open(name, "rb").read() for name in sys.argv[1:])
text = b"(image (merge /app /alloc))"
first = connect()
assert ask(first, b"\x01" + path(b"/app") + app)[0] == 129
assert ask(first, b"\x01" + path(b"/alloc") + alloc)[0] == 129
assert ask(first, b"\x02" + path(b"/both") + text)[0] == 129
kind, plain = ask(first, b"\x03" + path(b"/both"))
assert kind == 130
image = plain[16:]
wrong = []
published = []
placed = {}
lock = threading.Lock()
def work(k):
    try:
        s = connect()
        own = b"/own/%d" % k
        seen = 0
        for i in range(25):
            kind, v = ask(s, b"\x02" + path(own) + text)
            assert kind == 129
            version = struct.unpack("<Q", v)[0]
            assert version > seen, "versions rise"
            seen = version
            with lock: published.append(version)
            kind, r = ask(s, b"\x03" + path(own))
            assert kind == 130
            at, base = struct.unpack("<QQ", r[:16])
            assert at >= seen, "a link sees what its session published"
            with lock: placed.setdefault(own, base)
            assert placed[own] == base, "a place is kept"
            kind, r = ask(s, b"\x03" + path(b"/both"))
            assert kind == 130 and r[16:] == image, "the image is the same"
            kind, r = ask(s, b"\x05")
            assert kind == 133
        assert ask(s, b"\x07")[0] == 135
        s.close()
    except Exception as error:
        wrong.append((k, error))
threads = [threading.Thread(target=work, args=(k,)) for k in range(16)]
for t in threads: t.start()
assert ask(first, b"\x07")[0] == 135
first.close()
for t in threads: t.join()
assert not wrong, wrong
assert sorted(published) == list(range(4, 404)), "each publish made a version of its own"
assert len(set(placed.values())) == 16, "no two paths share a place"
PY
check 'sixteen clients with a hundred requests each'
wait $server; check 'the server ends with 0 behind them'
grep -q '^sessions 17 requests 1604 version 403 placements 17 ' totals; check 'their totals'

timeout 120 python3 "$here/tests/load.py" "$omosd" > load; check 'sixty-four clients, half of them bad'
grep -v '^sessions' load

# ---- a session alone

printf '\x01\x00\x00\x00\x05\x01\x00\x00\x00\x07' | "$omosd" stdio 4 100 > replies; check 'stdio ends with 0'
{ printf '\x49\x00\x00\x00\x85'; head -c 72 /dev/zero; printf '\x01\x00\x00\x00\x87'; } | cmp -s - replies
check 'the counts of an empty store'
printf '\x05\x00\x00\x00\x03' | "$omosd" stdio 4 100 > replies 2> errors; [ $? -eq 5 ]
check 'requests that end inside a frame'
"$omosd" stdio 4 15 < /dev/null 2> errors; [ $? -eq 2 ]; check 'usage of a session'
gcc -c -ffreestanding -fno-stack-protector -O2 -o numerals.o "$here/examples/numerals/numerals.c" &&
  "$omosd" once < numerals.o > alone &&
  python3 - numerals.o > requests <<'PY' && "$omosd" stdio 4 100 < requests > replies && tail -c +48 replies |
import struct, sys
def frame(body): return struct.pack("<I", len(body)) + body
def path(name): return struct.pack("<H", len(name)) + name
out = sys.stdout.buffer
out.write(frame(b"\x01" + path(b"/a") + open(sys.argv[1], "rb").read()))
out.write(frame(b"\x02" + path(b"/p") + b"(image /a)"))
out.write(frame(b"\x03" + path(b"/p")))
PY
  cmp -s - alone
check "a session's image is that of once"

# An object whose 40,000 relocations are all of one call, merged twelve times: an image that is made
# once and then handed out of the cache. To make it at each link would take minutes.
PYTHONPATH="$here/tests" python3 - > requests <<'PY'
import struct, sys
import objects
def frame(body): return struct.pack("<I", len(body)) + body
def path(name): return struct.pack("<H", len(name)) + name
code = b"\xe8\0\0\0\0\xc3" + b"\x90" * 10
big = objects.plain(code, 16, [("_start", 0)], [(1, 4, 1, -4)] * 40000)
assert len(big) == 960456
text = b"(image (merge /o/big" + b" (hide _start /o/big)" * 11 + b"))"
out = sys.stdout.buffer
out.write(frame(b"\x01" + path(b"/o/big") + big) + frame(b"\x02" + path(b"/big") + text))
out.write(frame(b"\x03" + path(b"/big")) * 16001 + frame(b"\x05") + frame(b"\x07"))
PY
timeout 60 "$omosd" stdio 4 40000 < requests > replies && python3 - <<'PY'
import struct
def frame(body): return struct.pack("<I", len(body)) + body
replies = open("replies", "rb").read()
published = frame(struct.pack("<BQ", 129, 1)) + frame(struct.pack("<BQ", 129, 2))
assert replies.startswith(published)
image = replies[26:26 + 4 + 17 + 8192]
assert image[:21] == struct.pack("<IBQQ", 17 + 8192, 130, 2, 0x400000)
assert image[21 + 4096:] == (b"\xe8\xfb\xff\xff\xff\xc3" + b"\x90" * 10) * 12 + bytes(4096 - 192)
counts = frame(struct.pack("<B9Q", 133, 2, 2, 1, 16001, 16000, 1, 0, 1, 32006))
assert replies == published + image * 16001 + counts + frame(b"\x87")
PY
check '16,000 hits on an image of 480,000 fields'

# The same requests to a server, whose session is one of many, are sent the same bytes.
timeout 60 "$omosd" socket ./socket 1 1 4 40000 > totals 2> errors &
server=$!
for _ in $(seq 500); do [ "$(stat -c %a socket 2> /dev/null)" = 600 ] && break; sleep 0.02; done
timeout 30 python3 - <<'PY' && wait $server
import socket, threading
link = socket.socket(socket.AF_UNIX)
link.connect("./socket")
requests, wanted = open("requests", "rb").read(), open("replies", "rb").read()
threading.Thread(target=link.sendall, args=(requests,)).start()
got = bytearray()
while piece := link.recv(1 << 20):
    got += piece
assert got == wanted
PY
check 'the same in a session of a server'
workload='objects 65 images 130 bytes 1064960 hits 65 evicted 1 placements 65 version 130'
[ "$("$omosd" workload 65)" = "$workload" ]; check 'a workload'
"$omosd" workload 201 2> errors; [ $? -eq 2 ]; check 'usage of a workload'

# ---- sockets

"$omos" ./socket stats 2> errors; [ $? -eq 9 ]; check 'no server'
"$omosd" socket ./nowhere/socket 1 1 1 16 2> errors; [ $? -eq 9 ] && grep -q 'no socket' errors
check 'a socket that no folder holds'
echo file > socket
"$omosd" socket ./socket 1 1 1 16 2> errors; [ $? -eq 9 ] && grep -q file socket
check 'a file is not replaced'
rm socket
python3 -c 'import socket; s = socket.socket(socket.AF_UNIX); s.bind("./socket")'
start 1
"$omos" ./socket stats > line; check 'a socket file that was left behind is replaced'
wait $server

# ---- what a refused file is, on standard error

told() { # FILE SENTENCE: once refuses the file, and says this last
  "$omosd" once < "$1" 2>&1 > line | tail -n 1 > said
  [ "$(cat said)" = "omosd: $2" ]
  check "of $1: $2"
}

: > nothing
told nothing 'It is empty.'
cp "$here/examples/wrapped/app.c" .
told app.c 'It is a text, perhaps a source: compile it (cc -c), and give the .o file.'
ar rc lib.a alloc.o trace.o
told lib.a 'It is an archive: take it apart (ar x), and give each of its objects.'
told traced 'It is a program that is linked already: give the objects it was made of.'
{ printf '\x7fELF\x01'; head -c 100 /dev/zero; } > small.o
told small.o 'It is an ELF file of 32-bit words: compile for x86-64, without -m32.'
as -o group.o - <<'END'
  .section .text.max,"axG",@progbits,max,comdat
  .weak max
max: ret
END
told group.o 'Section 1 is the COMDAT group of `max`.'
as -o own.o - <<'END'
  .section .tdata,"awT",@progbits
  .globl counter
counter: .long 0
END
told own.o 'Section 4 is `.tdata`, which is thread-local.'
as -o chosen.o - <<'END'
  .globl copy
  .type copy, @gnu_indirect_function
copy: ret
END
told chosen.o 'Symbol 1 is `copy`, an indirect function (ifunc).'
gcc -c -w -flto -fno-fat-lto-objects -o slim.o app.c
told slim.o "It holds gcc's intermediate code: compile without -flto."
as -o far.o - <<'END'
  .globl _start
_start: mov $counter, %al
END
told far.o 'Relocation 0 of `.rela.text` is R_X86_64_8, against `counter`.'
as -o open.o - <<'END'
  .globl _start
_start: call puts
  call exit
  call printf
END
told open.o 'The object leaves `exit`, `printf` undefined, too.'
[ "$(cat line)" = 'refused L11 0 0 puts' ]; check 'and the line as ever'
"$omosd" once < <(cat lib.a) 2>&1 > line | tail -n 1 | grep -q 'ar x'; check 'no second look at a pipe'
start 1
"$omos" ./socket put /lib lib.a 2>&1 > line | tail -n 1 > said
[ "$(cat said)" = 'omos: It is an archive: take it apart (ar x), and give each of its objects.' ]
check 'the same by the client'
wait $server

"$omos" ./socket link /p 2> errors; [ $? -eq 2 ] && grep -q 'omos --help says more' errors
check 'usage of the client'
"$omosd" socket ./socket 17 1 1 16 2> errors; [ $? -eq 2 ] && grep -q 'omosd --help' errors
check 'usage of the server'

echo "$passed passed, $failed failed"
[ $failed -eq 0 ]
