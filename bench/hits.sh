#!/usr/bin/env bash
# Times hits through the socket: images of 8 KiB, 68 KiB and 800 KiB that the server holds, asked
# for by 1 and by 4 clients that keep their connection, and by one that makes a new one for each
# link; beside a C server of a thread a connection that answers as many bytes (bench/hits.c, which
# is also the client of both). Then `omos link` as a process beside `true`.
#
#   usage: bench/hits.sh OMOSD OMOS
#
# Before anything is timed the image is run, and compared with the file that omos wrote; each client
# compares its first answer, byte for byte, and the length of each other.
set -eu
# shellcheck source=bench/serving.sh
. "$(dirname "$0")/serving.sh"
need as gcc python3

gcc -O2 -pthread -Wall -o hits "$here/bench/hits.c"

# The request of /p, and the answer that the server gives, whose image is the file that omos wrote.
record() { # IMAGE
  python3 - "$1" <<'PY'
import socket, struct, sys
request = struct.pack("<IBH", 5, 3, 2) + b"/p"
link = socket.socket(socket.AF_UNIX)
link.connect("./socket")
link.sendall(request)
reply = b""
while len(reply) < 4 or len(reply) < 4 + struct.unpack("<I", reply[:4])[0]:
    reply += link.recv(1 << 20)
assert reply[4] == 130 and reply[21:] == open(sys.argv[1], "rb").read()
open("request", "wb").write(request)
open("reply", "wb").write(reply)
PY
}

median() { # WORD..: the median of five rounds of a client's median, and of its answers a second
  for _ in 1 2 3 4 5; do ./hits ask "$@"; done > rounds
  echo "$(cut -d ' ' -f 1 rounds | sort -g | sed -n 3p)" \
    "$(cut -d ' ' -f 2 rounds | sort -g | sed -n 3p)"
}

row() { # SIZE CLIENTS COUNT held|new
  local ours theirs
  ours=$(median ./socket request reply "${@:2}")
  theirs=$(median ./plain request reply "${@:2}")
  # shellcheck disable=SC2086 # each has two words
  printf '%-8s %7s %-5s %14s %12s %14s %12s\n' "$1" "$2" "$4" $ours $theirs
}

printf '%-8s %7s %-5s %14s %12s %14s %12s\n' image clients link \
  'omosd: us' 'a second' 'C server: us' 'a second'
for size in 8 68 800; do
  as -o code.o - <<END
        .globl _start
_start: mov \$60, %eax
        mov \$7, %edi
        syscall
        .skip $(((size - 4) * 1024 - 16)), 0x90
END
  "$omosd" socket ./socket 4 100000 16 65536 > totals &
  server=$!
  listening ./socket
  "$omos" ./socket put /code code.o > line
  echo '(image /code)' > text.bp
  "$omos" ./socket blueprint /p text.bp > line
  "$omos" ./socket link /p image > line
  [ "$(stat -c %s image)" -eq $((size * 1024)) ] || { echo "bench: $(cat line)" >&2; exit 1; }
  status=0
  ./image || status=$?
  [ $status -eq 7 ] || { echo 'bench: the image ends otherwise' >&2; exit 1; }
  record image
  ./hits serve ./plain reply &
  plain=$!
  listening ./plain
  row "$size KiB" 1 1500 held
  row "$size KiB" 4 400 held
  row "$size KiB" 1 500 new
  if [ $size = 8 ]; then
    nanoseconds() { # WORD..: the median of five means of a process
      local start k
      for _ in 1 2 3 4 5; do
        start=$(date +%s%N)
        for ((k = 0; k < 50; k++)); do "$@" > line; done
        echo $((($(date +%s%N) - start) / 50))
      done | sort -g | sed -n 3p
    }
    links=$(nanoseconds "$omos" ./socket link /p again)
    cmp again image
    process=$(nanoseconds /bin/true)
  fi
  kill $server $plain
  wait $server $plain 2> /dev/null || true
  rm -f socket plain
done
echo "omos link of 8 KiB, as a process: $((links / 1000)) us; true: $((process / 1000)) us"
echo "$(date +%F), $(nproc) processors, load $(cut -d' ' -f1 /proc/loadavg)"
gcc --version | head -n 1
