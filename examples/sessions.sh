#!/usr/bin/env bash
# Runs the examples that have a server: compiles what stands in the folder, starts a server at
# ./socket, runs the folder's `session` there, and compares what it prints with `expected`. The size
# of an image, and an address behind another image, depend on the compiler: they stand as N and
# 0xADDRESS there.
#
#   usage: examples/sessions.sh OMOSD OMOS [NAME..]
set -eu
omosd=$(realpath "$1")
omos=$(realpath "$2")
here=$(cd "$(dirname "$0")" && pwd)
shift 2
[ $# -gt 0 ] || set -- counted variants interface frozen renamed kernel together known
work=$(mktemp -d)
server=
trap 'if [ -n "$server" ]; then kill "$server" 2> /dev/null || true; fi; rm -rf "$work"' EXIT
mkdir "$work/bin"
ln -s "$omosd" "$work/bin/omosd"
ln -s "$omos" "$work/bin/omos"
PATH="$work/bin:$PATH"

run_example() { # NAME
  mkdir "$work/$1"
  cd "$work/$1"
  cp "$here/$1"/* .
  local file
  for file in "$here/$1"/*.[cs]; do
    gcc -c -ffreestanding -fno-builtin -fno-stack-protector -O2 -fPIC "$file"
  done
  omosd socket ./socket 4 1000 16 10000 > totals &
  server=$!
  for _ in $(seq 500); do [ "$(stat -c %a socket 2> /dev/null)" = 600 ] && break; sleep 0.02; done
  sh -eu ./session > printed 2>&1 || { cat printed; echo "$1: a command failed" >&2; exit 1; }
  kill "$server"
  wait "$server" 2> /dev/null || true
  # Only the address that `expected` names is compared.
  sed -E 's/ bytes [0-9]+$/ bytes N/' printed |
    awk 'NR == FNR { want[FNR] = $0; next }
      want[FNR] ~ /0xADDRESS/ { sub(/base 0x[0-9a-f]+/, "base 0xADDRESS") }
      { print }' expected - > seen
  diff expected seen || { echo "$1: something else was printed" >&2; exit 1; }
  echo "examples/$1: ok"
}

for name in "$@"; do run_example "$name"; done
