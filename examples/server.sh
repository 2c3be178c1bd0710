#!/usr/bin/env bash
# Starts a server, publishes the objects and blueprints of examples/wrapped with the client, links
# both images, runs them, and stops the server.
#
#   usage: examples/server.sh OMOSD OMOS
set -eu
omosd=$(realpath "$1")
omos=$(realpath "$2")
here=$(cd "$(dirname "$0")" && pwd)/wrapped
work=$(mktemp -d)
trap 'kill %1 2> /dev/null || true; rm -rf "$work"' EXIT
cd "$work"

show() { echo "\$ $*"; "$@"; }

for name in app alloc trace; do
  gcc -c -ffreestanding -fno-builtin -fno-stack-protector -O2 -o $name.o "$here/$name.c"
done

echo '$ omosd socket ./socket 4 9 16 1000 &'
"$omosd" socket ./socket 4 9 16 1000 > totals &
for _ in $(seq 500); do [ "$(stat -c %a socket 2> /dev/null)" = 600 ] && break; sleep 0.02; done

PATH="$work:$PATH"
ln -s "$omos" omos
for name in app alloc trace; do show omos ./socket put /$name $name.o; done
show omos ./socket blueprint /plain "$here/plain.bp"
show omos ./socket blueprint /traced "$here/traced.bp"
show omos ./socket link /plain plain
show omos ./socket link /traced traced
show ./plain | tee plain.out
show ./traced | tee traced.out
show omos ./socket link /traced traced
show omos ./socket stats
wait %1
echo "The server has served its sessions, and says:"
cat totals
tail -n +2 plain.out | cmp - "$here/expected.plain"
tail -n +2 traced.out | cmp - "$here/expected.traced"
