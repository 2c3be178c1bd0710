# For the benchmarks that start servers: what common.sh gives, the programs `omosd` and `omos`,
# which are the first two words of the script, and that the servers end with it.

omosd=$(realpath "$1")
omos=$(realpath "$2")
# shellcheck source=bench/common.sh
. "$(dirname "${BASH_SOURCE[0]}")/common.sh"

stop() {
  # shellcheck disable=SC2046 # each process is a word
  kill $(jobs -p) 2> /dev/null || true
  rm -rf "$work"
}
trap stop EXIT

listening() { # SOCKET: waits until somebody listens there
  local _
  for _ in $(seq 500); do
    python3 -c 'import socket, sys
socket.socket(socket.AF_UNIX).connect(sys.argv[1])' "$1" 2> /dev/null && return
    sleep 0.02
  done
  echo "bench: nobody listens at $1" >&2
  exit 1
}
