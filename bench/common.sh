# What the benchmarks share. A script that reads this file stands in a folder of its own from then on,
# which goes with it; `here` is the repository.

here=$(cd "$(dirname "${BASH_SOURCE[0]}")/.." && pwd)
work=$(mktemp -d -p /dev/shm 2> /dev/null || mktemp -d)
trap 'rm -rf "$work"' EXIT
cd "$work"

need() { # TOOL..
    local tool
    for tool in "$@"; do
        command -v "$tool" > /dev/null || {
            echo "bench: $tool is missing: install its package" >&2
            exit 1
        }
    done
}

collected() { # PROGRAM WORD..: the instructions that it takes, its output in the file `output`
    valgrind --tool=callgrind --callgrind-out-file=out "$@" > output 2> log
    sed -n 's/.*Collected : //p' log
}
