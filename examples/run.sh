#!/usr/bin/env bash
# Compiles each example, links it with `omosd once`, runs the image, and compares what it prints and
# its status with the example's file `expected`. C examples are compiled four ways, with slots
# (-fPIC) and without.
#
#   usage: examples/run.sh OMOSD
set -eu
omosd=$(realpath "$1")
here=$(cd "$(dirname "$0")" && pwd)
for tool in as gcc; do
    command -v "$tool" > /dev/null || {
        echo "examples: $tool is missing: install the packages binutils and gcc" >&2
        exit 1
    }
done
work=$(mktemp -d)
trap 'rm -rf "$work"' EXIT

link_and_run() { # FOLDER OBJECT WHAT
    local status=0
    "$omosd" once < "$2" > "$work/image" || {
        echo "$3: $(cat "$work/image")" >&2
        exit 1
    }
    chmod +x "$work/image"
    "$work/image" > "$work/output" || status=$?
    echo "status $status" >> "$work/output"
    diff "$here/$1/expected" "$work/output" || {
        echo "$3: the image prints something else" >&2
        exit 1
    }
    echo "$3: ok, $(stat -c %s "$work/image") bytes"
}

as -o "$work/hello.o" "$here/hello/hello.s"
link_and_run hello "$work/hello.o" "examples/hello"
for flags in -O0 -O2 "-O0 -fPIC" "-O2 -fPIC"; do
    # shellcheck disable=SC2086 # the flags are words
    gcc -c -ffreestanding -fno-stack-protector $flags \
        -o "$work/numerals.o" "$here/numerals/numerals.c"
    link_and_run numerals "$work/numerals.o" "examples/numerals, $flags"
done
