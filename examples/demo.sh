#!/usr/bin/env bash
# Compiles examples/numerals, links it with `omosd once`, runs the image and shows what it prints.
#
#   usage: examples/demo.sh OMOSD
set -eu
omosd=$(realpath "$1")
here=$(cd "$(dirname "$0")" && pwd)
work=$(mktemp -d)
trap 'rm -rf "$work"' EXIT

echo "Compiling examples/numerals/numerals.c: gcc -c -ffreestanding -O2 -fPIC"
gcc -c -ffreestanding -fno-stack-protector -O2 -fPIC \
    -o "$work/numerals.o" "$here/numerals/numerals.c"

echo "Linking it: omosd once < numerals.o > numerals"
"$omosd" once < "$work/numerals.o" > "$work/numerals"
chmod +x "$work/numerals"

echo "Running the image of $(stat -c %s "$work/numerals") bytes. It prints:"
"$work/numerals" || echo "and ends with the status $?."
