#!/usr/bin/env bash
# Times `omosd once` beside ld, gold and tcc, those that are installed, on examples/numerals, on 1 MB
# of code, and on 175 KB of code with 35,000 relocations. All link the same object; before anything is
# timed the executables are run and what they do is compared.
#
#   usage: bench/once.sh OMOSD [RUNS]
#
# Prints, for each object and linker, the milliseconds of one run, start of the process included
# (the mean of RUNS, 100 if left out, least of five rounds, the files in memory where /dev/shm is
# there), and the most memory that it held.
set -eu
omosd=$(realpath "$1")
runs=${2:-100}
. "$(dirname "$0")/common.sh"
need as gcc ld

gcc -c -ffreestanding -fno-stack-protector -O2 -o numerals.o "$here/examples/numerals/numerals.c"
assemble() { # NAME WHAT-FOLLOWS
    printf '.globl _start\n_start: mov $60, %%eax\nmov $7, %%edi\nsyscall\n%b\n' "$2" | as -o "$1" -
}
assemble code.o '.skip 1000000, 0x90'
assemble calls.o '.rept 35000\ncall _start\n.endr'

omosd() { "$omosd" once < "$1" > out.omosd; }
bfd() { ld -Ttext=0x400000 -o out.bfd "$1"; }
gold() { ld.gold -Ttext=0x400000 -o out.gold "$1"; }
lld() { ld.lld --image-base=0x400000 -o out.lld "$1"; }
tcc() { command tcc -nostdlib -static -o out.tcc "$1"; }
linkers=(omosd bfd)
type -P ld.gold > /dev/null && linkers+=(gold)
type -P ld.lld > /dev/null && linkers+=(lld)
type -P tcc > /dev/null && linkers+=(tcc)

ran() { # what an executable prints, and its status
    local status=0
    ./"$1" || status=$?
    echo "status $status"
}

nanoseconds() { # the least mean of five rounds
    local least=0 round start mean k
    for round in 1 2 3 4 5; do
        start=$(date +%s%N)
        for ((k = 0; k < runs; k++)); do "$1" "$2"; done
        mean=$((($(date +%s%N) - start) / runs))
        if ((least == 0 || mean < least)); then least=$mean; fi
    done
    echo "$least"
}

memory() { # the most kilobytes that a linker held, where GNU time (the package time) can tell
    [ -x /usr/bin/time ] || { echo "?"; return; }
    case $1 in
        omosd) /usr/bin/time -f %M -o memory "$omosd" once < "$2" > memory.out ;;
        bfd) /usr/bin/time -f %M -o memory ld -Ttext=0x400000 -o memory.out "$2" ;;
        gold) /usr/bin/time -f %M -o memory ld.gold -Ttext=0x400000 -o memory.out "$2" ;;
        lld) /usr/bin/time -f %M -o memory ld.lld --image-base=0x400000 -o memory.out "$2" ;;
        tcc) /usr/bin/time -f %M -o memory tcc -nostdlib -static -o memory.out "$2" ;;
    esac
    cat memory
}

printf '%-16s %-8s %10s %10s\n' object linker ms KB
for object in numerals.o code.o calls.o; do
    omosd "$object"
    chmod +x out.omosd
    wanted=$(ran out.omosd)
    for linker in "${linkers[@]}"; do
        "$linker" "$object"
        chmod +x "out.$linker"
        if [ "$(ran "out.$linker")" != "$wanted" ]; then
            echo "bench: the executables of $object differ in what they do" >&2
            exit 1
        fi
        time=$(nanoseconds "$linker" "$object")
        printf '%-16s %-8s %10s %10s\n' "$object" "$linker" \
            "$((time / 1000000)).$(printf %02d $((time / 10000 % 100)))" "$(memory "$linker" "$object")"
    done
done
echo "$(date +%F), $(nproc) processors, load $(cut -d' ' -f1 /proc/loadavg)"
ld --version | head -n 1
