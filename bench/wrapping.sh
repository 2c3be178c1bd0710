#!/usr/bin/env bash
# Times three ways to a program whose library has a wrapped function, for 1, 8 and 64 objects beside
# it, after the programs were run and what they print was compared:
#
#   omos   an object is published anew and the program linked anew by a server, so nothing is cached
#   wrap   ld --wrap, which leaves the library's own calls alone
#   tools  objcopy and ld -r on copies of the objects, as one does without --wrap
#
# and beside them a hit (`omos link` of what is held), `make` and `ninja` (where it is installed)
# with nothing to do. Each is a process of its own, or several: the median of five means.
#
#   usage: bench/wrapping.sh OMOSD OMOS
set -eu
# shellcheck source=bench/serving.sh
. "$(dirname "$0")/serving.sh"
need as gcc ld make objcopy python3

cp "$here"/examples/known/*.c .
sed -i "s|\.\./common\.h|$here/examples/common.h|" ./*.c
for name in app lib wrap; do
  gcc -c -ffreestanding -fno-builtin -fno-stack-protector -O2 -fPIC $name.c
done
for k in $(seq 64); do
  as -o "more$k.o" - <<END
        .globl more_$k
more_$k: ret
        .skip 2000, 0x90
        .section .note.GNU-stack, "", @progbits
END
done

run_omos() { # COUNT
  "$omos" ./socket put /wrap wrap.o > line && "$omos" ./socket link "/wrapped$1" program.omos > line
}
run_hit() { "$omos" ./socket link "/wrapped$1" program.hit > line; }
run_wrap() {
  # shellcheck disable=SC2046 # each object is a word
  ld -o program.wrap --wrap speak app.o lib.o wrap.o $(seq -f 'more%g.o' "$1")
}
run_tools() {
  objcopy --redefine-sym speak=__wrap_speak app.o app.tools.o
  objcopy --redefine-sym speak=__real_speak lib.o lib.tools.o
  ld -r -o pair.o lib.tools.o wrap.o
  objcopy --localize-symbol __real_speak pair.o
  # shellcheck disable=SC2046 # each object is a word
  ld -o program.tools app.tools.o pair.o $(seq -f 'more%g.o' "$1")
}
run_make() { make -s > line; }
run_ninja() { ninja > line; }

microseconds() { # NAME COUNT: the median of five means
  local start k
  for _ in 1 2 3 4 5; do
    start=$(date +%s%N)
    for ((k = 0; k < 20; k++)); do "run_$1" "$2"; done
    echo $((($(date +%s%N) - start) / 20000))
  done | sort -g | sed -n 3p
}

"$omosd" socket ./socket 4 100000 16 65536 > totals &
listening ./socket
for name in app lib wrap; do "$omos" ./socket put /$name $name.o > line; done
for k in $(seq 64); do "$omos" ./socket put "/more/$k" "more$k.o" > line; done

ways=(omos wrap tools hit make)
command -v ninja > /dev/null && ways+=(ninja)
printf '%-8s' objects
printf ' %12s' "${ways[@]}"
echo '   microseconds'
for count in 1 8 64; do
  {
    echo '(image (hide __real_speak (merge /app'
    seq -f '/more/%g' "$count"
    echo '(merge (restrict speak (copy_as speak __real_speak (freeze speak /lib)))'
    echo '(rename __wrap_speak speak /wrap)))))'
  } > wrapped.bp
  "$omos" ./socket blueprint "/wrapped$count" wrapped.bp > line
  objects="app.o lib.o wrap.o $(seq -f 'more%g.o' "$count" | paste -sd ' ')"
  printf 'program.make: %s\n\tld -o program.make --wrap speak %s\n' "$objects" "$objects" \
    > Makefile
  {
    printf 'rule link\n  command = ld -o program.ninja --wrap speak %s\n' "$objects"
    printf 'build program.ninja: link %s\n' "$objects"
  } > build.ninja
  for way in "${ways[@]}"; do "run_$way" "$count"; done
  ./program.wrap > wanted
  for way in "${ways[@]}"; do
    "./program.$way" | cmp - wanted || { echo "bench: $way prints something else" >&2; exit 1; }
  done
  printf '%-8s' $((count + 3))
  for way in "${ways[@]}"; do printf ' %12s' "$(microseconds "$way" "$count")"; done
  echo
done
echo "$(date +%F), $(nproc) processors, load $(cut -d' ' -f1 /proc/loadavg)"
ld --version | head -n 1
