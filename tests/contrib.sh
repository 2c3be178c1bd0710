#!/usr/bin/env bash
# The scripts of contrib/ against the real server, the completions, the unit, and `make install`.
# What isn't installed (shellcheck, zsh, systemd-analyze) is left out and said. Ends with
# 'N passed, M failed'.
#
#   usage: tests/contrib.sh OMOSD OMOS
set -u
omosd=$(realpath "$1")
omos=$(realpath "$2")
here=$(cd "$(dirname "$0")/.." && pwd)
contrib=$here/contrib
work=$(mktemp -d)
passed=0
failed=0
cd "$work" || exit 1
trap 'kill $(jobs -p) 2> /dev/null; rm -rf "$work"' EXIT
export OMOS=$omos

check() { # NAME: the last command's status decides
  if [ $? -eq 0 ]; then passed=$((passed + 1)); else failed=$((failed + 1)); echo "FAILED: $1"; fi
}

left_out() { echo "$1 isn't installed: $2 is left out"; }

mkdir -p lib/sub bad
for name in app alloc trace; do
  gcc -c -ffreestanding -fno-builtin -fno-stack-protector -O2 -o $name.o \
    "$here/examples/wrapped/$name.c" || exit 1
done
cp app.o alloc.o lib
cp trace.o lib/sub
cp "$here/examples/wrapped/plain.bp" lib/plain.bp
echo '(image (merge /w/app (merge /w/sub/trace /w/alloc)))' > lib/sub/clash.bp
echo 'no object' > lib/sub/notes.txt
echo '(image /w/app' > bad/text.bp
echo 'int x;' > bad/source.o

timeout 120 "$omosd" socket ./socket 4 1000 16 60000 > totals 2> errors &
for _ in $(seq 500); do [ "$(stat -c %a socket 2> /dev/null)" = 600 ] && break; sleep 0.02; done

# ---- omos-put-dir

"$contrib/omos-put-dir" ./socket /w lib > lines; check 'a folder is published'
cat > wanted <<'END'
published 1 /w/alloc from lib/alloc.o
published 2 /w/app from lib/app.o
published 3 /w/sub/trace from lib/sub/trace.o
published 4 /w/plain from lib/plain.bp
published 5 /w/sub/clash from lib/sub/clash.bp
END
diff wanted lines; check 'its lines'
"$omos" ./socket stats | grep -q '^version 5 paths 5 '; check 'the server has them'
"$contrib/omos-put-dir" ./socket /b bad > lines; [ $? -eq 1 ]; check 'refused files: status 1'
printf 'refused O1 /b/source from bad/source.o\nrefused B3 14 /b/text from bad/text.bp\n' |
  diff - lines
check 'their lines'
printf '(image /w/app' > bad/text.bp
"$contrib/omos-put-dir" ./socket /a//b bad > lines; grep -q '^refused P2 3 ' lines
check 'a prefix that is no path'
"$contrib/omos-put-dir" ./nowhere /w lib 2> errors; [ $? -eq 9 ]; check 'no server: status 9'
"$contrib/omos-put-dir" ./socket /w 2> errors; [ $? -eq 2 ]; check 'usage of omos-put-dir'
"$contrib/omos-put-dir" ./socket /w nowhere 2> errors; [ $? -eq 6 ]; check 'no file: status 6'
cp lib/app.o bad/text.o
"$contrib/omos-put-dir" ./socket /w bad 2> errors; [ $? -eq 6 ]; check 'two files of one path'

# ---- omos-run

"$omos" ./socket put /app app.o > lines && "$omos" ./socket put /alloc alloc.o > lines
"$contrib/omos-run" ./socket /w/plain > output; check 'a path is linked and run'
cmp output "$here/examples/wrapped/expected.plain"; check 'what it prints'
as -o words.o - <<'END'
        .globl _start
_start: mov (%rsp), %rdi        # how many words there are
        mov $60, %eax           # exit
        syscall
END
"$omos" ./socket put /words words.o > lines
"$contrib/omos-run" ./socket /words one two; [ $? -eq 3 ]
check 'words and the status are handed on'
"$contrib/omos-run" ./socket /none 2> lines; [ $? -eq 125 ]; check 'a refusal: status 125'
grep -qx 'refused L1 /none 0 /none' lines; check 'its line'
"$contrib/omos-run" ./socket 2> errors; [ $? -eq 125 ]; check 'usage of omos-run'
mkdir left
TMPDIR=$work/left "$contrib/omos-run" ./socket /w/plain > output && [ -z "$(ls left)" ]
check 'no image is left behind'

# ---- omos-explain

"$omos" ./socket link /w/sub/clash clash > refusal; [ $? -eq 1 ]; check 'a clash is refused'
"$contrib/omos-explain" -b lib/sub/clash.bp < refusal > words; check 'it is explained'
grep -qx '  Two operands of the merge at node 2 of /w/sub/clash define malloc.' words
check 'its sentence'
grep -qx '  node 2 of /w/sub/clash: (merge /w/sub/trace /w/alloc)' words; check 'its node'
cat > deep.bp <<'END'
; node 0 is the merge, 1 /w/app, 2 the show, 3 the override, 4 /w/app, 5 the copy_as, 6 /w/alloc
(image (entry main) (range 0x400000 0x500000)
  (merge /w/app (show (a b) (override /w/app (copy_as nothing else /w/alloc)))))
END
"$omos" ./socket blueprint /deep deep.bp > lines
"$omos" ./socket link /deep deep |
  "$contrib/omos-explain" -b /x=lib/plain.bp -b /deep=deep.bp > words
grep -qx 'refused L7 /deep 5 nothing' words; check 'the node that the server names'
grep -qx '  node 5 of /deep: (copy_as nothing else /w/alloc)' words
check 'is the one that is shown'
"$omos" ./socket blueprint /text bad/text.bp | "$contrib/omos-explain" -b bad/text.bp > words
grep -qx '  line 1, column 14:' words; check 'a place in a text'
"$omosd" once < bad/source.o 2> errors | "$contrib/omos-explain" | grep -q 'it may be a source'
check 'a source is told'
g++ -c -ffreestanding -x c++ -o group.o - 2> errors <<'END' || echo 'g++ is missing'
template <class T> T larger(T a, T b) { return a < b ? b : a; }
extern "C" void _start() { larger(1, 2); }
END
if [ -e group.o ]; then
  "$omos" ./socket put /g group.o | "$contrib/omos-explain" -o group.o > words
  grep -qx '  section 1 is .group, a COMDAT group of _Z6largerIiET_S0_S0_' words
  check 'a group is named'
  g++ -c -fno-weak -ffreestanding -x c++ -o single.o - <<'END'
template <class T> T larger(T a, T b) { return a < b ? b : a; }
extern "C" void _start() { larger(1, 2); }
END
  "$omos" ./socket put /g single.o | grep -q published; check 'and -fno-weak cures it'
fi
for words in 'full' 'kept full' 'no memory' 'status omos 9' 'status omosd 5' 'refused L12 1 2 3'; do
  # shellcheck disable=SC2086 # each is a word
  "$contrib/omos-explain" $words | grep -q '^  Do: '; check "explained: $words"
done
"$contrib/omos-explain" refused X1 > words; [ $? -eq 1 ]; check 'what has no entry: status 1'
echo 'published 3' | "$contrib/omos-explain" | cmp -s - <(echo 'published 3')
check 'other lines stay'
"$contrib/omos-explain" -z 2> errors; [ $? -eq 2 ]; check 'usage of omos-explain'

for name in lib mine; do
  gcc -c -ffreestanding -fno-builtin -fPIC -o $name.o "$here/examples/known/$name.c"
done
"$here/tests/sites.py" "$omosd" lib.o mine.o > words
check 'the node of a site is the one that the server means, in some 1,500 refusals'
grep FAILED words

# ---- the example of omos-protocol(7)

sed -n '/^import socket/,/^print/p' "$here/man/omos-protocol.7" | python3 - > counts
"$omos" ./socket stats | tr -dc '0-9 ' > words
python3 -c 'import sys; c = eval(open("counts").read()); w = open("words").read().split()
sys.exit(list(map(int, w))[:8] != list(c)[:8])'
check 'a client of three lines, as the page shows it'

# ---- completions

complete_in_bash() { # WORD..: what bash offers for the last of them
  bash -c '
    . "$1"; shift
    COMP_WORDS=("$@"); COMP_CWORD=$(($# - 1))
    case $1 in omos) _omos ;; omosd) _omosd ;; *) _omos_script ;; esac
    printf "%s\n" "${COMPREPLY[@]}"' - "$contrib/omos.bash" "$@" | sort | paste -sd ' '
}
[ "$(complete_in_bash omos ./socket p)" = put ]; check 'bash: a command'
[ "$(complete_in_bash omos ./socket '')" = 'blueprint flush link put stats where' ]
check 'bash: all commands'
[ "$(complete_in_bash omos ./soc)" = ./socket ]; check 'bash: a socket'
[ "$(complete_in_bash omos ./socket put /a all)" = alloc.o ]; check 'bash: a file'
[ "$(complete_in_bash omos ./socket where /a all)" = '' ]; check 'bash: no file'
[ "$(complete_in_bash omosd s)" = 'socket stdio' ]; check 'bash: omosd'
[ "$(complete_in_bash omos-put-dir ./socket /w li)" = lib ]; check 'bash: a folder'
bash -n "$contrib/omos.bash"; check 'bash reads it'
if command -v zsh > /dev/null; then
  zsh -n "$contrib/_omos"; check 'zsh reads its completion'
  [ "$(zsh -fc "fpath=('$contrib' \$fpath); autoload -Uz compinit; compinit -u -D
    print \$_comps[omos] \$_comps[omosd] \$_comps[omos-run]")" = '_omos _omos _omos' ]
  check 'zsh takes it for the programs'
else
  left_out zsh 'its completion'
fi

# ---- the unit, the scripts, and where they are put

if command -v systemd-analyze > /dev/null; then
  sed "s|@BINDIR@/omosd|$omosd|" "$contrib/omosd.service" > omosd.service
  systemd-analyze verify --man=no ./omosd.service 2> errors && [ ! -s errors ]
  check 'systemd takes the unit'
else
  left_out systemd-analyze 'the unit'
fi
if command -v shellcheck > /dev/null; then
  (cd "$here" && shellcheck -x contrib/omos-run contrib/omos.bash tests/contrib.sh tests/docs.sh \
    examples/*.sh bench/hits.sh bench/wrapping.sh)
  check 'shellcheck'
else
  left_out shellcheck 'the look at the scripts'
fi
make -s -C "$here" install PREFIX=/usr DESTDIR="$work/root" OMOSD="$omosd" OMOS="$omos" > lines
check 'make install'
root=$work/root/usr
[ -x "$root/bin/omosd" ] && [ -x "$root/bin/omos" ]; check 'the programs'
"$root/bin/omos-explain" full | grep -q '^  Do: '; check 'omos-explain finds its table'
grep -q '^ExecStart=/usr/bin/omosd socket ' "$root/share/systemd/user/omosd.service"
check 'the unit'
[ "$(find "$root/share/man" -type f | wc -l)" -eq 8 ]; check 'the pages'
make -s -C "$here" uninstall PREFIX=/usr DESTDIR="$work/root" > lines; check 'make uninstall'
[ -z "$(find "$work/root" ! -type d)" ]; check 'nothing is left'

echo "$passed passed, $failed failed"
[ $failed -eq 0 ]
