#!/usr/bin/env bash
# Counts, by callgrind, the instructions and the allocations of one more publish on a version of so
# many paths, and of one on a plain list, which is copied; and the instructions of a look-up, where
# the entries of the last version are compared with what is wanted. Paths come in mixed order. Then
# it shows the memory that 65,536 versions of 65,536 publishes hold when all are kept.
#
#   usage: bench/publish.sh LINK_CASES VERSION_BENCH
set -eu
versions=$(realpath "$2")
. "$(dirname "$0")/counts.sh"

MORE=64

paths() { # COUNT: the case that publishes so many paths, and lists them
    python3 - "$1" << 'END'
import random, sys
numbers = list(range(100000, 200000))
random.Random(1).shuffle(numbers)
stamps = {f"/p{number}": stamp for stamp, number in enumerate(numbers[: int(sys.argv[1])], 1)}
text = " & ".join(f"{path} (image /a)" for path in stamps)
wanted = "".join(f"{path} {stamps[path]}\\n" for path in sorted(stamps))
print(f"{len(stamps)} paths | {text} | list | text {wanted}")
END
}

allocations() { # inside the calls of the last count
    python3 - << 'END'
import re
names, callee, total = {}, None, 0
for line in open("out"):
    named = re.match(r"c?fn=\((\d+)\)(?: (.*))?", line)
    if named:
        names[named[1]] = named[2] or names[named[1]]
        callee = names[named[1]] if line[0] == "c" else None
    elif line.startswith("calls=") and callee in ("rattle_alloc", "rattle_realloc"):
        total += int(line[6:].split()[0])
print(total)
END
}

publish() { # KIND FUNCTION COUNT: the instructions of one more publish on a version of so many paths
    local fewer all
    fewer=$(collected "--toggle-collect=version_bench::$2::publish" "$versions" "$1" "$3")
    all=$(collected "--toggle-collect=version_bench::$2::publish" "$versions" "$1" "$(($3 + MORE))")
    grep -qx "$(($3 + MORE)) paths" output || { echo "bench: $(cat output)" >&2; exit 1; }
    echo "$(((all - fewer) / MORE))"
}

for count in 64 512 4096 65472; do
    made=$(publish tree trees "$count")
    all=$(allocations)
    collected --toggle-collect=version_bench::trees::publish "$versions" tree "$count" > fewer
    fewer=$(allocations)
    echo "$count paths: one more publish, its path made too, takes $made instructions and $(((all - fewer) / MORE)) allocations"
done
for count in 64 512 4096; do
    echo "$count paths in a plain list: one more publish takes $(publish list listed "$count") instructions"
done
for count in 4096 65536; do
    paths "$count" > cases.txt
    fewer=$(inside name_tree::snap::Snap::get)
    paths "$((count + MORE))" > cases.txt
    all=$(inside name_tree::snap::Snap::get)
    echo "$count paths: a look-up takes $(((all - fewer) / MORE)) instructions"
done
python3 - "$versions" << 'END'
import resource, subprocess, sys
line = subprocess.run([sys.argv[1], "kept", "65536"], capture_output=True, check=True, text=True).stdout
if line != "65536 paths\n":
    sys.exit(f"bench: {line}")
held = resource.getrusage(resource.RUSAGE_CHILDREN).ru_maxrss
print(f"65,536 versions of 65,536 publishes, all kept: {held / 1024:.0f} MB (300 at most)")
sys.exit(held > 300 * 1024)
END
