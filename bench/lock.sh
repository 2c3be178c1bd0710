#!/usr/bin/env bash
# What a turn in the lock costs: its instructions where nobody else waits, and the processor time and
# wall time of 1,000,000 turns by one thread, and by 16 threads together.
#
# usage: bench/lock.sh PROGRAM, the program turn_bench as it was built
set -euo pipefail
program=$(realpath "$1")
. "$(dirname "${BASH_SOURCE[0]}")/common.sh"
need valgrind python3

instructions() { # TURNS: what one thread takes for so many
    collected "$program" 1 "$1"
}

few=$(instructions 1000)
many=$(instructions 11000)
echo "instructions of an uncontended turn: $(((many - few) / 10000)), at most 500 are allowed"

# The least of five runs, each by its wall time and the processor time of all its threads, in ms.
timed() { # THREADS TURNS
    local round
    for round in 1 2 3 4 5; do
        TIMEFORMAT='%R %U %S'
        { time "$program" "$1" "$2" > output; } 2>&1
        grep -q "^$(($1 * $2)) turns$" output
    done | python3 -c '
import sys
runs = [[float(x) for x in line.split()] for line in sys.stdin]
print(round(min(r[0] for r in runs) * 1000), round(min(r[1] + r[2] for r in runs) * 1000))'
}

read -r wall_one cpu_one <<< "$(timed 1 1000000)"
read -r wall_all cpu_all <<< "$(timed 16 62500)"
echo "1 thread, 1,000,000 turns: $wall_one ms of wall time, $cpu_one ms of processor time"
echo "16 threads, 1,000,000 turns: $wall_all ms of wall time, $cpu_all ms of processor time"
python3 -c "print(f'processor time {$cpu_all / $cpu_one:.1f} times one thread\'s, at most 3 are wanted;',
    f'throughput {$wall_one / $wall_all:.3f} of it, at least 0.1 is wanted')"
