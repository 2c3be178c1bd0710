#!/usr/bin/env python3
"""Runs the gate, or `rt ci` for some crates, and prints the table of docs/GATE.md: what each crate
took of the processors.

    tools/minutes.py [CRATE..]

It looks at the processes of the compiler twice a second, each of which names its crate, and counts
their user and system time: those that work in a folder where an edit was made count as the crate's
edits, all others as its proof. What `rt ci` prints goes to standard error. A run that another one on
the machine has spared some of its work says so there ("is kept").
"""

import os
import subprocess
import sys
import time
from collections import defaultdict
from pathlib import Path

TOP = Path(__file__).resolve().parent.parent
TICKS = os.sysconf("SC_CLK_TCK")


def crate_of(words):
    """The crate that a process of the compiler works on, or None."""
    if not words or not words[0].endswith("/rattle") or "--crate-name" not in words:
        return None
    return words[words.index("--crate-name") + 1]


def seen(process):
    """What a process works on: its crate, whether that has an edit in it, and its seconds."""
    words = (process / "cmdline").read_bytes().decode(errors="replace").split("\0")
    crate = crate_of(words)
    if crate is None:
        return None
    folder = os.readlink(process / "cwd")
    # The name of the program, in parentheses, may have blanks.
    fields = (process / "stat").read_text().rpartition(")")[2].split()
    return crate, "edit" in folder, (int(fields[11]) + int(fields[12])) / TICKS


def look(times):
    """Notes the time of each process of the compiler, which only grows."""
    for process in Path("/proc").iterdir():
        if process.name.isdigit():
            try:
                found = seen(process)
            except (OSError, ValueError, IndexError):
                continue
            if found:
                crate, edit, seconds = found
                times[process.name, crate, edit] = seconds


def main():
    times = {}
    with subprocess.Popen(["rt", "ci", *sys.argv[1:]], cwd=TOP, stdout=sys.stderr) as run:
        while run.poll() is None:
            look(times)
            time.sleep(0.5)
    sums = defaultdict(lambda: [0.0, 0.0])
    for (_, crate, edit), seconds in times.items():
        sums[crate][edit] += seconds
    print("| Crate | Proof and build | Edits |")
    print("|---|---|---|")
    for crate, (proof, edits) in sorted(sums.items(), key=lambda item: -sum(item[1])):
        print(f"| {crate} | {proof:.0f} s | {edits:.0f} s |")
    proofs, edits = (sum(pair[k] for pair in sums.values()) / 60 for k in (0, 1))
    print(f"| all | {proofs:.0f} min | {edits:.0f} min |")
    sys.exit(run.returncode)


if __name__ == "__main__":
    main()
