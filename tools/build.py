#!/usr/bin/env python3
"""Proves and builds programs of crates/, and says which crate is proved and how many are to come.

    tools/build.py PROGRAM=WORD ..

The crates that the PROGRAMs stand on are proved in a copy of theirs in a temporary folder, several
at a time, each once those below it are proved. Then `rt run`, which finds that work, builds each
PROGRAM as crates/PROGRAM/out/PROGRAM and runs it with the WORD. Where a proof, the build or the run
fails, the last lines of what `rt` printed are shown and no program is left behind.
"""

import os
import shutil
import subprocess
import sys
import tempfile
import time
from collections import deque
from pathlib import Path

TOP = Path(__file__).resolve().parent.parent
SHOWN = 20
# What the proof of a large crate takes of memory, in KB.
LARGE = 4_000_000


def below():
    """By crate what it stands on, and its line of crates.txt."""
    found = {}
    for line in (TOP / "crates.txt").read_text().splitlines():
        name, colon, rest = line.split("#")[0].partition(":")
        if colon:
            found[name.split()[0]] = rest.split(), line
    return found


def needed(programs, stands_on):
    """The crates of this repository that the programs stand on, the programs among them."""
    found = set()
    waiting = list(programs)
    while waiting:
        name = waiting.pop()
        if name in stands_on and name not in found:
            found.add(name)
            waiting += stands_on[name][0]
    return found


def free_memory():
    """How much memory is free, in KB."""
    for line in Path("/proc/meminfo").read_text().splitlines():
        if line.startswith("MemAvailable:"):
            return int(line.split()[1])
    return 0


def at_once():
    """How many crates are proved at a time: one a processor, as far as there is memory."""
    return max(1, min(len(os.sched_getaffinity(0)), free_memory() // LARGE))


def copy(crates, stands_on, folder):
    """Copies these crates to the folder, with a list of them alone, so that `rt` finds no other."""
    for name in crates:
        shutil.copytree(
            TOP / "crates" / name,
            folder / "crates" / name,
            ignore=shutil.ignore_patterns("out", "must-fail"),
        )
    lines = [stands_on[name][1] + "\n" for name in sorted(crates)]
    (folder / "crates.txt").write_text("".join(lines))


def run(command, folder, see=lambda line: None):
    """Whether the command succeeds in the folder. Where it doesn't, its last lines are shown."""
    last = deque(maxlen=SHOWN)
    with subprocess.Popen(
        command, cwd=folder, stdout=subprocess.PIPE, stderr=subprocess.STDOUT, text=True
    ) as process:
        for line in process.stdout:
            last.append(line)
            see(line)
    if process.returncode != 0:
        sys.stderr.writelines(last)
    return process.returncode == 0


def prove(crates, folder):
    """Whether each of these crates is proved in the folder, several at a time."""
    start = time.monotonic()
    ended = set()

    def say(words):
        print(f"  {(time.monotonic() - start) / 60:5.1f} min  {words}", flush=True)

    def see(line):
        # `rt` prints a line == NAME once it is done with a crate.
        mark, _, name = line.rstrip("\n").partition(" ")
        if mark == "==" and name in crates - ended:
            ended.add(name)
            say(f"{len(ended)} of {len(crates)}: {name}")

    jobs = at_once()
    say(f"{jobs} at a time; a quick pass over all sources comes first")
    return run(["rt", "all", "check", "--jobs", str(jobs)], folder, see)


def program_at(name):
    """Where the program stands once it is built."""
    return TOP / "crates" / name / "out" / name


def are_newer(programs, crates):
    """Whether each of the programs is there, and newer than all files of these crates."""
    if not all(program_at(name).is_file() for name in programs):
        return False
    files = [TOP / "crates.txt"]
    for name in crates:
        folder = TOP / "crates" / name
        for part in ("src", "specs", "proofs"):
            files += (folder / part).glob("**/*")
    oldest = min(program_at(name).stat().st_mtime for name in programs)
    return all(file.stat().st_mtime < oldest for file in files)


def build(wanted):
    """Builds and runs the programs, each with its word, and says what wasn't proved or built."""
    for program, word in wanted.items():
        if not run(["rt", "run", "--", word], TOP / "crates" / program):
            program_at(program).unlink(missing_ok=True)
            sys.exit(f"build: {program} was not built; no program is left behind")


def main():
    wanted = {}
    for argument in sys.argv[1:]:
        program, _, word = argument.partition("=")
        wanted[program] = word
    if not wanted or not all(wanted.values()):
        sys.exit(__doc__)
    if not shutil.which("rt"):
        sys.exit("build: rt is missing: install the Rattle kit, and put its bin/ on the PATH")
    stands_on = below()
    crates = needed(wanted, stands_on)
    if are_newer(wanted, crates):
        build(wanted)
        return
    for program in wanted:
        program_at(program).unlink(missing_ok=True)
    with tempfile.TemporaryDirectory(prefix="omos-build-") as folder:
        copy(crates, stands_on, Path(folder))
        if not prove(crates, folder):
            sys.exit("build: not all was proved, and no program is built")
        build(wanted)


if __name__ == "__main__":
    main()
