#!/usr/bin/env python3
"""Runs the commands that README.md shows behind `$ `, in order, in one shell, and compares what
each prints with what stands below it. Ends with 'N passed, M failed'.

usage: tests/readme.py OMOSD OMOS

The programs of README's out/try are those that are given. A size, a version of a compiler's making
and an address behind another image may differ, where the README shows them as a number: sizes in
`bytes N` and bases other than 0x400000 are compared as such.
"""
import os
import re
import subprocess
import sys
import tempfile

HOME = os.path.dirname(os.path.dirname(os.path.realpath(__file__)))


def commands():
    """The commands of the README, each with the lines below it."""
    found, inside = [], False
    for line in open(HOME + "/README.md", encoding="utf-8"):
        line = line.rstrip("\n")
        if not line.startswith("    "):
            inside = False
        elif line.startswith("    $ "):
            found.append((line[6:], []))
            inside = True
        elif inside:
            found[-1][1].append(line[4:])
    return found


def plain(lines):
    text = "\n".join(lines)
    text = re.sub(r"\bbytes \d+$", "bytes N", text, flags=re.M)
    return re.sub(r"\bbase 0x(?!400000\b)[0-9a-f]+", "base 0xN", text)


def main():
    if len(sys.argv) != 3:
        sys.exit(__doc__.strip())
    passed = failed = 0
    with tempfile.TemporaryDirectory() as work:
        os.mkdir(work + "/bin")
        for program, name in zip(sys.argv[1:], ("omosd", "omos")):
            os.symlink(os.path.realpath(program), f"{work}/bin/{name}")
        steps = commands()
        script = [f"export TMPDIR={work}"]
        for k, (command, _) in enumerate(steps):
            script.append(command.replace("$PWD/out/try", work + "/bin"))
            if command.endswith("&"): # a reader types no faster than a server starts
                script.append("for _ in $(seq 500); do "
                              "[ \"$(stat -c %a socket 2> /dev/null)\" = 600 ] && break; "
                              "sleep 0.02; done")
            script.append(f"echo '@@@{k}'")
        run = subprocess.run(["bash", "-c", "\n".join(script)], cwd=HOME, text=True, timeout=120,
                             stdout=subprocess.PIPE, stderr=subprocess.STDOUT, check=False)
        rest = run.stdout
        for k, (command, wanted) in enumerate(steps):
            printed, _, rest = rest.partition(f"@@@{k}\n")
            if plain(printed.splitlines()) == plain(wanted):
                passed += 1
            else:
                failed += 1
                print(f"FAILED: $ {command}\nis to print\n{plain(wanted)}\nand printed\n{printed}")
    print(f"{passed} passed, {failed} failed")
    sys.exit(failed > 0)


main()
