#!/usr/bin/env python3
"""Publishes large objects in a session of `omosd stdio` of their own and prints how much memory the
session held above one that publishes a small object: the most at any time, the request's bytes with
it. Called by bench/memory.sh.

    bench/memory.py TESTS OMOSD      TESTS is the folder tests/, whose objects.py lays objects out

Objects: 1 MB of code; 4,092 sections that lie over the same 780,000 bytes; 43,000 undefined symbols
of one name of 1,024 bytes; 40,000 relocations; 24,000 exports. What may be held: 1.5 times the
file, 32 bytes a symbol and 48 a relocation, and 4 MB.
"""

import struct
import subprocess
import sys
from pathlib import Path

sys.path.insert(0, sys.argv[1])
from objects import object_of, plain  # noqa: E402
from shared import END, put  # noqa: E402

OMOSD = sys.argv[2]
CODE = b"\xb8\x3c\0\0\0\xbf\x07\0\0\0\x0f\x05" + b"\xe8\0\0\0\0" + b"\x90" * 15
START = [("_start", 0)]


def overlapping():
    """Sections over the same bytes, which are those of the first."""
    code = CODE * (780_000 // len(CODE))
    sections = [(0, 0, b"", 0, 0, 0, 0), (1, 6, code, 0, 0, 16, 0)]
    sections += [(1, 6, (64, len(code)), 0, 0, 16, 0)] * 4_091
    return object_of(sections)


def one_name(count):
    """Undefined symbols whose name is the same place of the string table."""
    table = bytes(24) + struct.pack("<IBBHQQ", 1, 0x10, 0, 0, 0, 0) * count
    sections = [
        (0, 0, b"", 0, 0, 0, 0),
        (1, 6, CODE, 0, 0, 16, 0),
        (2, 0, table, 3, 1, 8, 24),
        (3, 0, b"\0" + b"n" * 1_024 + b"\0", 0, 0, 1, 0),
    ]
    return object_of(sections)


def held(file):
    """The most that a session held once this object was published, in KB."""
    with subprocess.Popen(
        [OMOSD, "stdio", "64", "65536"], stdin=subprocess.PIPE, stdout=subprocess.PIPE
    ) as session:
        session.stdin.write(put("/o", file))
        session.stdin.flush()
        reply = session.stdout.read(13)
        assert reply[4] == 129, reply
        lines = Path(f"/proc/{session.pid}/status").read_text().splitlines()
        session.stdin.write(END)
        session.stdin.close()
        session.stdout.read()
    assert session.returncode == 0
    return next(int(line.split()[1]) for line in lines if line.startswith("VmHWM"))


def main():
    small = held(plain(CODE, 16, START, []))
    exports = [(f"f{n:08}", 0) for n in range(24_000)]
    rows = [
        ("1 MB of code", plain(CODE * 31_250, 16, START, []), 2, 0),
        ("4,092 sections over the same bytes", overlapping(), 0, 0),
        ("43,000 symbols of one name", one_name(43_000), 43_001, 0),
        ("40,000 relocations", plain(CODE, 16, START, [(13, 4, 1, -4)] * 40_000), 2, 40_000),
        ("24,000 exports", plain(CODE, 16, exports, []), 24_001, 0),
    ]
    print(f"{'object':36} {'bytes':>9} {'KB held':>9} {'KB allowed':>10}")
    wrong = 0
    for name, file, symbols, relocations in rows:
        most = held(file)
        allowed = (1.5 * len(file) + 32 * symbols + 48 * relocations) / 1024 + 4096
        wrong += most - small > allowed
        print(f"{name:36} {len(file):9} {most - small:9} {allowed:10.0f}")
    print(f"{len(rows) - wrong} passed, {wrong} failed")
    sys.exit(wrong > 0)


main()
