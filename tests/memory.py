#!/usr/bin/env python3
"""Refuses each allocation of a run in turn, and all from each on: of `omosd once`, of a session
over `omosd stdio`, of `omosd workload 2` and of `omos`. Each run must end by a status that
docs/FORMATS.md names, and what it writes must be what a run with ample memory writes, or say that
memory is wanting and go on from there. Ends with 'N passed, M failed'.

    tests/memory.py OMOSD OMOS
"""

import os
import struct
import subprocess
import sys
import tempfile
import time
from pathlib import Path

from shared import FIRST, V1, blueprint, frame, link, linked, no_entry, places, put

HERE = Path(__file__).resolve().parent
REQUESTS = [
    put("/o/a", V1),
    blueprint("/app", "(image /o/a)"),
    link("/app"),
    link("/app"),
    put("/o/x", V1),
    link("/app"),
    put("/o/a", V1),
    link("/app"),
    places("/app"),
    frame(5),
    frame(7),
]
NO_MEMORY = frame(136)
BYE = frame(135)


class Wrong(Exception):
    pass


def frames_of(data):
    found = []
    while data:
        if len(data) < 4 or len(data) < 4 + struct.unpack("<I", data[:4])[0]:
            raise Wrong("the replies end inside a frame")
        size = 4 + struct.unpack("<I", data[:4])[0]
        found.append(data[:size])
        data = data[size:]
    return found


def check_session(status, data):
    """The replies are the defined ones on what was published before each, or want of memory."""
    replies = frames_of(data)
    if status == 0 and len(replies) != len(REQUESTS) or status not in (0, 8):
        raise Wrong(f"status {status} behind {len(replies)} replies")
    version, there = 0, set()
    for request, reply in zip(REQUESTS, replies):
        kind = request[4]
        if reply == NO_MEMORY and kind in (1, 2, 3, 4):
            continue
        path = request[7:7 + struct.unpack("<H", request[5:7])[0]] if kind < 5 else b""
        if kind in (1, 2):
            version += 1
            there.add(path)
            wanted = [frame(129, struct.pack("<Q", version))]
        elif kind == 3 and there >= {b"/app", b"/o/a"}:
            wanted = [linked(version, FIRST, V1)]
        elif kind == 3:
            wanted = [no_entry("/app", 0, "/o/a" if b"/app" in there else "/app")]
        elif kind == 4:
            placed = struct.pack("<IQI", 1, FIRST, 1)
            wanted = [frame(132, bytes(4)), frame(132, placed)]
        elif kind == 5:
            if struct.unpack("<QQ", reply[5:21]) != (version, len(there)) or len(reply) != 77:
                raise Wrong("other counts")
            continue
        else:
            wanted = [BYE]
        if reply not in wanted:
            raise Wrong(f"another reply to a request of kind {kind}")


class Refusing:
    def __init__(self, folder):
        self.folder = Path(folder)
        self.library = self.folder / "refuse.so"
        subprocess.run(
            ["gcc", "-shared", "-fPIC", "-O1", "-o", self.library, HERE / "refuse.c", "-ldl"],
            check=True,
        )
        self.passed = self.failed = 0

    def run(self, words, given, number, behind):
        """A run in which this allocation is refused, or all from it on: status, output, count."""
        told = self.folder / "count"
        told.unlink(missing_ok=True)
        more = {"LD_PRELOAD": str(self.library), "REFUSE": str(number), "REFUSE_COUNT": str(told)}
        more |= {"REFUSE_ALL": "1"} if behind else {}
        done = subprocess.run(
            words, input=given, capture_output=True, check=False, timeout=60,
            env=os.environ | more, cwd=self.folder,
        )
        count = int(told.read_text()) if told.exists() else 0
        return done.returncode, done.stdout, count

    def all(self, what, words, given, check):
        """Refuses each allocation of the run."""
        _, _, count = self.run(words, given, 0, False)
        wrong = 0
        for behind in (False, True):
            for number in range(1, count + 1):
                status, data, _ = self.run(words, given, number, behind)
                try:
                    check(status, data)
                except Wrong as fault:
                    wrong += 1
                    print(f"{what}, allocation {number} of {count}: {fault}")
        if wrong or not count:
            self.failed += 1
        else:
            self.passed += 1
        print(f"{what}: {count} allocations, each refused alone and with all behind it")


def check_whole(wanted):
    """All of this output under 0, or none of it under 8."""
    def check(status, data):
        if (status, data) not in ((0, wanted), (8, b"")):
            raise Wrong(f"status {status}, {len(data)} bytes")
    return check


def check_client(folder, wanted, image):
    """The line and the file; or no line, and the file whole or not at all."""
    def check(status, data):
        made = folder / "made"
        written = made.read_bytes() if made.exists() else None
        made.unlink(missing_ok=True)
        whole = (status, data, written) == (0, wanted, image)
        if not whole and ((status, data) != (8, b"") or written not in (None, image)):
            raise Wrong(f"status {status}, {data!r}, {'a' if written else 'no'} file")
    return check


def main():
    omosd, omos = (str(Path(word).resolve()) for word in sys.argv[1:3])
    with tempfile.TemporaryDirectory() as name:
        folder = Path(name)
        refusing = Refusing(folder)
        image = linked(1, FIRST, V1)[21:]
        refusing.all("omosd once", [omosd, "once"], V1, check_whole(image))
        refusing.all("a session", [omosd, "stdio", "4", "64"], b"".join(REQUESTS), check_session)
        line = b"objects 2 images 4 bytes 32768 hits 2 evicted 0 placements 2 version 4\n"
        refusing.all("omosd workload 2", [omosd, "workload", "2"], b"", check_whole(line))
        with subprocess.Popen(
            [omosd, "socket", "socket", "1", "1000000", "4", "60000"], cwd=folder
        ) as server:
            while not (folder / "socket").exists():
                time.sleep(0.01)
            (folder / "v1.o").write_bytes(V1)
            subprocess.run([omos, "socket", "put", "/a", "v1.o"], cwd=folder, check=True,
                           stdout=subprocess.DEVNULL)
            line = b"image version 1 base 0x400000 bytes 8192\n"
            refusing.all("omos link", [omos, "socket", "link", "/a", "made"], b"",
                         check_client(folder, line, image))
            server.kill()
    print(f"{refusing.passed} passed, {refusing.failed} failed")
    sys.exit(1 if refusing.failed else 0)


if __name__ == "__main__":
    main()
