#!/usr/bin/env python3
"""Tries a server of sixteen workers with 64 clients, of which half behave badly: they are cut off
in a frame, send rubbish, never read what they asked for, or send a byte in half a second. The
images of the others are compared, byte by byte, with those of `omosd once`; the server's memory and
its end are looked at. It takes some ten seconds.

    tests/load.py OMOSD
"""

import os
import re
import socket
import struct
import subprocess
import sys
import tempfile
import threading
import time
from pathlib import Path

from objects import plain

ROUNDS = 25
LIMIT = 200_000  # KiB of memory that the server may take


def frame(kind, payload=b""):
    return struct.pack("<IB", 1 + len(payload), kind) + payload


def field(path):
    return struct.pack("<H", len(path)) + path


def exactly(link, size):
    data = bytearray()
    while len(data) < size:
        piece = link.recv(size - len(data))
        if not piece:
            raise EOFError("the server ended the session")
        data += piece
    return bytes(data)


def ask(link, request):
    link.sendall(request)
    data = exactly(link, struct.unpack("<I", exactly(link, 4))[0])
    return data[0], data[1:]


class Load:
    def __init__(self, omosd, folder):
        self.omosd = omosd
        self.address = os.path.join(folder, "socket")
        self.faults = []

    def connect(self):
        link = socket.socket(socket.AF_UNIX)
        link.settimeout(60)
        for _ in range(500):
            try:
                link.connect(self.address)
                return link
            except (BlockingIOError, ConnectionRefusedError, FileNotFoundError):
                time.sleep(0.02)
        raise ConnectionError("the server can't be reached")

    def once(self, file):
        done = subprocess.run([self.omosd, "once"], input=file, capture_output=True, check=True)
        return done.stdout

    def right(self, number):
        """Publishes, links, links again, and publishes anew, so many times."""
        path, program = b"/right/%d" % number, b"/program/%d" % number
        files = [
            plain(bytes([0xB8, number, turn, 0, 0, 0xC3]), 1, [("_start", 0)], [])
            for turn in range(2)
        ]
        codes = [self.once(file)[4096:8192] for file in files]
        with self.connect() as link:
            text = b"(image " + path + b")"
            assert ask(link, frame(2, field(program) + text))[0] == 129
            base = None
            for turn in range(ROUNDS):
                assert ask(link, frame(1, field(path) + files[turn % 2]))[0] == 129
                for _ in range(2):
                    kind, payload = ask(link, frame(3, field(program)))
                    assert kind == 130 and payload[16 + 4096:] == codes[turn % 2]
                    place = payload[8:16]
                    assert base in (None, place), "an image moved"
                    base = place
            assert ask(link, frame(7))[0] == 135

    def cut_off(self, number):
        with self.connect() as link:
            link.sendall(frame(1, field(b"/cut") + bytes(1000))[:500 + number])

    def rubbish(self, number):
        with self.connect() as link:
            link.sendall(bytes([1, 0, 0, 0, 9 + number]) + os.urandom(1000))
            assert link.recv(1) == b""

    def never_reads(self, number):
        with self.connect() as link:
            link.settimeout(3)
            file = plain(b"\xc3" * 200_000, 1, [("_start", 0)], [])
            try:
                link.sendall(frame(1, field(b"/large/%d" % number) + file))
                link.sendall(frame(3, field(b"/large/%d" % number)) * 100_000)
            except (TimeoutError, BrokenPipeError):
                pass

    def is_slow(self, number):
        with self.connect() as link:
            for byte in frame(3, field(b"/right/%d" % number))[:7]:
                link.sendall(bytes([byte]))
                time.sleep(0.5)

    def client(self, what, number):
        try:
            what(number)
        except (ConnectionResetError, BrokenPipeError):
            if what == self.right:
                self.faults.append(f"{what.__name__} {number}: the server went away")
        except Exception as fault:  # each is told at the end
            self.faults.append(f"{what.__name__} {number}: {fault!r}")

    def run(self):
        """The faults that were found, none where all is well."""
        bad = (self.cut_off, self.rubbish, self.never_reads, self.is_slow)
        whats = [(self.right, k) for k in range(32)] + [(bad[k % 4], k) for k in range(32)]
        whats.sort(key=lambda what: what[1])
        server = subprocess.Popen(
            [self.omosd, "socket", self.address, "16", str(len(whats)), "64", "60000"],
            stdout=subprocess.PIPE, text=True,
        )
        threads = [threading.Thread(target=self.client, args=what) for what in whats]
        for thread in threads:
            thread.start()
        most = 0
        while any(thread.is_alive() for thread in threads):
            try:
                status = Path(f"/proc/{server.pid}/status").read_text()
                most = max(most, int(re.search(r"VmHWM:\s*(\d+)", status)[1]))
            except (FileNotFoundError, TypeError):
                pass
            time.sleep(0.1)
        try:
            totals, _ = server.communicate(timeout=30)
        except subprocess.TimeoutExpired:
            server.kill()
            return self.faults + ["the server doesn't end"]
        if server.returncode or not totals.startswith(f"sessions {len(whats)} "):
            self.faults.append(f"the server ended with {server.returncode}: {totals}")
        if most > LIMIT:
            self.faults.append(f"the server took {most} KiB")
        print(totals.strip(), f"in at most {most} KiB")
        return self.faults


def main():
    with tempfile.TemporaryDirectory() as folder:
        faults = Load(str(Path(sys.argv[1]).resolve()), folder).run()
    for fault in faults:
        print(fault)
    sys.exit(1 if faults else 0)


if __name__ == "__main__":
    main()
