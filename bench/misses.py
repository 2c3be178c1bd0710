#!/usr/bin/env python3
"""Times links that are evaluated anew: four clients, each with an object of its own of 40,000
relocations, flush and link it in turn. One worker serves the clients one after the other, four and
sixteen workers side by side; then sixteen clients at four and at sixteen workers. Each image is
compared with that of `omosd once`.

    bench/misses.py OMOSD
"""

import multiprocessing
import os
import socket
import statistics
import struct
import subprocess
import sys
import tempfile
import time
from pathlib import Path

sys.path.insert(0, str(Path(__file__).resolve().parent.parent / "tests"))

from objects import plain  # noqa: E402

LINKS = 12


def frame(kind, payload=b""):
    return struct.pack("<IB", 1 + len(payload), kind) + payload


def field(path):
    return struct.pack("<H", len(path)) + path


def reply(link):
    """One reply: its kind and payload."""
    size = struct.unpack("<I", exactly(link, 4))[0]
    data = exactly(link, size)
    return data[0], data[1:]


def exactly(link, size):
    data = bytearray()
    while len(data) < size:
        piece = link.recv(size - len(data))
        if not piece:
            sys.exit("the server ended the session")
        data += piece
    return bytes(data)


def ask(link, request):
    link.sendall(request)
    return reply(link)


def client(address, number, file, code, ready, go):
    """Publishes, says that it is ready, and flushes and links so many times."""
    path = b"/o/%d" % number
    with socket.socket(socket.AF_UNIX) as link:
        link.connect(address)
        assert ask(link, frame(1, field(path) + file))[0] == 129
        ready.release()
        go.wait()
        for _ in range(LINKS):
            assert ask(link, frame(6, field(path)))[0] == 134
            kind, payload = ask(link, frame(3, field(path)))
            assert kind == 130 and payload[16 + 4096:16 + 4096 + len(code)] == code
        assert ask(link, frame(7))[0] == 135


def timed(omosd, folder, workers, clients, file, code):
    """Seconds from the start of all clients to the end of the last. Fewer workers than clients take
    them one after the other, so that the publishes of the later ones count too."""
    address = os.path.join(folder, "socket")
    words = [omosd, "socket", address, str(workers), str(clients), "64", "60000"]
    server = subprocess.Popen(words, stdout=subprocess.DEVNULL)
    while not os.path.exists(address):
        time.sleep(0.01)
    ready, go = multiprocessing.Semaphore(0), multiprocessing.Event()
    runs = [
        multiprocessing.Process(target=client, args=(address, k, file, code, ready, go))
        for k in range(clients)
    ]
    for run in runs:
        run.start()
    for _ in range(min(workers, clients)):
        ready.acquire()
    start = time.monotonic()
    go.set()
    for run in runs:
        run.join()
        if run.exitcode:
            sys.exit("a client failed")
    taken = time.monotonic() - start
    if server.wait():
        sys.exit("the server failed")
    return taken


def main():
    omosd = str(Path(sys.argv[1]).resolve())
    code = b"\xe8\0\0\0\0\xc3" + b"\x90" * 10
    file = plain(code, 16, [("_start", 0)], [(1, 4, 1, -4)] * 40000)
    image = subprocess.run([omosd, "once"], input=file, capture_output=True, check=True).stdout
    code = image[4096:4096 + 16]
    with tempfile.TemporaryDirectory() as folder:
        times = {}
        for workers, clients in ((1, 4), (4, 4), (16, 4), (4, 16), (16, 16)):
            runs = [timed(omosd, folder, workers, clients, file, code) for _ in range(5)]
            times[workers, clients] = statistics.median(runs)
            print(f"{workers} workers, {clients} clients, {LINKS} links each: "
                  f"{times[workers, clients] * 1000:.0f} ms")
    print(f"4 workers are {times[1, 4] / times[4, 4]:.2f} times as fast as 1 on 4 clients; 16 "
          f"take {times[16, 16] / times[4, 16]:.2f} times as long as 4 on 16 clients; "
          f"{os.cpu_count()} processors")


if __name__ == "__main__":
    main()
