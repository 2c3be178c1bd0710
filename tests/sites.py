#!/usr/bin/env python3
"""Compares the operator that contrib/omos-explain shows with what the server says of it: publishes
and links blueprints made at random, and where one is refused, the node that is shown must begin
with an operator that can be refused so, and hold the name or path of the refusal. The kinds are
those of docs/FORMATS.md. Ends with 'N passed, M failed'.

usage: tests/sites.py OMOSD A.o B.o      two objects, which both define `speak`
"""
import importlib.machinery
import importlib.util
import os
import random
import struct
import subprocess
import sys

HOME = os.path.dirname(os.path.dirname(os.path.realpath(__file__)))
sys.dont_write_bytecode = True
loader = importlib.machinery.SourceFileLoader("explain", HOME + "/contrib/omos-explain")
explain = importlib.util.module_from_spec(importlib.util.spec_from_loader("explain", loader))
loader.exec_module(explain)

NAMES = ["speak", "twice", "none", "malloc", "z"]
# the code of a refusal that names a node, and what the node begins with
KINDS = {
    41: ("/nothing",),
    45: ("(merge",),
    46: ("(rename",),
    47: ("(restrict", "(freeze", "(hide", "(show", "(copy_as"),
    48: ("(rename", "(copy_as"),
}
chance = random.Random(7)


def name():
    return chance.choice(NAMES)


def space():
    return chance.choice([" ", "\n  ", " ; ) a comment (\n "])


def expression(depth):
    kinds = ["merge", "override", "rename", "restrict", "freeze", "hide", "show", "copy_as"]
    kind = "path" if depth > 5 else chance.choice(kinds + ["path"] * (3 if depth > 3 else 1))
    if kind == "path":
        return chance.choice(["/a"] * 4 + ["/b"] * 4 + ["/nothing"])
    inner = [expression(depth + 1)]
    if kind in ("merge", "override"):
        more = chance.randint(1, 2) if kind == "merge" else 1
        inner += [expression(depth + 1) for _ in range(more)]
        return f"({kind}{space()}{space().join(inner)})"
    if kind == "show":
        shown = " ".join(name() for _ in range(chance.randint(0, 3)))
        return f"(show ({shown}){space()}{inner[0]})"
    names = name() + (space() + name() if kind in ("rename", "copy_as") else "")
    return f"({kind} {names}{space()}{inner[0]})"


def frame(body):
    return struct.pack("<I", len(body)) + body


def path(text):
    return struct.pack("<H", len(text)) + text


def main():
    omosd, *objects = sys.argv[1:]
    requests = b""
    for at, file in zip((b"/a", b"/b"), objects):
        requests += frame(b"\1" + path(at) + open(file, "rb").read())
    heads = ["", "(no_entry) ", "(entry main) (range 0x400000 0x500000) "]
    texts = [f"(image {chance.choice(heads)}{expression(0)})" for _ in range(2000)]
    for text in texts:
        requests += frame(b"\2" + path(b"/x") + text.encode()) + frame(b"\3" + path(b"/x"))
    run = subprocess.run([omosd, "stdio", "4", "65536"], input=requests, stdout=subprocess.PIPE,
                         check=True)
    replies, rest = [], run.stdout
    while rest:
        length, = struct.unpack("<I", rest[:4])
        replies.append(rest[4:4 + length])
        rest = rest[4 + length:]
    passed = failed = 0
    seen = set()
    for text, reply in zip(texts, replies[3::2], strict=True):
        if reply[0] != 131 or reply[1] not in KINDS:
            continue
        # the code, the path of the site, its node, and a name or a path
        node, = struct.unpack("<I", reply[6:10])
        word = reply[12:].decode()
        shown = explain.shown_node(text.encode(), node)
        whole = text.encode()[slice(*explain.nodes(text.encode())[node])].decode()
        seen.add(reply[1])
        if whole.startswith(KINDS[reply[1]]) and shown.startswith(KINDS[reply[1]]) and \
                (reply[1] == 45 or word in whole):
            passed += 1
        else:
            failed += 1
            print(f"FAILED: code {reply[1]}, node {node}, {word} of {text}: {shown}")
    if seen != set(KINDS):
        failed += 1
        print(f"FAILED: only {seen} of the refusals came")
    print(f"{passed} passed, {failed} failed")
    sys.exit(failed > 0)


main()
