#!/usr/bin/env python3
"""Compares what omos_fragment says of objects that compilers write with what readelf prints, and
the programs among them, linked by `omosd once`, with the same linked by ld.

    tests/real.py OMOS_FRAGMENT OMOSD

It compiles the sources of tests/real by gcc and clang, those of them that are installed, with
several flags. For each object it works out from readelf's tables which sections and symbols are
kept, by the rules of docs/FORMATS.md, and compares every line. Code of the large model has
relocations of other types, and must be refused as O11.
"""

import re
import shutil
import subprocess
import sys
import tempfile
from pathlib import Path

HERE = Path(__file__).resolve().parent / "real"
FLAGS = [
    "-O0",
    "-O2",
    "-O2 -fPIC",
    "-O0 -fPIC",
    "-Os -fno-asynchronous-unwind-tables",
    "-O2 -g",
    "-O2 -fcommon",
    "-O2 -ffunction-sections -fdata-sections",
    "-O2 -mcmodel=large",
]
KINDS = {"64", "PC32", "PLT32", "GOTPCREL", "32", "32S", "PC64", "GOTPCRELX", "REX_GOTPCRELX"}


def run(*words, stdin=None):
    return subprocess.run(words, stdin=stdin, capture_output=True, check=False)


def readelf(what, path):
    return run("readelf", "-W", what, str(path)).stdout.decode()


def sections_of(path):
    """Number, name, type, size, flags, info and alignment of each section."""
    pattern = re.compile(
        r"\[ *(\d+)\] (\S*) +(\S+) +[0-9a-f]{16} [0-9a-f]+ ([0-9a-f]+) [0-9a-f]+ +([A-Za-z]*) +(\d+) +(\d+) +(\d+)"
    )
    return [
        (int(n), name, kind, int(size, 16), flags, int(info), int(align))
        for n, name, kind, size, flags, link, info, align in pattern.findall(readelf("-S", path))
        if int(n)
    ]


def symbols_of(path):
    """Value, size, type, binding, section and name of each symbol."""
    pattern = re.compile(
        r"^ *\d+: ([0-9a-f]{16}) +(\S+) (\S+) +(\S+) +\S+ +(\S+) ?(.*)$", re.MULTILINE
    )
    return [
        (int(value, 16), int(size, 0), kind, binding, section, name.strip())
        for value, size, kind, binding, section, name in pattern.findall(readelf("-s", path))
    ]


def group_of(kind, flags):
    if kind == "NOBITS":
        return "zeros"
    if "X" in flags:
        return "code"
    return "vars" if "W" in flags else "consts"


def wanted(path):
    """The lines that omos_fragment is to print, from readelf's tables."""
    sections = sections_of(path)
    symbols = symbols_of(path)
    lines, piece = [], {}
    for n, name, kind, size, flags, info, align in sections:
        if "A" not in flags:
            continue
        piece[n] = len(lines)
        lines.append(f"piece {len(lines)} {group_of(kind, flags)} align {align or 1} size {size}")
    common = {}
    for k, (value, size, kind, binding, section, name) in enumerate(symbols):
        if section == "COM":
            common[k] = len(lines)
            lines.append(f"piece {len(lines)} zeros align {value or 1} size {size}")

    def spot(k):
        value, size, kind, binding, section, name = symbols[k]
        if section == "ABS":
            return str(value)
        if section == "COM":
            return f"{common[k]}+0"
        return f"{piece[int(section)]}+{value}"

    for k, (value, size, kind, binding, section, name) in enumerate(symbols):
        if binding in ("GLOBAL", "WEAK") and section != "UND":
            lines.append(f"export {name} {spot(k)}")
    raw = path.read_bytes()
    for n, name, kind, size, flags, info, align in sections:
        if kind != "RELA" or info not in piece:
            continue
        at = int.from_bytes(raw[40:48], "little") + 64 * n
        offset = int.from_bytes(raw[at + 24 : at + 32], "little")
        names = kinds_of(path, name)
        for j in range(size // 24):
            entry = raw[offset + 24 * j : offset + 24 * j + 24]
            field = int.from_bytes(entry[:8], "little")
            number = int.from_bytes(entry[12:16], "little")
            addend = int.from_bytes(entry[16:], "little", signed=True)
            if names[j] == "NONE":
                continue
            if names[j] not in KINDS:
                return None
            value, size_, skind, binding, section, sname = symbols[number]
            if number == 0:
                aim = "at 0"
            elif binding == "LOCAL":
                aim = f"at {spot(number)}"
            else:
                word = "weak" if binding == "WEAK" and section == "UND" else "name"
                aim = f"{word} {sname}"
            lines.append(f"fixup {piece[info]}+{field} {names[j]} {addend} {aim}")
    return lines


def kinds_of(path, name):
    """The relocation types of a section, in order, as readelf names them."""
    text = readelf("-r", path)
    part = text.split(f"'{name}'", 1)[1].split("Relocation section", 1)[0]
    return re.findall(r"^[0-9a-f]{16} +[0-9a-f]{16} R_X86_64_(\S+)", part, re.MULTILINE)


def check(program, path, what):
    got = run(program, str(path))
    lines = got.stdout.decode().splitlines()
    want = wanted(path)
    if want is None:
        if not lines or not lines[0].startswith("refused O11 "):
            sys.exit(f"{what}: {lines[:1]} where it must be refused as O11")
        return f"{lines[0]}, as it must be"
    if lines != want:
        for a, b in zip(lines + [""] * len(want), want + [""] * len(lines)):
            if a != b:
                sys.exit(f"{what}: {a!r} where readelf has {b!r}")
    return f"{len(lines)} lines agree"


def compare_runs(omosd, path, folder, what):
    image = folder / "image"
    with path.open("rb") as source:
        mine = run(omosd, "once", stdin=source)
    if mine.returncode:
        sys.exit(f"{what}: {mine.stdout.decode()}")
    image.write_bytes(mine.stdout)
    image.chmod(0o755)
    peer = folder / "peer"
    linked = run("ld", "-Ttext=0x400000", "-o", str(peer), str(path))
    if linked.returncode:
        sys.exit(f"{what}: ld: {linked.stderr.decode()}")
    a, b = run(str(image)), run(str(peer))
    if (a.returncode, a.stdout) != (b.returncode, b.stdout):
        sys.exit(f"{what}: the image does something else than ld's")
    complaints = run("readelf", "-lh", str(image)).stderr.decode()
    if complaints:
        sys.exit(f"{what}: readelf: {complaints}")
    return f"runs as ld's does, status {a.returncode}"


def main():
    program, omosd = (str(Path(word).resolve()) for word in sys.argv[1:3])
    compilers = [name for name in ("gcc", "clang") if shutil.which(name)]
    count = 0
    with tempfile.TemporaryDirectory() as name:
        folder = Path(name)
        path = folder / "object.o"
        for source in sorted(HERE.glob("*.c")):
            for compiler in compilers:
                for flags in FLAGS:
                    what = f"{source.name}, {compiler} {flags}"
                    made = run(
                        compiler, "-c", "-ffreestanding", "-fno-stack-protector", *flags.split(),
                        "-o", str(path), str(source),
                    )
                    if made.returncode:
                        sys.exit(f"{what}: {made.stderr.decode()}")
                    said = check(program, path, what)
                    if source.name == "program.c" and not said.startswith("refused"):
                        said += "; " + compare_runs(omosd, path, folder, what)
                    print(f"{what}: {said}")
                    count += 1
        for source in sorted(HERE.glob("*.s")):
            run("as", "-o", str(path), str(source))
            said = check(program, path, source.name)
            said += "; " + compare_runs(omosd, path, folder, source.name)
            print(f"{source.name}: {said}")
            count += 1
    print(f"{count} objects, {', '.join(compilers)} and as")


main()
