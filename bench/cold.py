"""For bench/cold.sh: objects, and whole sessions that publish and link them beside linkers.

    cold.py ring|calls|one OMOSD ROUNDS LINKER..

`ring` has 200 objects, each of which calls the next; `calls` 250 C objects of 3.4 KB with 33
relocations each; `one` an object with 35,000, about as many as fit into one. Each executable is
run before anything is timed, and must print or answer what the others do.
"""
import glob
import os
import statistics
import struct
import subprocess
import sys
import time

EXIT = "mov $60, %eax\nsyscall\n"


def assembled(name, text):
    text += '.section .note.GNU-stack, "", @progbits\n'
    subprocess.run(["as", "-o", name, "-"], input=text.encode(), check=True)


def ring(count):
    """Each object's function calls the next one's; the last one's ends the program."""
    for k in range(count):
        start = ".globl _start\n_start:\n" if k == 0 else ""
        last = k == count - 1
        body = f"mov ${count}, %edi\n{EXIT}" if last else f"call f{k + 1}\nret\n"
        assembled(f"ring{k:03}.o", f"{start}.globl f{k}\n.balign 16\nf{k}: {body}.skip 10, 0x90\n")


def calls(count):
    """Each object has a function that calls 30 others and reads three values of others."""
    for k in range(count):
        called = [(k * 7 + 31 * n + 1) % count for n in range(30)]
        read = [(k + n + 1) % count for n in range(3)]
        text = "".join(f"unsigned f{n}(unsigned, unsigned);\n" for n in sorted(set(called)))
        text += "".join(f"extern unsigned v{n};\n" for n in read)
        text += f"unsigned v{k} = {k * 2654435761 % 2**32}u;\n"
        text += f"unsigned f{k}(unsigned x, unsigned depth) {{\n    if (!depth)\n"
        text += "        return x" + "".join(f" ^ v{n}" for n in read) + ";\n"
        text += "".join(f"    x = x * 31 + f{n}(x, depth - 1);\n" for n in called)
        text += "    return x;\n}\n"
        open("source.c", "w").write(text)
        subprocess.run(["gcc", "-c", "-O1", "-ffreestanding", "-fno-stack-protector", "-fno-pic",
                        "-fno-asynchronous-unwind-tables", "-o", f"calls{k:03}.o", "source.c"],
                       check=True)
    assembled("callsfirst.o", ".globl _start\n_start: mov $5, %edi\nmov $2, %esi\ncall f0\n"
              f"push %rax\nmov $1, %edi\nmov %rsp, %rsi\nmov $4, %edx\nmov $1, %eax\nsyscall\n"
              f"mov $0, %edi\n{EXIT}")


def one(count):
    """One object that calls a function of its own so often, which counts the calls."""
    assembled("one.o", ".globl f\nf: inc %ebx\nret\n.globl _start\n_start: xor %ebx, %ebx\n"
              + "call f\n" * count + f"mov %ebx, %edi\n{EXIT}")


def path(name):
    return struct.pack("<H", len(name)) + name


def frame(body):
    return struct.pack("<I", len(body)) + body


def session(files):
    """The requests: each object, a blueprint that joins them, its link and the end."""
    requests = b""
    names = [b"/o/%d" % k for k in range(len(files))]
    for name, file in zip(names, files):
        requests += frame(b"\x01" + path(name) + open(file, "rb").read())
    text = b"(image (merge " + b" ".join(names) + b"))" if len(files) > 1 else b"(image /o/0)"
    requests += frame(b"\x02" + path(b"/all") + text) + frame(b"\x03" + path(b"/all"))
    return requests + frame(b"\x07")


def image_of(replies):
    """The image in the last reply but Bye."""
    at, found = 0, None
    while at < len(replies):
        size, = struct.unpack_from("<I", replies, at)
        if replies[at + 4] == 130:
            found = replies[at + 21:at + 4 + size]
        at += 4 + size
    assert found and replies.endswith(b"\x01\0\0\0\x87"), "not answered to the end"
    return found


def main():
    kind, omosd, rounds, linkers = sys.argv[1], sys.argv[2], int(sys.argv[3]), sys.argv[4:]
    {"ring": lambda: ring(200), "calls": lambda: calls(250), "one": lambda: one(35000)}[kind]()
    files = sorted(glob.glob(kind + "*.o"))
    open("requests", "wb").write(session(files))
    commands = {
        "omosd": [omosd, "stdio", "4", "1000"],
        "ld": ["ld", "-o", "out.ld"],
        "ld.gold": ["ld.gold", "-o", "out.ld.gold"],
        "ld.lld": ["ld.lld", "-o", "out.ld.lld"],
        "tcc": ["tcc", "-nostdlib", "-static", "-o", "out.tcc"],
    }

    def run(linker):
        words = commands[linker] + ([] if linker == "omosd" else files)
        with open("requests", "rb") as source, open("replies", "wb") as sink:
            start = time.perf_counter()
            subprocess.run(words, stdin=source, stdout=sink, check=True)
            return 1000 * (time.perf_counter() - start)

    def behaves(linker):
        if linker == "omosd":
            open("out.omosd", "wb").write(image_of(open("replies", "rb").read()))
            os.chmod("out.omosd", 0o755)
        ran = subprocess.run(["./out." + linker], stdout=subprocess.PIPE, check=False)
        return ran.returncode, ran.stdout

    wanted = {"ring": (200, b""), "one": (35000 % 256, b"")}.get(kind)
    times = {linker: [] for linker in linkers}
    for linker in linkers:
        run(linker)
        did = behaves(linker)
        wanted = wanted or did
        assert did == wanted, f"what {linker} linked answers {did}, not {wanted}"
    for _ in range(rounds):
        for linker in linkers:
            times[linker].append(run(linker))
    size = sum(os.path.getsize(file) for file in files)
    for linker in linkers:
        median, least = statistics.median(times[linker]), min(times[linker])
        print(f"{kind}, {len(files)} objects of {size:,} bytes, {linker}: {median:.1f} ms, "
              f"least {least:.1f}")


main()
