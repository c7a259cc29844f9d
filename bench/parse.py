#!/usr/bin/env python3
"""What reading a script costs: processor time and memory beside the size of the script.

    bench/parse.py PROGRAM

The scripts are the shortest inserts, each with a label of its own, up to 2^23 and to 2^24 bytes; their last line is no
statement, so a program reads and refuses them and runs nothing. A line gives the bytes, the lines, the processor time,
and the most memory that the process had, as a multiple of the bytes. The last line is the ratio of the two times: about
2 where time is linear. Nothing here is a test: a busy machine gives other times.
"""
import itertools
import os
import shutil
import string
import subprocess
import sys
import tempfile

LETTERS = string.ascii_lowercase
PARTS = LETTERS + string.digits + "_"


def labels():
    """Names from the shortest on."""
    for more in itertools.count():
        for first in LETTERS:
            for rest in itertools.product(PARTS, repeat=more):
                yield first + "".join(rest)


def script(size):
    """Inserts up to this many bytes, with a last line that is refused."""
    out = bytearray(b"session 1\n")
    for label in labels():
        line = f"insert t @{label} x\n".encode()
        if len(out) + len(line) >= size:
            break
        out += line
    return bytes(out + b"?" * (size - len(out)))


def cost(program, folder, text):
    """Processor seconds and bytes of memory of one run."""
    with open(os.path.join(folder, "script"), "wb") as file:
        file.write(text)
    with open(os.path.join(folder, "script"), "rb") as file:
        child = subprocess.Popen([program, "run"], cwd=folder, stdin=file, stdout=subprocess.DEVNULL, stderr=subprocess.DEVNULL)
        _, _, used = os.wait4(child.pid, 0)
    return used.ru_utime + used.ru_stime, used.ru_maxrss * 1024


def main():
    program = os.path.abspath(sys.argv[1])
    folder = tempfile.mkdtemp(prefix="assm-bench-")
    times = []
    try:
        for size in (1 << 23, 1 << 24):
            text = script(size)
            seconds, memory = cost(program, folder, text)
            times.append(seconds)
            print(f"{len(text)} bytes, {text.count(10) + 1} lines: {seconds:.2f} s, memory {memory / len(text):.1f} times the bytes")
        print(f"ratio {times[1] / times[0]:.2f}")
    finally:
        shutil.rmtree(folder)


if __name__ == "__main__":
    main()
