#!/usr/bin/env python3
"""Tries the scripts that are made from numbers, on the built program.

    tools/try_generated.py PROGRAM [ROWS]

The script of each number is worked out here, by the rule in docs/LANGUAGE.md, and given to `run` over a store of its own: `gen` has
to leave the same two files as that run, byte by byte, and to print the sum of the lines that it printed. So it is for several
numbers and counts of rows, over stores with room and without, and again over a store that has such a script's rows. Then a large
script, of 11,000 rows unless it is said otherwise, is run twice: both lines are the same, and have the rows and bytes of the
rule. Words that are out of range are refused.
"""
import os
import re
import sys

from store_tries import Findings, fresh_store, program, run, status

LARGE = ("2048", "16", "256")
ROOM = ("1024", "16", "64")
SMALL = ("64", "8", "2")

CASES = (
    (ROOM, 1, 3), (ROOM, 7, 1), (ROOM, 0, 2), (ROOM, 2**31, 99), (ROOM, 2**31 - 1, 100), (ROOM, 2**32 - 1, 101), (ROOM, 12345, 200),
    (ROOM, 7, 1000), (SMALL, 7, 40), (SMALL, 7, 400), (SMALL, 99, 2000),
)

REFUSED = (("1", "0"), ("1", "20001"), ("4294967296", "1"), ("01", "1"), ("1", "01"), ("-1", "1"), ("+1", "1"), ("", "1"), ("1",), ("1", "1", "1"))


def drawn(number, rows):
    """The rows that a number draws."""
    x = number % 2**31
    for _ in range(rows):
        x = (x * 1103515245 + 12345) % 2**31
        q = x // 65536
        yield chr(ord("a") + q % 26) * (20 + q % 61)


def made(number, rows):
    """The script that is made from a number."""
    lines = ["session 1", "table g 10", "movement g on"]
    for i, text in enumerate(drawn(number, rows), 1):
        lines.append(f"insert g @r{i} {text}")
        if i % 100 == 0 or i == rows:
            lines.append("commit")
    lines += [f"delete g @r{i}" for i in range(2, rows + 1, 2)]
    lines += ["commit", "shrink g", "scan g"]
    return "\n".join(lines).encode() + b"\n"


def summed(text, commits):
    """The line that sums up what a run printed."""
    entries = re.findall(rb"^1\.\d+ (.*)$", text, re.MULTILINE)
    refused = sum(entry.startswith(b"refused ") for entry in entries)
    rows, size = 0, 0
    # The scan is the last statement, so that its rows are the last lines.
    if re.fullmatch(rb"scan g at \d+ rows \d+", entries[-1]):
        rows = int(entries[-1].split()[-1])
        lines = text.split(b"\n")[:-1]
        size = sum(len(line.split(b" ", 3)[3]) for line in lines[len(lines) - rows:])
    return f"entries {len(entries)} refused {refused} commits {commits} rows {rows} bytes {size}\n"


def files(folder):
    kept = []
    for name in ("assm.dat", "assm.log"):
        with open(os.path.join(folder, name), "rb") as it:
            kept.append(it.read())
    return kept


def commits(path, folder):
    """How many commits the store has, as `check` counts them, which adds none."""
    return run(path, folder, b"", words=("check",)).stdout.decode().split()[3]


def beside(path, found, shape, number, rows, times=1):
    """`gen` in one store, `run` with the script in another."""
    name = f"gen {number} {rows} in {shape[0]} blocks"
    with fresh_store(path, shape=shape) as one, fresh_store(path, shape=shape) as other:
        for time in range(1, times + 1):
            summary = run(path, one, b"", words=("gen", str(number), str(rows)))
            whole = run(path, other, made(number, rows))
            same = files(one) == files(other)
            wanted = summed(whole.stdout, commits(path, other))
            told = summary.stdout.decode()
            good = (summary.returncode, whole.returncode) == (0, 0) and same and told == wanted
            found.tell(f"{name}, time {time}: {told.strip() or status(summary)}; " + ("the files of a run of its script" if same else "other files than a run of its script"), good)


def large(path, found, rows):
    lines = []
    for _ in range(2):
        with fresh_store(path, shape=LARGE) as folder:
            lines.append(run(path, folder, b"", words=("gen", "7", str(rows))).stdout.decode())
    kept = list(drawn(7, rows))[::2]
    pattern = f"entries {5 + rows + (rows + 99) // 100 + rows // 2} refused 0 commits [0-9]+ rows {len(kept)} bytes {sum(map(len, kept))}\n"
    found.tell(f"gen 7 {rows}, twice: {lines[0].strip()}", lines[0] == lines[1] and re.fullmatch(pattern, lines[0]) is not None)


def main():
    path = program()
    rows = int(sys.argv[2]) if len(sys.argv) > 2 else 11_000
    found = Findings()
    for case in CASES:
        beside(path, found, *case)
    beside(path, found, ROOM, 1, 50, times=3)
    with fresh_store(path) as folder:
        before = files(folder)
        for words in REFUSED:
            done = run(path, folder, b"", words=("gen", *words))
            good = (done.returncode, done.stdout, done.stderr[:14]) == (1, b"", b"assm: BadWords") and files(folder) == before
            found.tell(f"gen {' '.join(words)}: {done.returncode}", good)
    large(path, found, rows)
    found.end()


main()
