#!/usr/bin/env python3
"""What it costs to load a table, to delete every second row, and to shrink it, beside SQLite's VACUUM of the same table.

    bench/shrink.py PROGRAM [ROWS ..]

For each number of rows, by default 1,000, 5,000 and 20,000, rows of 60 bytes are inserted with a commit after each hundred; every
second one is deleted; the table is shrunk. Each of the three is a process of its own over the store that the one before left, and
what opening that store takes is measured and left out of the next two. Times are processor times, in milliseconds and for each
row. The last line says how the time of a row grows from the least number to the greatest. SQLite is the library that Python
has, in WAL mode with `synchronous=FULL`; starting Python is measured and left out. Nothing here is a test: a busy machine gives
other times.
"""
import os
import resource
import shutil
import subprocess
import sys
import tempfile

SHAPE = ("8192", "64", "1024")
ROW = "x" * 60

SQLITE = r"""
import sqlite3, sys
what, rows = sys.argv[1], int(sys.argv[2])
base = sqlite3.connect("base", isolation_level=None)
base.execute("pragma journal_mode=wal")
base.execute("pragma synchronous=full")
if what == "load":
    base.execute("create table t (number integer primary key, bytes blob)")
    for first in range(0, rows, 100):
        base.execute("begin")
        for i in range(first, min(first + 100, rows)):
            base.execute("insert into t (bytes) values (?)", (b"ROW",))
        base.execute("commit")
if what == "delete":
    base.execute("begin")
    for i in range(2, rows + 1, 2):
        base.execute("delete from t where number = ?", (i,))
    base.execute("commit")
if what == "shrink":
    base.execute("vacuum")
""".replace("ROW", ROW)


def script(what, rows):
    lines = ["session 1"]
    if what == "load":
        lines += ["table t 10", "movement t on"]
        for i in range(1, rows + 1):
            lines.append(f"insert t @r{i} {ROW}")
            if i % 100 == 0 or i == rows:
                lines.append("commit")
    if what == "delete":
        lines += [f"delete t #{i}" for i in range(2, rows + 1, 2)] + ["commit"]
    if what == "shrink":
        lines.append("shrink t")
    return ("\n".join(lines) + "\n").encode()


def worked(words, folder, given=b""):
    """The processor time of one process, and what it printed."""
    before = resource.getrusage(resource.RUSAGE_CHILDREN)
    done = subprocess.run(words, cwd=folder, input=given, capture_output=True, check=False)
    after = resource.getrusage(resource.RUSAGE_CHILDREN)
    if done.returncode != 0 or b" refused " in done.stdout:
        sys.exit(f"{words[0]}: status {done.returncode}: {done.stderr.decode()}, or a statement was refused")
    return after.ru_utime + after.ru_stime - before.ru_utime - before.ru_stime, done.stdout


def own(program, rows):
    """The three processor times, and the line of the shrink."""
    folder = tempfile.mkdtemp(prefix="assm-bench-")
    try:
        worked([program, "format", *SHAPE], folder)
        load, _ = worked([program, "run"], folder, script("load", rows))
        opened, _ = worked([program, "run"], folder, b"session 1\n")
        delete, _ = worked([program, "run"], folder, script("delete", rows))
        opened_again, _ = worked([program, "run"], folder, b"session 1\n")
        shrink, said = worked([program, "run"], folder, script("shrink", rows))
        return (load, delete - opened, shrink - opened_again), said.decode().strip()
    finally:
        shutil.rmtree(folder)


def its(rows):
    folder = tempfile.mkdtemp(prefix="assm-bench-")
    try:
        words = [sys.executable, "-c", SQLITE]
        start, _ = worked([*words, "nothing", "0"], folder)
        return tuple(worked([*words, what, str(rows)], folder)[0] - start for what in ("load", "delete", "shrink"))
    finally:
        shutil.rmtree(folder)


def main():
    if len(sys.argv) < 2:
        sys.exit(__doc__)
    program = os.path.abspath(sys.argv[1])
    sizes = [int(it) for it in sys.argv[2:]] or [1_000, 5_000, 20_000]
    each = []
    for rows in sizes:
        mine, said = own(program, rows)
        other = its(rows)
        each.append([it / rows for it in mine])
        for what, a, b in zip(("load", "delete", "shrink"), mine, other):
            ratio = f", {a / b:.1f} times SQLite's {1e3 * b:.0f} ms" if b > 0.005 else ", SQLite's too small to tell"
            print(f"{rows} rows: {what} {1e3 * a:.0f} ms, {1e6 * a / rows:.0f} us a row{ratio}", flush=True)
        print(f"  {said}", flush=True)
    if len(sizes) > 1:
        grown = [last / first for first, last in zip(each[0], each[-1])]
        print(f"a row at {sizes[-1]} beside one at {sizes[0]}: " + ", ".join(f"{what} {it:.1f}" for what, it in zip(("load", "delete", "shrink"), grown)))


main()
