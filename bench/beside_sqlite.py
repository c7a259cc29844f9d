#!/usr/bin/env python3
"""The program beside SQLite in WAL mode, as ratios of times on the clock, in one run on this machine.

    bench/beside_sqlite.py PROGRAM [ROWS]

Rows of 60 bytes, by default 5,000: each inserted with its commit; all inserted in one transaction; scanned, ten times; read
by a process that only opens the store and scans it. Then how the program's times grow from 1,000 to 50,000 rows. SQLite is
the library that Python has, with `synchronous=FULL`, so that both have a commit on the disk when it is acknowledged. Both
times of a line have the same work done by a fresh process; a ratio above 1 says that the program took longer. Nothing here is
a test: a busy machine gives other times.
"""
import os
import shutil
import subprocess
import sys
import tempfile
import time

# A transaction of 50,000 inserts takes some 800 undo blocks.
SHAPE = ("8192", "64", "1024")
WIDTH = 60

SQLITE = r"""
import sqlite3, sys
what, rows = sys.argv[1], int(sys.argv[2])
base = sqlite3.connect("base", isolation_level=None)
base.execute("pragma journal_mode=wal")
base.execute("pragma synchronous=full")
if what in ("commits", "transaction"):
    base.execute("create table t (number integer primary key, bytes blob)")
if what == "commits":
    for i in range(rows):
        base.execute("insert into t (bytes) values (?)", (b"x" * WIDTH,))
if what == "transaction":
    base.execute("begin")
    for i in range(rows):
        base.execute("insert into t (bytes) values (?)", (b"x" * WIDTH,))
    base.execute("commit")
if what == "scans":
    for i in range(10):
        for number, text in base.execute("select number, bytes from t order by number"):
            sys.stdout.buffer.write(b"  %d %s\n" % (number, text))
if what == "opening":
    for number, text in base.execute("select number, bytes from t order by number"):
        sys.stdout.buffer.write(b"  %d %s\n" % (number, text))
""".replace("WIDTH", str(WIDTH))


def script(what, rows):
    row = "x" * WIDTH
    lines = ["session 1"]
    if what == "commits":
        lines += ["table t 10"] + [line for i in range(rows) for line in (f"insert t @r{i} {row}", "commit")]
    elif what == "transaction":
        lines += ["table t 10"] + [f"insert t @r{i} {row}" for i in range(rows)] + ["commit"]
    elif what == "scans":
        lines += ["scan t"] * 10
    else:
        lines += ["scan t"]
    return ("\n".join(lines) + "\n").encode()


def timed(words, folder, given=b""):
    """The time on the clock of one process."""
    start = time.perf_counter()
    done = subprocess.run(words, cwd=folder, input=given, capture_output=True, check=False)
    taken = time.perf_counter() - start
    if done.returncode != 0:
        sys.exit(f"{words[0]} ended with status {done.returncode}: {done.stderr.decode()}")
    return taken, done.stdout


def run(program, folder, what, rows):
    taken, said = timed([program, "run"], folder, script(what, rows))
    if b" refused " in said or what == "opening" and b" rows %d\n" % rows not in said:
        sys.exit(f"{what}: not all of it was done")
    return taken


def run_sqlite(folder, what, rows):
    return timed([sys.executable, "-c", SQLITE, what, str(rows)], folder)[0]


class Folder:
    def __enter__(self):
        self.name = tempfile.mkdtemp(prefix="assm-bench-")
        return self.name

    def __exit__(self, *_):
        shutil.rmtree(self.name)


def beside(program, first, then, rows):
    """The ratios of one way to fill a table, and of what is done to it then."""
    with Folder() as own, Folder() as other:
        timed([program, "format", *SHAPE], own)
        for what in (first, *then):
            mine, its = run(program, own, what, rows), run_sqlite(other, what, rows)
            print(f"{what}, {rows} rows: {mine:.2f} s beside {its:.2f} s, ratio {mine / its:.2f}", flush=True)


def growth(program):
    """Times for each row, in one transaction and in a scan."""
    times = []
    for rows in (1_000, 50_000):
        with Folder() as folder:
            timed([program, "format", *SHAPE], folder)
            filling, opening = run(program, folder, "transaction", rows), run(program, folder, "opening", rows)
            times.append((filling / rows, opening / rows))
            print(f"{rows} rows: {filling / rows * 1e6:.1f} us a row to insert, {opening / rows * 1e6:.1f} us a row to open and scan", flush=True)
    print(f"growth for each row: insert {times[1][0] / times[0][0]:.2f}, open and scan {times[1][1] / times[0][1]:.2f}")


def main():
    if len(sys.argv) < 2:
        sys.exit(__doc__)
    program = os.path.abspath(sys.argv[1])
    rows = int(sys.argv[2]) if len(sys.argv) > 2 else 5_000
    beside(program, "commits", ("scans", "opening"), rows)
    beside(program, "transaction", ("scans", "opening"), rows)
    growth(program)


main()
