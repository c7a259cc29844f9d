#!/usr/bin/env python3
"""What scripts cost that are made from a number, beside SQLite's same work, as ratios of processor times in one run.

    bench/generated.py PROGRAM [ROWS ..]

For each count of rows, by default 1,000, 11,000 and 20,000, `gen 7 ROWS` runs over a new store: the rows that the number draws are
inserted with a commit after each hundred, each second one is deleted, the table is shrunk and scanned. SQLite, the library that
Python has, in WAL mode with `synchronous=FULL`, does the same with the same rows: it inserts them with a commit after each hundred,
deletes each second one, vacuums, and adds up the rows and their bytes, which have to be those of the program's line. Each is one
process; starting Python and drawing the rows is measured and left out. Memory is the most that the process held, and of SQLite's
what an idle Python holds is left out. The last line says how a row's time grows from the least count to the greatest.
Nothing here is a test: a busy machine gives other times.
"""
import os
import re
import shutil
import subprocess
import sys
import tempfile

SHAPE = ("8192", "64", "1024")
NUMBER = 7

SQLITE = r"""
import sqlite3, sys
what, rows = sys.argv[1], int(sys.argv[2])
texts, x = [], NUMBER % 2**31
for i in range(rows):
    x = (x * 1103515245 + 12345) % 2**31
    texts.append(chr(97 + x // 65536 % 26).encode() * (20 + x // 65536 % 61))
base = sqlite3.connect("base", isolation_level=None)
base.execute("pragma journal_mode=wal")
base.execute("pragma synchronous=full")
if what == "work":
    base.execute("create table g (number integer primary key, bytes blob)")
    for first in range(0, rows, 100):
        base.execute("begin")
        for text in texts[first : first + 100]:
            base.execute("insert into g (bytes) values (?)", (text,))
        base.execute("commit")
    base.execute("begin")
    for i in range(2, rows + 1, 2):
        base.execute("delete from g where number = ?", (i,))
    base.execute("commit")
    base.execute("vacuum")
    kept = [text for _, text in base.execute("select number, bytes from g order by number")]
    print("rows", len(kept), "bytes", sum(map(len, kept)))
""".replace("NUMBER", str(NUMBER))


def worked(words, folder):
    """The processor time of one process, the most memory that it held, in KiB, and what it printed."""
    with tempfile.TemporaryFile() as sink:
        process = subprocess.Popen(words, cwd=folder, stdin=subprocess.DEVNULL, stdout=sink)
        _, state, usage = os.wait4(process.pid, 0)
        process.returncode = os.waitstatus_to_exitcode(state)
        if process.returncode != 0:
            sys.exit(f"{words[0]} ended with status {process.returncode}")
        sink.seek(0)
        return usage.ru_utime + usage.ru_stime, usage.ru_maxrss, sink.read().decode().strip()


def own(program, rows):
    folder = tempfile.mkdtemp(prefix="assm-bench-")
    try:
        worked([program, "format", *SHAPE], folder)
        return worked([program, "gen", str(NUMBER), str(rows)], folder)
    finally:
        shutil.rmtree(folder)


def its(rows):
    folder = tempfile.mkdtemp(prefix="assm-bench-")
    try:
        words = [sys.executable, "-c", SQLITE]
        start, idle, _ = worked([*words, "nothing", str(rows)], folder)
        taken, held, said = worked([*words, "work", str(rows)], folder)
        return taken - start, held - idle, said
    finally:
        shutil.rmtree(folder)


def main():
    if len(sys.argv) < 2:
        sys.exit(__doc__)
    program = os.path.abspath(sys.argv[1])
    counts = [int(it) for it in sys.argv[2:]] or [1_000, 11_000, 20_000]
    each = []
    for rows in counts:
        mine, held, said = own(program, rows)
        other, others_held, wanted = its(rows)
        if re.search(" refused 0 ", said) is None or not said.endswith(wanted):
            sys.exit(f"{rows} rows: the line is {said!r}, and SQLite has {wanted!r}")
        each.append(mine / rows)
        ratio = f"{mine / other:.1f} times SQLite's {1e3 * other:.0f} ms" if other > 0.005 else "SQLite's too small to tell"
        print(f"{rows} rows: {1e3 * mine:.0f} ms, {1e6 * mine / rows:.0f} us a row, {ratio}; {held / 1024:.0f} MiB beside {others_held / 1024:.0f}", flush=True)
        print(f"  {said}", flush=True)
    if len(counts) > 1:
        print(f"a row at {counts[-1]} beside one at {counts[0]}: {each[-1] / each[0]:.1f}")


main()
