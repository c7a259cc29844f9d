#!/usr/bin/env python3
"""What it costs a scan that half of its rows were updated since its snapshot.

    bench/updated_scan.py PROGRAM [ROWS]

ROWS rows of 60 bytes, by default 20,000, are committed, and twenty sessions each open a scan. Then a session updates every
second row and commits, either once all scans are done, or before they read their first block, so that each of them goes back
through undo for half of its rows. A third run has no scans; what it takes is left out of both. The ratio is of the processor
times of the scans, each the least of three runs. Nothing here is a test, and on a busy machine the loading, which takes
most of the time, hides the scans.
"""
import os
import resource
import shutil
import subprocess
import sys
import tempfile

SCANS = 20
# more events than any session makes: an item for a session that has ended is passed over
ALL = 1_000_000


def script(rows, scans, schedule):
    row, new = "x" * 60, "y" * 60
    lines = ["session 1", "table t 10"]
    for i in range(rows):
        lines.append(f"insert t @r{i} {row}")
        if i % 1_000 == 999:
            lines.append("commit")
    lines.append("commit")
    for who in range(2, 2 + scans):
        lines += [f"session {who}", "scan t"]
    lines.append(f"session {2 + scans}")
    for i in range(0, rows, 2):
        lines.append(f"update t @r{i} {new}")
        if i % 1_000 == 998:
            lines.append("commit")
    lines += ["commit", "schedule " + " ".join(schedule)]
    return ("\n".join(lines) + "\n").encode()


def seconds(program, text):
    folder = tempfile.mkdtemp(prefix="assm-bench-")
    try:
        subprocess.run([program, "format", "8192", "64", "1024"], cwd=folder, capture_output=True, check=True)
        before = resource.getrusage(resource.RUSAGE_CHILDREN)
        done = subprocess.run([program, "run"], input=text, cwd=folder, capture_output=True, check=False)
        after = resource.getrusage(resource.RUSAGE_CHILDREN)
        if done.returncode != 0 or b" refused " in done.stdout:
            sys.exit(f"status {done.returncode}: {done.stderr.decode()}, or a statement was refused")
        return after.ru_utime + after.ru_stime - before.ru_utime - before.ru_stime, done.stdout.count(b" rows ")
    finally:
        shutil.rmtree(folder)


def least(program, text):
    """The least processor time of three runs, and how many scans each printed."""
    return min(seconds(program, text) for _ in range(3))


def main():
    if len(sys.argv) < 2:
        sys.exit(__doc__)
    program = os.path.abspath(sys.argv[1])
    rows = int(sys.argv[2]) if len(sys.argv) > 2 else 20_000
    load, last = [f"1x{ALL}"], f"{2 + SCANS}x{ALL}"
    scanners = range(2, 2 + SCANS)
    none, _ = least(program, script(rows, 0, load))
    plain, done = least(program, script(rows, SCANS, load + [f"{who}x{ALL}" for who in scanners] + [last]))
    updated, also = least(program, script(rows, SCANS, load + [str(who) for who in scanners] + [last]))
    if (done, also) != (SCANS, SCANS):
        sys.exit("not all scans were printed")
    print(f"{SCANS} scans of {rows} rows: {plain - none:.2f} s of none updated since, {updated - none:.2f} s of half of them, ratio {(updated - none) / (plain - none):.2f}")


main()
