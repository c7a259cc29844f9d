#!/usr/bin/env python3
"""Kills the program in the middle of a run, and looks at what a second process finds.

    tools/try_kill.py PROGRAM [TIMES]

A run of 20,000 inserts, each with its commit, is ended by `kill -9` after some of its lines, by default four times. The
rows that are there then must be the first ones, at least as many as commits were printed. This tries a process that
stops, not a machine: the operating system writes its caches all the same.
"""
import os
import subprocess
import sys
import time

from store_tries import Findings, commits, fresh_store, kept_rows, printed_commits, program

INSERTS = 20_000


def killed(path, folder, lines):
    """What a run had printed when it was killed, after so many lines at least."""
    out = os.path.join(folder, "printed")
    with open(out, "wb") as sink:
        process = subprocess.Popen([path, "run"], cwd=folder, stdin=subprocess.PIPE, stdout=sink, stderr=subprocess.DEVNULL)
        process.stdin.write(commits(INSERTS))
        process.stdin.close()
        while process.poll() is None and os.path.getsize(out) < 20 * lines:
            time.sleep(0.001)
        process.kill()
        process.wait()
    with open(out, "rb") as printed:
        return printed.read()


def main():
    path = program()
    times = int(sys.argv[2]) if len(sys.argv) > 2 else 4
    found = Findings()
    for turn in range(times):
        with fresh_store(path) as folder:
            printed = printed_commits(killed(path, folder, 2_000 * (turn + 1)))
            rows, fault = kept_rows(path, folder)
            if rows is None:
                found.tell(f"{printed} commits printed, and then {fault}", False)
                continue
            first = rows == [f"{i} row{i}" for i in range(1, len(rows) + 1)]
            whole = printed < INSERTS and printed <= len(rows)
            found.tell(f"{printed} commits printed, {len(rows)} rows kept", first and whole)
    found.end()


main()
