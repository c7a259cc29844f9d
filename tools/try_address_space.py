#!/usr/bin/env python3
"""Runs a large script in little address space: want of memory must be answered, and never be a crash.

    tools/try_address_space.py PROGRAM

50,000 rows in 20 commits, under limits from 4 to 400 MB. Each run must end with Done or NoMemory, and a second process
must find the rows of each commit that was printed.
"""
import resource

from store_tries import Findings, fresh_store, kept_rows, printed_commits, program, run, script, status

ROWS, COMMITS = 50_000, 20


def large():
    each = ROWS // COMMITS
    statements = ["table t 10"]
    for i in range(1, ROWS + 1):
        statements.append(f"insert t @r{i} row{i}")
        if i % each == 0:
            statements.append("commit")
    return script(statements + ["scan t"])


def main():
    path = program()
    text = large()
    found = Findings()
    for megabytes in (4, 8, 12, 16, 24, 32, 48, 64, 80, 100, 200, 400):
        with fresh_store(path) as folder:
            done = run(path, folder, text, limits=[(resource.RLIMIT_AS, megabytes << 20)])
            printed = printed_commits(done.stdout)
            rows, fault = kept_rows(path, folder)
            kept = "not opened: " + fault if rows is None else f"{len(rows)} rows kept"
            enough = rows is None and "no table" in fault or rows is not None and len(rows) >= printed * (ROWS // COMMITS)
            found.tell(f"{megabytes} MB: {status(done)}, {printed} commits printed, {kept}", done.returncode in (0, 4) and enough)
    found.end()


main()
