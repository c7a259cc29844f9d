#!/usr/bin/env python3
"""Runs the program with standard streams that are closed.

    tools/try_closed_streams.py PROGRAM

A stream that is closed must be answered by its status, and no file of the store may take its place: what a second process
finds afterwards must be what the runs before had committed.
"""
import os
import subprocess

from store_tries import Findings, fresh_store, kept_rows, program, run, script

KEPT = ["1 one"]


def closed_run(path, folder, streams, words=("run",)):
    """The status of a run with these streams closed."""

    def close():
        for number in streams:
            os.close(number)

    text = script(["insert t @b two", "commit"])
    process = subprocess.Popen([path, *words], cwd=folder, preexec_fn=close, stdin=subprocess.PIPE, stdout=subprocess.PIPE, stderr=subprocess.PIPE)
    out, _ = process.communicate(text)
    return process.returncode, out


def main():
    path = program()
    found = Findings()
    names = {0: "input", 1: "output", 2: "error"}
    for streams, status in (((0,), 7), ((0, 1), 7), ((0, 1, 2), 7), ((0, 2), 7), ((1,), 8), ((1, 2), 8), ((2,), 0)):
        with fresh_store(path) as folder:
            run(path, folder, script(["table t 10", "insert t @a one", "commit"]))
            number, _ = closed_run(path, folder, streams)
            rows, fault = kept_rows(path, folder)
            what = ", ".join(names[n] for n in streams)
            # A commit that could not be printed may be there all the same.
            good = number == status and rows is not None and rows[:1] == KEPT and (status != 7 or rows == KEPT)
            found.tell(f"{what} closed: status {number}, then {fault or rows}", good)
    found.end()


main()
