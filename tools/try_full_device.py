#!/usr/bin/env python3
"""Runs the program where output or files have no room left.

    tools/try_full_device.py PROGRAM

First with the device /dev/full as standard output: each entry's line fails, with status WriteFault. Then with files that
may not grow past a limit (the operating system refuses a write there as a full disk does): `format` must end with
DeviceFault and can be called again; a run must end with DeviceFault, and a second process must find the rows of each
commit that was printed.
"""
import resource
import signal

from store_tries import Findings, commits, fresh_store, kept_rows, printed_commits, program, run, script, status

# A write past the limit then fails, in place of ending the process.
signal.signal(signal.SIGXFSZ, signal.SIG_IGN)


def full_output(path, found):
    with open("/dev/full", "wb") as full, fresh_store(path) as folder:
        done = run(path, folder, script(["table t 10", "insert t @a a", "commit"]), stdout=full)
        found.tell(f"full output: {status(done)}", done.returncode == 8)
        done = run(path, folder, b"", words=("format", "64", "8", "2"), stdout=full)
        found.tell(f"full output, format of a store that is there: {status(done)}", done.returncode == 10)


def full_format(path, found):
    with fresh_store(path, formatted=False) as folder:
        for most in (0, 40, 100_000, 262_143):
            done = run(path, folder, b"", words=("format", "64", "8", "2"), limits=[(resource.RLIMIT_FSIZE, most)])
            found.tell(f"format, files of at most {most} bytes: {status(done)}", done.returncode == 3)
        done = run(path, folder, b"", words=("format", "64", "8", "2"))
        found.tell(f"format again, without a limit: {status(done)}", done.returncode == 0)


def full_run(path, found):
    for most in (64, 100, 1_000, 20_000, 100_000):
        with fresh_store(path) as folder:
            done = run(path, folder, commits(2_000), limits=[(resource.RLIMIT_FSIZE, most)])
            printed = printed_commits(done.stdout)
            rows, fault = kept_rows(path, folder)
            kept = fault if rows is None else f"{len(rows)} rows kept"
            good = done.returncode == 3 and rows is not None and len(rows) >= printed
            found.tell(f"run, a log of at most {most} bytes: {status(done)}, {printed} commits printed, {kept}", good)


def main():
    path = program()
    found = Findings()
    full_output(path, found)
    full_format(path, found)
    full_run(path, found)
    found.end()


main()
