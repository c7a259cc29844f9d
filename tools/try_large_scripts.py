#!/usr/bin/env python3
"""Runs the greatest scripts, and tells time and memory.

    tools/try_large_scripts.py PROGRAM

Scripts of 16 MiB, the most that is read: rows of 60 and of 5 bytes, refused at the last line, then run to their ends; a
million scans before a bad line; 2.4 million commits. Each must end with its status. One byte more is ScriptTooLong. The
processor time and the memory are those of one run on this machine, and no test.
"""
import os
import subprocess
import sys
import tempfile

from store_tries import Findings, fresh_store, program

HERE = os.path.dirname(os.path.abspath(__file__))
MOST = 1 << 24
LARGE = ("16384", "64", "64")


def rows(width, size=MOST):
    made = subprocess.run([sys.executable, os.path.join(HERE, "large_script.py"), str(size), str(width)], check=True, capture_output=True)
    return made.stdout


def refused(text):
    """The same script with a last line that is none, of the same length."""
    return text[:-2] + b"?\n"


def measured(path, folder, text):
    """Status, processor time and peak memory of a run whose output is thrown away."""
    with tempfile.TemporaryFile() as source:
        source.write(text)
        source.seek(0)
        process = subprocess.Popen([path, "run"], cwd=folder, stdin=source, stdout=subprocess.DEVNULL, stderr=subprocess.DEVNULL)
        _, state, usage = os.wait4(process.pid, 0)
        process.returncode = os.waitstatus_to_exitcode(state)
        return process.returncode, usage.ru_utime + usage.ru_stime, usage.ru_maxrss // 1024


def main():
    path = program()
    found = Findings()
    wide, narrow = rows(60), rows(5)
    scans = b"session 1\n" + b"scan t\n" * 1_000_000 + b"scan T\n"
    only_commits = b"session 1\n" + b"commit\n" * ((MOST - 10) // 7)
    cases = (
        ("rows of 60 bytes, refused at the last line", refused(wide), 2),
        ("rows of 5 bytes, refused at the last line", refused(narrow), 2),
        ("rows of 60 bytes, run to the end", wide, 0),
        ("rows of 5 bytes, run to the end", narrow, 0),
        ("a million scans before a bad line", scans, 2),
        (f"{only_commits.count(b'commit')} commits of nothing", only_commits, 0),
        ("one byte more", wide + b"\n", 9),
    )
    for name, text, status in cases:
        with fresh_store(path, shape=LARGE) as folder:
            number, seconds, megabytes = measured(path, folder, text)
            found.tell(f"{name}, {len(text)} bytes: status {number}, {seconds:.2f} s, {megabytes} MiB at most", number == status)
    found.end()


main()
