#!/usr/bin/env python3
"""Runs the program twice at once in one folder.

    tools/try_two_runs.py PROGRAM

Twenty pairs of runs, each of 400 commits: one of two that meet must be refused before it reads or writes anything, and all
commits that were printed must be kept. Forty pairs of `format` in an empty folder: at most one makes the store, and it can
be used.
"""
import subprocess

from store_tries import Findings, commits, fresh_store, kept_rows, printed_commits, program, run, status

REFUSED = "assm: DeviceFault\nassm.log: lock: another process has the store open\n"
FORMAT = ("format", "64", "8", "2")


def both(path, folder, words, text):
    """Two runs that begin together, each as its status, its output and its errors. No run touches the store before its
    script has ended, so that both begin when their inputs close."""
    pipe = subprocess.PIPE
    runs = [subprocess.Popen([path, *words], cwd=folder, stdin=pipe, stdout=pipe, stderr=pipe) for _ in range(2)]
    for one in runs:
        one.stdin.write(text)
    for one in runs:
        one.stdin.close()
        one.stdin = None
    ended = [(one, *one.communicate(timeout=120)) for one in runs]
    return [(one.returncode, out, err.decode()) for one, out, err in ended]


def pairs_of_runs(path, found):
    refused = lost = 0
    for _ in range(20):
        with fresh_store(path) as folder:
            ended = both(path, folder, ("run",), commits(400))
            statuses = sorted(code for code, _, _ in ended)
            if statuses not in ([0, 0], [0, 3]):
                found.tell(f"two runs ended with {statuses}", False)
            for code, out, err in ended:
                refused += code == 3
                if code == 3 and (err != REFUSED or out):
                    found.tell(f"a refused run printed {err!r}", False)
            rows, _ = kept_rows(path, folder)
            lost += rows is None or len(rows) != sum(printed_commits(out) for _, out, _ in ended)
    found.tell(f"20 pairs of runs: {refused} refused, {lost} pairs lost or gained commits", refused > 0 and lost == 0)


def pairs_of_formats(path, found):
    made = 0
    for _ in range(40):
        with fresh_store(path, formatted=False) as folder:
            statuses = sorted(code for code, _, _ in both(path, folder, FORMAT, b""))
            if statuses not in ([0, 3], [0, 10], [3, 3]):
                found.tell(f"two formats ended with {statuses}", False)
            if statuses[0] == 0:
                made += 1
                after = run(path, folder, commits(3))
                if after.returncode != 0:
                    found.tell(f"a store made beside another try: {status(after)}", False)
    found.tell(f"40 pairs of formats: {made} made a store, and it could be used")


def main():
    path = program()
    found = Findings()
    pairs_of_runs(path, found)
    pairs_of_formats(path, found)
    found.end()


main()
