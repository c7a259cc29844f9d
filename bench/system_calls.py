#!/usr/bin/env python3
"""The system calls of a commit, counted through the real files: those of a run of 300 commits less those of a run of 100,
each of one inserted row, over 200.

    bench/system_calls.py PROGRAM

It needs strace. The numbers are exact, and don't depend on the machine's load.
"""
import os
import shutil
import subprocess
import sys
import tempfile


def script(commits):
    lines = ["session 1", "table t 10"]
    for number in range(commits):
        lines += [f"insert t @r{number} row{number}", "commit"]
    return ("\n".join(lines) + "\n").encode()


def counts(program, commits):
    """How often each call was made in a run of so many commits."""
    folder = tempfile.mkdtemp(prefix="assm-bench-")
    try:
        subprocess.run([program, "format", "64", "8", "2"], cwd=folder, capture_output=True, check=True)
        trace = os.path.join(folder, "trace")
        done = subprocess.run(["strace", "-f", "-o", trace, program, "run"], cwd=folder, input=script(commits),
                              capture_output=True, check=False)
        if done.returncode != 0:
            sys.exit(f"status {done.returncode}: {done.stderr.decode()}")
        found = {}
        with open(trace, encoding="ascii", errors="replace") as lines:
            for line in lines:
                name = line.split(maxsplit=1)[-1].split("(")[0]
                found[name] = found.get(name, 0) + 1
        return found
    finally:
        shutil.rmtree(folder)


def main():
    if len(sys.argv) != 2:
        sys.exit(__doc__)
    if shutil.which("strace") is None:
        sys.exit("not counted: there is no strace")
    program = os.path.abspath(sys.argv[1])
    few, many = counts(program, 100), counts(program, 300)
    for name in sorted(many):
        each = (many[name] - few.get(name, 0)) / 200
        # Reading a longer script and making room for it is no part of a commit.
        if each >= 0.5:
            print(f"{name}: {each:.2f} a commit")


main()
