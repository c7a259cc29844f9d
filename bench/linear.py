#!/usr/bin/env python3
"""Whether the program's time grows with the work asked for, and no faster.

    bench/linear.py PROGRAM

Each line is one kind of script, run at a size and at twice that size in fresh folders, with the processor time and the
time on the clock of each, and the ratio of the two processor times: about 2 where the work is linear. The clock also has
the waiting for the disk, and for other processes. Sizes are such that starting the program counts for little. Where
`strace` is installed, the last line counts the syncs that a commit takes through the real files. Nothing here is a test.
"""
import os
import resource
import shutil
import subprocess
import sys
import tempfile
import time


def script(statements):
    return ("session 1\ntable t 10\n" + "\n".join(statements) + "\n").encode()


def inserts(count):
    """One transaction of so many inserts, its commit, and a scan."""
    return script([f"insert t @r{i} row{i}" for i in range(count)] + ["commit", "scan t"])


def commits(count):
    """So many inserts of one row, each with its commit."""
    return script([line for i in range(count) for line in (f"insert t @r{i} row{i}", "commit")])


def fresh(program):
    """A folder with a new store, or an empty one where the program keeps no files."""
    folder = tempfile.mkdtemp(prefix="assm-bench-")
    subprocess.run([program, "format", "8192", "64", "1024"], cwd=folder, capture_output=True, check=False)
    return folder


def worked():
    """The processor time of the processes that have ended."""
    used = resource.getrusage(resource.RUSAGE_CHILDREN)
    return used.ru_utime + used.ru_stime


def seconds(program, text):
    """The processor time and the time on the clock of a run."""
    folder = fresh(program)
    try:
        before, start = worked(), time.perf_counter()
        done = subprocess.run([program, "run"], input=text, cwd=folder, capture_output=True, check=False)
        taken = worked() - before, time.perf_counter() - start
        if done.returncode != 0 or b" refused " in done.stdout:
            sys.exit(f"status {done.returncode}: {done.stderr.decode()}, or a statement was refused")
        return taken
    finally:
        shutil.rmtree(folder)


def ratio(program, name, make, size):
    small, large = seconds(program, make(size)), seconds(program, make(2 * size))
    times = ", ".join(f"{count} in {cpu:.2f} s ({clock:.2f} s on the clock)" for count, (cpu, clock) in ((size, small), (2 * size, large)))
    print(f"{name}: {times}, ratio {large[0] / small[0]:.2f}")


def syncs(program, count):
    if shutil.which("strace") is None:
        print("syncs: not counted, strace is not installed")
        return
    folder = fresh(program)
    try:
        log = os.path.join(folder, "calls")
        trace = ["strace", "-f", "-c", "-e", "trace=fsync,fdatasync", "-o", log, program, "run"]
        subprocess.run(trace, input=commits(count), cwd=folder, capture_output=True, check=True)
        calls = sum(int(line.split()[3]) for line in open(log) if "sync" in line and line.split()[3].isdigit())
        print(f"syncs: {calls} for {count} commits, {calls / count:.2f} each")
    finally:
        shutil.rmtree(folder)


def main():
    if len(sys.argv) != 2:
        sys.exit(__doc__)
    program = os.path.abspath(sys.argv[1])
    ratio(program, "inserts in one transaction, and a scan", inserts, 20_000)
    ratio(program, "inserts, each with its commit", commits, 2_000)
    syncs(program, 2_000)


main()
