#!/usr/bin/env python3
"""Refuses each system call of a run and of `format` in turn, by name and number.

    tools/try_refused_calls.py PROGRAM

A call that a signal interrupts must be made again, so that the run ends as if nothing had been. Any other error must end it
with a status and a line of its cause; what was printed is a first part of the text, and each printed commit is kept. It
needs strace.
"""
from store_tries import Findings, commits, fresh_store, kept_rows, printed_commits, program, run, status
from system_calls import FORMAT, needs_strace, run_with

# The calls that the program makes on files and streams, with an error that each may give.
CALLS = [("flock", "ENOLCK"), ("fsync", "EIO"), ("fdatasync", "EIO"), ("pread64", "EIO"),
         ("pwrite64", "ENOSPC"), ("read", "EIO"), ("write", "ENOSPC")]
AGAIN = ("flock", "fsync", "fdatasync", "pread64", "pwrite64", "read", "write")
STATUSES = {3: "DeviceFault", 7: "ReadFault", 8: "WriteFault"}
TEXT = commits(3) + b"scan t\n"
MOST = 20


def is_told(done):
    """A status's line, and behind it the cause: a file or stream, the call, and what the system said."""
    lines = done.stderr.decode().splitlines()
    return (done.returncode in STATUSES and len(lines) == 2 and lines[0] == f"assm: {STATUSES[done.returncode]}"
            and lines[1].count(": ") == 2)


def is_loaders(done):
    """The call was the system's loader's, before the program began: it gives up at any error."""
    return b"error while loading shared libraries" in done.stderr


def interrupted(path, found, whole):
    for call in AGAIN:
        for nth in range(1, MOST):
            with fresh_store(path) as folder:
                done = run_with(path, folder, ("run",), TEXT, call, "error=EINTR", nth)
                if not is_loaders(done) and (done.returncode != 0 or done.stdout != whole):
                    found.tell(f"EINTR at {call} {nth}: {status(done)}", False)
        found.tell(f"EINTR at each of the first {MOST - 1} calls of {call}, where there are as many")


def refused_runs(path, found, whole):
    for call, error in CALLS:
        words = set()
        for nth in range(1, 1000):
            with fresh_store(path) as folder:
                done = run_with(path, folder, ("run",), TEXT, call, f"error={error}", nth)
                if done.returncode == 0:
                    break
                if is_loaders(done):
                    continue
                words.add(done.stderr.decode().strip().replace("\n", " | "))
                rows, fault = kept_rows(path, folder)
                kept = rows is not None and printed_commits(done.stdout) <= len(rows) <= 3
                if not is_told(done) or not whole.startswith(done.stdout) or not kept:
                    found.tell(f"{error} at {call} {nth}: {status(done)}, {fault or len(rows)} kept", False)
        found.tell(f"{error} at each of {nth - 1} calls of {call}: " + "; ".join(sorted(words)))


def refused_formats(path, found):
    for call, error in CALLS:
        for nth in range(1, 1000):
            with fresh_store(path, formatted=False) as folder:
                done = run_with(path, folder, FORMAT, b"", call, f"error={error}", nth)
                if done.returncode == 0:
                    break
                if is_loaders(done):
                    continue
                again = run(path, folder, b"", words=FORMAT)
                if not is_told(done) or again.returncode not in (0, 10):
                    found.tell(f"format, {error} at {call} {nth}: {status(done)}, then {status(again)}", False)
        found.tell(f"format with {error} at each of {nth - 1} calls of {call}")


def main():
    path = program()
    needs_strace()
    found = Findings()
    with fresh_store(path) as folder:
        whole = run(path, folder, TEXT).stdout
    interrupted(path, found, whole)
    refused_runs(path, found, whole)
    refused_formats(path, found)
    found.end()


main()
