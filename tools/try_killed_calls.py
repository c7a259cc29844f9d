#!/usr/bin/env python3
"""Kills the program at each of its writes and syncs in turn, as it enters the call, and opens the store again.

    tools/try_killed_calls.py PROGRAM

Of a run each commit that was printed must be kept, and at most one more. After a killed `format` the store must be there, or
`format` must make it. It needs strace.
"""
from store_tries import Findings, commits, fresh_store, kept_rows, printed_commits, program, run, status
from system_calls import FORMAT, needs_strace, run_with

COMMITS = 6


def killed_runs(path, found):
    for call in ("pwrite64", "fdatasync", "fsync", "write"):
        nth, ended = 0, False
        while not ended:
            nth += 1
            with fresh_store(path) as folder:
                killed = run_with(path, folder, ("run",), commits(COMMITS), call, "signal=KILL", nth)
                ended = killed.returncode == 0
                printed = printed_commits(killed.stdout)
                rows, fault = kept_rows(path, folder)
                if rows is None or not printed <= len(rows) <= printed + 1:
                    found.tell(f"run killed at {call} {nth}: {printed} printed, {fault or len(rows)} kept", False)
        found.tell(f"run killed at each of {nth - 1} calls of {call}")


def killed_formats(path, found):
    for call in ("openat", "pwrite64", "fsync", "fdatasync"):
        nth, ended = 0, False
        while not ended:
            nth += 1
            with fresh_store(path, formatted=False) as folder:
                ended = run_with(path, folder, FORMAT, b"", call, "signal=KILL", nth).returncode == 0
                again = run(path, folder, b"", words=FORMAT)
                after = run(path, folder, commits(2))
                if again.returncode not in (0, 10) or after.returncode != 0:
                    found.tell(f"format killed at {call} {nth}: {status(again)}, then {status(after)}", False)
        found.tell(f"format killed at each of {nth - 1} calls of {call}")


def main():
    path = program()
    needs_strace()
    found = Findings()
    killed_runs(path, found)
    killed_formats(path, found)
    found.end()


main()
