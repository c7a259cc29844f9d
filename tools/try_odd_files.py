#!/usr/bin/env python3
"""Puts something else in a file's place, or takes its room away.

    tools/try_odd_files.py PROGRAM

A folder, a pipe, a link and a device under each file's name; one file under both names; a missing file, and no store at all;
a log that is cut, removed or made longer while a run has it open; a full file system and one that can't be written, which
are mounted for the try. Each run must end with its status and its cause, must not touch what it refuses, and each printed
commit must be kept. What can't be made here is said to be not tried.
"""
import os
import signal
import subprocess
import tempfile

from store_tries import Findings, commits, fresh_store, kept_rows, printed_commits, program, run, script

FORMAT = ("format", "64", "8", "2")
TEXT = commits(3)
NOT_REGULAR = "open: not a regular file"
IN_USE = "lock: another process has the store open"


def told(found, what, done, code, *lines):
    """The run must end so, and print these lines on standard error."""
    shown = done.stderr.decode().splitlines()
    found.tell(f"{what}: status {done.returncode}, {' | '.join(shown)}", done.returncode == code and shown == list(lines))


def kept(found, what, path, folder, printed):
    rows, fault = kept_rows(path, folder)
    good = rows is not None and printed <= len(rows) <= printed + 1
    found.tell(f"{what}: {printed} commits printed, {fault or len(rows)} kept", good)


def device(name):
    os.mknod(name, 0o600 | 0o020000, os.makedev(1, 3))


def replaced(path, found):
    makers = [("a folder", os.mkdir), ("a pipe", os.mkfifo), ("a device", device),
              ("a link", lambda name: os.symlink("elsewhere", name))]
    for name in ("assm.log", "assm.dat"):
        for what, make in makers:
            with fresh_store(path) as folder:
                place = os.path.join(folder, name)
                os.rename(place, os.path.join(folder, "elsewhere"))
                try:
                    make(place)
                except PermissionError:
                    found.tell(f"{what} as {name}: not tried, it can't be made here")
                    continue
                for words in (("run",), FORMAT):
                    done = run(path, folder, TEXT, words=words)
                    told(found, f"{words[0]}, {what} as {name}", done, 3, "assm: DeviceFault", f"{name}: {NOT_REGULAR}")


def linked(path, found):
    with fresh_store(path) as folder:
        data, log = os.path.join(folder, "assm.dat"), os.path.join(folder, "assm.log")
        os.remove(data)
        os.link(log, data)
        told(found, "one file under both names", run(path, folder, TEXT), 3, "assm: DeviceFault", f"assm.dat: {IN_USE}")


def missing(path, found):
    with fresh_store(path, formatted=False) as folder:
        told(found, "run without a store", run(path, folder, TEXT), 6, "assm: NotFormatted")
        told(found, "no words", run(path, folder, TEXT, words=()), 1, "assm: BadWords")
        told(found, "a bad script", run(path, folder, b"table t 10\n"), 2, "assm: BadScript 1 SessionOrder")
        found.tell(f"the folder then has {os.listdir(folder)}", os.listdir(folder) == [])
    cases = [("assm.log", 6, "assm: NotFormatted"), ("assm.dat", 5, "assm: BadFile data 0 0")]
    for name, code, line in cases:
        with fresh_store(path) as folder:
            os.remove(os.path.join(folder, name))
            told(found, f"{name} is missing", run(path, folder, TEXT), code, line)
            found.tell(f"the folder then has {os.listdir(folder)}", len(os.listdir(folder)) == 1)


def changed(path, found):
    """The run is stopped once it has printed commits, and goes on after the change."""
    changes = [
        ("cut", lambda name: os.truncate(name, 64), 3, ["assm: DeviceFault", "assm.log: write: the file has become shorter"]),
        ("removed", os.remove, 3, ["assm: DeviceFault", "assm.log: write: the file was removed"]),
        ("made longer", lambda name: os.truncate(name, 1 << 20), 0, []),
    ]
    for what, change, code, lines in changes:
        with fresh_store(path) as folder:
            pipe = subprocess.PIPE
            one = subprocess.Popen([path, "run"], cwd=folder, stdin=pipe, stdout=pipe, stderr=pipe)
            one.stdin.write(commits(4000))
            one.stdin.close()
            one.stdin = None
            front = b"".join(one.stdout.readline() for _ in range(20))
            one.send_signal(signal.SIGSTOP)
            change(os.path.join(folder, "assm.log"))
            one.send_signal(signal.SIGCONT)
            rest, err = one.communicate(timeout=120)
            shown = err.decode().splitlines()
            good = one.returncode == code and shown == lines
            found.tell(f"the log is {what} under a run: status {one.returncode}, {' | '.join(shown)}", good)
            if code == 0:
                kept(found, f"a log that was {what}", path, folder, printed_commits(front + rest))


class Mount:
    """A file system in memory, or None where none can be mounted here."""

    def __init__(self, options):
        self.options = options

    def __enter__(self):
        self.folder = tempfile.mkdtemp(prefix="assm-mount-")
        words = ["mount", "-t", "tmpfs", "-o", self.options, "tmpfs", self.folder]
        self.is_there = subprocess.run(words, capture_output=True, check=False).returncode == 0
        return self.folder if self.is_there else None

    def __exit__(self, *_):
        if self.is_there:
            subprocess.run(["umount", self.folder], check=False)
        os.rmdir(self.folder)


def full(path, found):
    with Mount("size=512k") as folder:
        if folder is None:
            found.tell("a full file system: not tried, none can be mounted here")
            return
        told(found, "format in 512 KiB", run(path, folder, b"", words=FORMAT), 0)
        done = run(path, folder, commits(9000))
        told(found, "run on a full file system", done, 3, "assm: DeviceFault", "assm.log: write: No space left on device")
        kept(found, "run on a full file system", path, folder, printed_commits(done.stdout))
    with Mount("size=128k") as folder:
        done = run(path, folder, b"", words=FORMAT)
        told(found, "format in 128 KiB", done, 3, "assm: DeviceFault", "assm.dat: write: No space left on device")


def read_only(path, found):
    with Mount("size=1m") as folder:
        if folder is None:
            found.tell("a file system that can't be written: not tried, none can be mounted here")
            return
        told(found, "format in 1 MiB", run(path, folder, b"", words=FORMAT), 0)
        subprocess.run(["mount", "-o", "remount,ro", folder], check=True)
        done = run(path, folder, script(["scan t"]))
        told(found, "run where nothing can be written", done, 3, "assm: DeviceFault", "assm.log: open: Read-only file system")
    with Mount("size=1m,ro") as folder:
        done = run(path, folder, b"", words=FORMAT)
        told(found, "format where nothing can be written", done, 3, "assm: DeviceFault",
             "assm.dat: make: Read-only file system")


def main():
    path = program()
    found = Findings()
    for what in (replaced, linked, missing, changed, full, read_only):
        what(path, found)
    found.end()


main()
