"""What the scripts that try the built program share: a fresh store, a run, its printed commits, the rows that are kept."""
import contextlib
import os
import re
import resource
import shutil
import signal
import subprocess
import sys
import tempfile

# Of 1,024 blocks 912 are in extents: room for some sixty thousand short rows.
SHAPE = ["1024", "16", "64"]


def program():
    """The path of the built program, the first word of the command line."""
    if len(sys.argv) < 2:
        sys.exit(sys.modules["__main__"].__doc__)
    path = os.path.abspath(sys.argv[1])
    if not os.access(path, os.X_OK):
        sys.exit(f"{path} is no program: `rt run` in crates/assm builds out/assm")
    return path


@contextlib.contextmanager
def fresh_store(path, formatted=True, shape=SHAPE):
    """A fresh folder, with an empty store in it."""
    folder = tempfile.mkdtemp(prefix="assm-try-")
    try:
        if formatted:
            done = subprocess.run([path, "format", *shape], cwd=folder, capture_output=True, check=False)
            if done.returncode != 0:
                sys.exit(f"format ended with status {done.returncode}: {done.stderr.decode()}")
        yield folder
    finally:
        shutil.rmtree(folder)


def run(path, folder, script, words=("run",), limits=(), **streams):
    """A run of the program, under limits of the process's resources. Signals are as this process has set them, but for
    SIGPIPE, which Python ignores."""

    def limit():
        signal.signal(signal.SIGPIPE, signal.SIG_DFL)
        for what, most in limits:
            resource.setrlimit(what, (most, most))

    if "stdin" not in streams:
        streams["input"] = script
    streams.setdefault("stdout", subprocess.PIPE)
    streams.setdefault("stderr", subprocess.PIPE)
    return subprocess.run([path, *words], cwd=folder, check=False, restore_signals=False, preexec_fn=limit, **streams)


def script(statements):
    return ("session 1\n" + "\n".join(statements) + "\n").encode()


def commits(count):
    """A table, and so many inserts of one row, each with its commit."""
    return script(["table t 10"] + [line for i in range(1, count + 1) for line in (f"insert t @r{i} row{i}", "commit")])


def printed_commits(text):
    """How many whole lines of commits were printed."""
    return len(re.findall(rb"^1\.\d+ committed \d+\n", text, re.MULTILINE))


def kept_rows(path, folder):
    """The rows of table t, as a second process scans them, each as its line."""
    done = run(path, folder, script(["scan t"]))
    if done.returncode != 0:
        return None, done.stderr.decode().strip()
    return [line.strip() for line in done.stdout.decode().split("\n")[1:] if line.startswith("  ")], ""


def status(done):
    """How a run ended, as its line says it."""
    if done.returncode < 0:
        return f"killed by signal {-done.returncode}"
    line = (done.stderr or b"").decode().strip()
    return f"{done.returncode} {line.removeprefix('assm: ')}".strip() if line else str(done.returncode)


class Findings:
    """What was found, line by line, and whether all of it is as it should be."""

    def __init__(self):
        self.wrong = 0

    def tell(self, text, good=True):
        print(("" if good else "WRONG: ") + text)
        self.wrong += not good

    def end(self):
        print("all as it should be" if self.wrong == 0 else f"{self.wrong} wrong")
        sys.exit(0 if self.wrong == 0 else 1)
