"""What the scripts that stand between the program and the system share: strace answers a call in the system's place, or ends
the program as it enters the call."""
import shutil
import subprocess
import sys

SECONDS = 60
FORMAT = ("format", "64", "8", "2")


def needs_strace():
    if shutil.which("strace") is None:
        print("not tried: there is no strace")
        sys.exit(0)


def run_with(path, folder, words, text, call, what, nth):
    """A run in which the nth call of that name meets this: `error=EIO`, or `signal=KILL`."""
    trace = ["strace", "-f", "-qq", "-o", "/dev/null", "-e", f"trace={call}", "-e", f"inject={call}:{what}:when={nth}"]
    return subprocess.run([*trace, path, *words], cwd=folder, input=text, capture_output=True, timeout=SECONDS,
                          check=False)
