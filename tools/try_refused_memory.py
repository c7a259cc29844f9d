#!/usr/bin/env python3
"""Refuses one request for memory after the other, over a small run.

    tools/try_refused_memory.py PROGRAM

A library that is loaded before the C library counts the requests of a process, and refuses the Nth, or each from the Nth
on. For each N the run must end with NoMemory and a first part of the text that it prints otherwise, or with Done and all of
it (the refusal did no harm), and a second process must find the rows of each commit that was printed. It needs a C
compiler, `cc`.
"""
import os
import subprocess
import sys
import tempfile

from store_tries import Findings, fresh_store, kept_rows, printed_commits, program, run, script, status

COUNTING = r"""
#include <stdio.h>
#include <stdlib.h>
extern void *__libc_malloc(size_t), *__libc_calloc(size_t, size_t), *__libc_realloc(void *, size_t), *__libc_memalign(size_t, size_t);
static long count;
static long number(const char *name) { char *text = getenv(name); return text ? atol(text) : 0; }
static int is_refused(void) {
    long nth = number("REFUSE_NTH"), from = number("REFUSE_FROM");
    count++;
    return count == nth || (from && count >= from);
}
void *malloc(size_t size) { return is_refused() ? NULL : __libc_malloc(size); }
void *calloc(size_t n, size_t size) { return is_refused() ? NULL : __libc_calloc(n, size); }
void *realloc(void *old, size_t size) { return is_refused() ? NULL : __libc_realloc(old, size); }
void *memalign(size_t to, size_t size) { return is_refused() ? NULL : __libc_memalign(to, size); }
void *aligned_alloc(size_t to, size_t size) { return memalign(to, size); }
int posix_memalign(void **made, size_t to, size_t size) { void *at = memalign(to, size); if (!at) return 12; *made = at; return 0; }
__attribute__((destructor)) static void tell(void) {
    char *name = getenv("COUNT_FILE");
    FILE *file = name ? fopen(name, "w") : NULL;
    if (file) { fprintf(file, "%ld", count); fclose(file); }
}
"""

SMALL = ("64", "8", "2")
SCRIPT = script(["table t 10", "insert t @a hello", "commit", "scan t", "insert t @b world", "scan u", "commit"])


def library(folder):
    source, made = os.path.join(folder, "counting.c"), os.path.join(folder, "counting.so")
    with open(source, "w", encoding="ascii") as file:
        file.write(COUNTING)
    subprocess.run(["cc", "-shared", "-fPIC", "-O1", "-fno-builtin", "-o", made, source], check=True)
    return made


def one(path, counting, words, **variables):
    """How a run went, and what was there afterwards."""
    with fresh_store(path, formatted=words == ("run",), shape=SMALL) as folder:
        environment = {**os.environ, "LD_PRELOAD": counting, **variables}
        done = run(path, folder, SCRIPT, words=words, env=environment)
        rows, fault = kept_rows(path, folder)
        return done, rows, fault


def requests(path, counting, words):
    """How many requests the whole run makes, and what it prints."""
    with tempfile.NamedTemporaryFile() as file:
        done, _, _ = one(path, counting, words, COUNT_FILE=file.name)
        return int(file.read()), done.stdout


def is_good(done, rows, whole):
    """The answer is one of the two, and what was printed is there."""
    answered = done.returncode == 4 and whole.startswith(done.stdout) or done.returncode == 0 and done.stdout == whole
    return answered and (printed_commits(done.stdout) == 0 or rows is not None and len(rows) >= printed_commits(done.stdout))


def ranges(numbers):
    """Numbers as ranges."""
    text, start = [], None
    for i, n in enumerate(numbers):
        start = n if start is None else start
        if i + 1 == len(numbers) or numbers[i + 1] != n + 1:
            text.append(f"{start}" if start == n else f"{start} to {n}")
            start = None
    return ", ".join(text) or "none"


def main():
    path = program()
    found = Findings()
    with tempfile.TemporaryDirectory() as folder:
        counting = library(folder)
        for words in (("run",), ("format", "64", "8", "2")):
            count, whole = requests(path, counting, words)
            for variable, what in (("REFUSE_NTH", "the Nth request refused"), ("REFUSE_FROM", "each from the Nth on")):
                ends = {}
                for n in range(1, count + 2):
                    done, rows, _ = one(path, counting, words, **{variable: str(n)})
                    ends.setdefault(status(done), []).append(n)
                    if not is_good(done, rows, whole):
                        found.tell(f"{words[0]}, {what}, N = {n}: {status(done)}, printed {done.stdout!r}, then {rows}", False)
                told = "; ".join(f"{end} for N = {ranges(numbers)}" for end, numbers in ends.items())
                found.tell(f"{words[0]}, {count} requests, {what}: {told}")
    found.end()


if len(sys.argv) == 2:
    main()
else:
    sys.exit(__doc__)
