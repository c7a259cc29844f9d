#!/usr/bin/env python3
"""Writes a script of exactly SIZE bytes to standard output: one session that makes a table, inserts rows of
WIDTH bytes each with a label of its own, commits and scans. The last row is as long as SIZE asks for.

    tools/large_script.py SIZE [WIDTH]
"""
import sys

LONGEST_ROW = 1800


def script(size, width):
    head = b"session 1\ntable t 10\n"
    tail = b"commit\nscan t\n"
    left = size - len(head) - len(tail)
    if left < 0:
        sys.exit(f"a script has at least {len(head) + len(tail)} bytes")
    pieces = [head]
    number = 1
    while left > 0:
        front = b"insert t @r%d " % number
        line = len(front) + width + 1
        # The last line takes all that is left, so that the size is met exactly.
        if left < 2 * line:
            line = left
        row = line - len(front) - 1
        if row < 1 or row > LONGEST_ROW:
            sys.exit(f"{left} bytes left make no row: choose another size or width")
        pieces.append(front + b"x" * row + b"\n")
        left -= line
        number += 1
    pieces.append(tail)
    return b"".join(pieces)


def main():
    if len(sys.argv) not in (2, 3):
        sys.exit(__doc__)
    size = int(sys.argv[1])
    width = int(sys.argv[2]) if len(sys.argv) == 3 else 10
    sys.stdout.buffer.write(script(size, width))


main()
