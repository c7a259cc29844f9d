#!/usr/bin/env python3
"""Breaks the files of a store, one byte or one length at a time, and looks at the status of a run.

    tools/try_broken_files.py PROGRAM

The files are made here, by hand, as docs/FORMAT.md has them: a store of 64 blocks with one table, one row and one commit.
What each case must answer is worked out from that page. `format` must leave every formatted log as it is.
"""
import os

from store_tries import Findings, fresh_store, program, run, script, status


def u(width, number):
    return number.to_bytes(width, "big")


def image(kind, writer, block, seq, place, row, text):
    """A slot and its row: nothing is linked, and the room is the row's length."""
    tag, number = writer
    return (u(1, kind) + u(1, tag) + u(8, number) + u(4, block) + u(8, seq) + u(1, place) + u(8, row) + u(4, 0) + u(1, 0)
            + u(2, len(text)) + u(2, len(text)) + text)


HEAD = b"\x01ASSMSEG1" + u(4, 64) + u(4, 8) + u(4, 2) + bytes(42)
TABLE = b"\x01" + u(1, 1) + u(4, 42) + u(1, 10) + u(1, 1) + b"t"
EXTEND = b"\x03" + u(1, 1) + u(4, 42) + u(2, 0) + u(4, 0) + u(4, 40) + u(4, 41)
ADVANCE = b"\x06" + u(1, 1) + u(4, 42) + u(4, 0) + u(4, 4)
FORMAT = b"\x04" + u(1, 1) + u(4, 43) + u(4, 40) + u(4, 41) + u(2, 0) + u(1, 5) + u(1, 5)
BEGIN = b"\x08" + u(8, 1) + u(1, 1) + u(1, 0) + u(8, 0)
REUSE = b"\x09" + u(4, 37) + u(8, 1)
INSERT = (b"\x0a" + u(8, 1) + u(1, 0) + u(1, 1) + u(8, 1) + u(4, 37) + u(8, 1) + u(1, 0) + u(4, 0) + u(1, 0) + u(1, 1)
          + u(4, 43) + u(1, 0) + u(1, 0) + image(1, (1, 1), 37, 1, 0, 1, b"hello") + image(0, (0, 0), 0, 0, 0, 0, b""))
COMMIT = b"\x0f" + u(8, 1) + u(8, 1) + u(1, 0)
RECORDS = [TABLE, EXTEND, ADVANCE, FORMAT, BEGIN, REUSE, INSERT, COMMIT]
PAYLOAD = b"".join(RECORDS)
LOG = HEAD + b"\x01" + u(4, len(PAYLOAD)) + PAYLOAD + b"\x00"
DATA = bytes(64 * 4096)
WHOLE = "0 1.1 scan t at 1 rows 1/  1 hello"
EMPTY = "0 1.1 refused no table"


def place(record):
    """Where a record begins in the log."""
    return len(HEAD) + 5 + len(b"".join(RECORDS[:RECORDS.index(record)]))


def with_byte(at, byte):
    return LOG[:at] + bytes([byte]) + LOG[at + 1:]


def with_bytes(at, some):
    return LOG[:at] + some + LOG[at + len(some):]


END = len(LOG) - 1
ROW = place(INSERT) + INSERT.index(b"hello")
CASES = [
    ("as it was made", DATA, LOG, WHOLE),
    ("a longer data file", DATA + b"x", LOG, WHOLE),
    ("bytes behind the closed gate", DATA, LOG + b"\x01rest", WHOLE),
    ("another letter of the row", DATA, with_byte(ROW, ord("j")), "0 1.1 scan t at 1 rows 1/  1 jello"),
    ("the group's gate closed", DATA, with_byte(63, 0), EMPTY),
    ("the group's gate 2", DATA, with_byte(63, 2), EMPTY),
    ("no log", DATA, b"", "6 NotFormatted"),
    ("a log of 63 bytes", DATA, LOG[:63], "6 NotFormatted"),
    ("the head's gate closed", DATA, with_byte(0, 0), "6 NotFormatted"),
    ("the head's gate 2", DATA, with_byte(0, 2), "6 NotFormatted"),
    ("a wrong name", DATA, with_byte(1, 0), "5 BadFile log 1 0"),
    ("the name of the plain records' log", DATA, with_byte(8, ord("0")), "5 BadFile log 8 48"),
    ("63 blocks", DATA, with_byte(12, 63), "5 BadFile log 9 0"),
    ("extents of 7", DATA, with_byte(16, 7), "5 BadFile log 13 0"),
    ("1 undo block", DATA, with_byte(20, 1), "5 BadFile log 17 0"),
    ("no room for an extent", DATA, with_byte(20, 20), "5 BadFile log 17 0"),
    ("a byte among the zeros", DATA, with_byte(21, 7), "5 BadFile log 21 7"),
    ("the last of the zeros", DATA, with_byte(62, 1), "5 BadFile log 62 1"),
    ("a data file of one byte less", DATA[:-1], LOG, "5 BadFile data 262143 0"),
    ("an empty data file", b"", LOG, "5 BadFile data 0 0"),
    ("a group without its length", DATA, LOG[:66], "5 BadFile log 66 0"),
    ("a group that is cut", DATA, LOG[:100], "5 BadFile log 100 0"),
    ("a group without the next gate", DATA, LOG[:END], f"5 BadFile log {END} 0"),
    ("a group of length 0", DATA, with_bytes(64, u(4, 0)), "5 BadFile log 64 0"),
    ("a group that is too long", DATA, with_bytes(64, u(4, len(PAYLOAD) + 1)), f"5 BadFile log {END + 1} 0"),
    ("no kind of record", DATA, with_byte(68, 20), "5 BadFile log 68 20"),
    ("a name that is none", DATA, with_byte(place(TABLE) + 8, ord("T")), "5 BadFile log 68 1"),
    ("PCTFREE 51", DATA, with_byte(place(TABLE) + 6, 51), "5 BadFile log 68 1"),
    ("a record that the payload cuts", DATA, with_bytes(64, u(4, len(PAYLOAD) - 1)), f"5 BadFile log {place(COMMIT)} 15"),
    ("a header where none is", DATA, with_byte(place(ADVANCE) + 5, 43), f"5 BadFile data {43 * 4096} 0"),
    ("a row in a slot that isn't the next", DATA, with_byte(place(INSERT) + 42, 1), f"5 BadFile data {43 * 4096} 0"),
    ("undo in a block that isn't in use", DATA, with_byte(place(REUSE) + 4, 39), f"5 BadFile data {37 * 4096} 0"),
]


def put(folder, data, log):
    for name, bytes_ in (("assm.dat", data), ("assm.log", log)):
        with open(os.path.join(folder, name), "wb") as file:
            file.write(bytes_)


def files(folder):
    return tuple(open(os.path.join(folder, name), "rb").read() for name in ("assm.dat", "assm.log"))


def main():
    path = program()
    found = Findings()
    for name, data, log, expected in CASES:
        with fresh_store(path, formatted=False) as folder:
            put(folder, data, log)
            done = run(path, folder, script(["scan t"]))
            told = status(done) + (" " + done.stdout.decode().rstrip("\n").replace("\n", "/") if done.returncode == 0 else "")
            same = files(folder) == (data, log)
            made = run(path, folder, b"", words=("format", "64", "8", "2"))
            is_formatted = len(log) >= 64 and log[0] == 1
            kept = made.returncode == (10 if is_formatted else 0) and (not is_formatted or files(folder) == (data, log))
            good = told == expected and same and kept
            found.tell(f"{name}: {told}" + ("" if good else f", where {expected} was due, files {'the same' if same else 'changed'}; format: {status(made)}"), good)
    found.end()


main()
