#!/usr/bin/env python3
"""Tries what the README says of words, statements, entries and statuses, on the built program.

    tools/try_statements.py PROGRAM

Each case is a command line or a script with the text and the status that the README and docs/FORMAT.md give it.
"""
from store_tries import Findings, fresh_store, program, run, script, status

# Undo blocks are 37 and 38, extents begin at 39, 47 and 55, and the first table's data blocks are 43 to 46 and 48 to 54.
SMALL = ("64", "8", "2")

WORDS = [
    (("format", "64", "8", "2"), "0 formatted 64 8 2 extents 3"),
    (("format", "16384", "64", "1024"), "0 formatted 16384 64 1024 extents 239"),
    (("format", "64", "25", "2"), "0 formatted 64 25 2 extents 1"),
    (("format", "64", "26", "2"), "1 BadWords"),
    (("format", "63", "8", "2"), "1 BadWords"),
    (("format", "16385", "8", "2"), "1 BadWords"),
    (("format", "64", "7", "2"), "1 BadWords"),
    (("format", "128", "65", "2"), "1 BadWords"),
    (("format", "64", "8", "1"), "1 BadWords"),
    (("format", "16384", "8", "1025"), "1 BadWords"),
    (("format", "064", "8", "2"), "1 BadWords"),
    (("format", "+64", "8", "2"), "1 BadWords"),
    (("format", "64", "8"), "1 BadWords"),
    (("run", "now"), "1 BadWords"),
    (("--help",), "1 BadWords"),
    ((), "1 BadWords"),
    (("run",), "6 NotFormatted"),
]

NAME30 = "a" + "b1_" * 9 + "zz"
SCRIPTS = [
    (b"", "0"),
    (script([])[:-1], "0"),
    (b"\r\n-- \x00 a comment\nsession 1\r\nscan t\r\n", "0 1.1 refused no table"),
    (script(["table t 10", "insert t @a one", "insert t @b two words", "commit", "scan t"]),
     "0 1.1 table t/1.2 inserted 1/1.3 inserted 2/1.4 committed 1/1.5 scan t at 1 rows 2/  1 one/  2 two words"),
    (script(["table t 10", "table t 0", "commit", "rollback", "scan u", "insert u @a x", "usage u", "movement u on"]),
     "0 1.1 table t/1.2 refused table exists/1.3 nothing to commit/1.4 nothing to roll back/1.5 refused no table/1.6 refused no table"
     "/1.7 refused no table/1.8 refused no table"),
    (script(["table t 10", "insert t @a x", "table u 10", "movement t on", "scan t"]),
     "0 1.1 table t/1.2 inserted 1/1.3 refused transaction open/1.4 refused transaction open/1.5 scan t at 0 rows 1/  1 x/1.end rolled back"),
    (script(["table t 10", "movement t on", "movement t off"]), "0 1.1 table t/1.2 movement t on/1.3 movement t off"),
    (script([f"table t{i} 0" for i in range(1, 5)]), "0 1.1 table t1/1.2 table t2/1.3 table t3/1.4 refused no space 0"),
    (script([f"table {NAME30} 50", f"scan {NAME30}"]), f"0 1.1 table {NAME30}/1.2 scan {NAME30} at 0 rows 0"),
    (script(["table t 10", "insert t @a a", "commit", "update t @a b", "delete t #1", "rollback", "scan t", "delete t @a", "update t @a c", "commit", "scan t"]),
     "0 1.1 table t/1.2 inserted 1/1.3 committed 1/1.4 updated 1/1.5 deleted 1/1.6 rolled back/1.7 scan t at 1 rows 1/  1 a/1.8 deleted 1"
     "/1.9 refused no row 1/1.10 committed 2/1.11 scan t at 2 rows 0"),
    (script(["table t 10", "update t @a b", "delete t #7"]), "0 1.1 table t/1.2 refused unbound a/1.3 refused no row 7"),
    (script(["table t 10", "insert t @a hello", "commit", "fix t 43 1", "usage t", "fix t 43", "fix t 43 6", "fix t 39"]),
     "0 1.1 table t/1.2 inserted 1/1.3 committed 1/1.4 fixed 43 full"
     "/1.5 usage t unformatted 3 fs1 0 fs2 0 fs3 0 fs4 0 full 1 low 0 high 4 extents 1/  bytes 12288 0 0 0 0 4096/1.6 fixed 43 fs4"
     "/1.7 refused bad value 6/1.8 refused not a data block 39"),
    (script(["table t 10", "insert t @a " + "x" * 1800]), "0 1.1 table t/1.2 inserted 1/1.end rolled back"),
    (script(["table t 10", "insert t @a " + "x" * 1801]), "2 BadScript 3 RowTooLong"),
    (script(["insert t @a "]), "2 BadScript 2 RowEmpty"),
    (script(["table t 51"]), "2 BadScript 2 BadNumber"),
    (script(["table " + NAME30 + "x 10"]), "2 BadScript 2 BadName"),
    (script(["table T 10"]), "2 BadScript 2 BadName"),
    (script(["table t 10", "insert t @a x", "insert t @a y"]), "2 BadScript 4 DuplicateLabel"),
    (script(["shrink t"]), "2 BadScript 2 NotAStatement"),
    (script(["repair t"]), "2 BadScript 2 NotAStatement"),
    (script(["checkpoint"]), "2 BadScript 2 NotAStatement"),
    (script(["schedule 0"]), "2 BadScript 2 NotAStatement"),
    (script(["schedule 2"]), "2 BadScript 2 ScheduleSession"),
    (b"session 2\n", "2 BadScript 1 SessionOrder"),
    (b"table t 10\n", "2 BadScript 1 SessionOrder"),
    (script(["commit"]) + b"insert t @a \x7f\n", "2 BadScript 3 BadByte"),
    (script(["scan t"]) + b"insert t @a \x1f\n", "2 BadScript 3 BadByte"),
    (b"session 1\ntable t 0\ninsert t @a \x20\x80\xff\nscan t", "0 1.1 table t/1.2 inserted 1/1.3 scan t at 0 rows 1/  1 \x20\x80\xff/1.end rolled back"),
    (b"session 1\ntable t 10\ninsert t @a one\ncommit\nupdate t @a two\nsession 2\nscan t\nschedule 1x8 2x9\n",
     "0 1.1 table t/1.2 inserted 1/1.3 committed 1/1.4 updated 1/2.1 scan t at 1 rows 1/  1 one/1.end rolled back"),
    (b"".join(b"session %d\nscan t\n" % i for i in range(1, 65)), "0 " + "/".join(f"{i}.1 refused no table" for i in range(1, 65))),
    (b"".join(b"session %d\nscan t\n" % i for i in range(1, 66)), "2 BadScript 129 SessionOrder"),
]


def told(done):
    text = done.stdout.decode("latin-1").rstrip("\n").replace("\n", "/")
    return (status(done) + " " + text).strip()


def main():
    path = program()
    found = Findings()
    for words, expected in WORDS:
        with fresh_store(path, formatted=False) as folder:
            answer = told(run(path, folder, b"", words=words))
            found.tell(f"{' '.join(words) or 'no words'}: {answer}", answer == expected)
    with fresh_store(path) as folder:
        answer = told(run(path, folder, b"", words=("format", "64", "8", "2")))
        found.tell(f"format twice: {answer}", answer == "10 AlreadyFormatted")
    for text, expected in SCRIPTS:
        with fresh_store(path, shape=SMALL) as folder:
            answer = told(run(path, folder, text))
            last = text.decode("latin-1").rstrip("\n").split("\n")[-1]
            good = answer == expected
            found.tell(f".. {last[:40]!r}: {answer[:70]!r}" + ("" if good else f", where {expected!r} was due"), good)
    again(path, found)
    found.end()


def again(path, found):
    """A second process finds what the first one committed, and not what it left open."""
    with fresh_store(path) as folder:
        run(path, folder, script(["table t 10", "insert t @a kept", "commit", "insert t @b open"]))
        answer = told(run(path, folder, script(["scan t", "insert t @a more", "commit", "scan t"])))
        expected = "0 1.1 scan t at 1 rows 1/  1 kept/1.2 inserted 3/1.3 committed 2/1.4 scan t at 2 rows 2/  1 kept/  3 more"
        found.tell(f"a second process: {answer}", answer == expected)


main()
