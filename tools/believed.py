#!/usr/bin/env python3
"""Which definitions the top call's theorem is made of: what a reader has to believe of it.

    tools/believed.py [FILE FUNCTION] ..

Begins with the clauses of a function, by default those of `run_program`, and with the traits of disk, source and sink,
and follows each name to its definition in specs/, and the names in that. Prints each file of specs/ with its number of
lines and how many of them belong to definitions that are reached, and the Rust types that they speak of. Definitions of
the toolchain's library are not followed. Ends with status 1 where a name that a file imports is defined nowhere.
"""
import re
import sys
from pathlib import Path

TOP = Path(__file__).resolve().parent.parent
CRATES = TOP / "crates"
USE = re.compile(r"^\s*(?:ghost |unfoldable |abbrev |pub )*use Rattle\.([\w.]+?)(?:\.\{(.*)\}|\s+as\s+([\w-]+))?;?\s*$")
DEFINES = re.compile(r"^\s*(?:abbrev |unfoldable |pub |private )*(?:(?:record|data) )?([A-Za-z_][\w'-]*)\s*(?:[({:]|$)")
WORD = re.compile(r"[A-Za-z_][\w'-]*(?:\.[A-Za-z_][\w'-]*)*")


def split_names(text):
    """The names of an import's braces, with the names that they get."""
    for name in text.split(","):
        parts = name.strip().split(" as ")
        if parts[0]:
            yield parts[0].strip(), parts[-1].strip()


class Spec:
    """A file of specs/: what it imports, and the lines of each definition."""

    def __init__(self, path):
        self.path = path
        self.lines = path.read_text().split("\n")
        self.imports = {}
        self.aliases = {}
        self.again = {}
        self.blocks = {}
        self.makers = {}
        self.read()

    def read(self):
        name = None
        for number, line in enumerate(self.lines):
            use = USE.match(line)
            if use:
                self.add_use(use, "pub use" in line)
                name = None
                continue
            if not line.strip() or line.lstrip().startswith("--") or line.lstrip().startswith("pub mod"):
                continue
            if line.lstrip().startswith("module _"):
                name = "module at " + str(number)
                self.blocks.setdefault(name, []).append(number)
                continue
            indent = len(line) - len(line.lstrip())
            found = DEFINES.match(line)
            starts = found and indent <= 2 and re.match(r"\s*(abbrev|unfoldable|pub|private|record|data)\b", line)
            field = indent >= 2 and re.match(r"\s*(pub )?[\w'-]+ :", line) and name and self.in_record(name)
            if starts and not field:
                name = found.group(1)
            if field and re.search(r"\bdata ", self.lines[self.blocks[name][0]]):
                self.makers[found.group(1)] = name
            if name:
                self.blocks.setdefault(name, []).append(number)

    def in_record(self, name):
        return any(re.search(r"\b(record|data) ", self.lines[n]) for n in self.blocks.get(name, [])[:1])

    def add_use(self, use, again):
        where, names, alias = use.groups()
        if names is None and alias is None:
            return
        if alias is not None:
            self.aliases[alias] = where
            return
        for name, here in split_names(names):
            self.imports[here] = (where, name)
            if again:
                self.again[here] = (where, name)


SPECS = {}


def spec(where):
    """The file of a path like `log_frame.specs.Head`, or None where it is the library's or a Rust type."""
    parts = where.split(".")
    if len(parts) < 3 or parts[1] != "specs" or parts[2] == "declared":
        return None
    path = CRATES / parts[0] / "specs" / ("/".join(parts[2:]) + ".antt")
    if not path.exists():
        return None
    if path not in SPECS:
        SPECS[path] = Spec(path)
    return SPECS[path]


def is_ours(where):
    return (CRATES / where.split(".")[0]).is_dir()


class Walk:
    def __init__(self):
        self.reached = set()
        self.types = set()
        self.constants = set()
        self.unknown = set()
        self.todo = []

    def want(self, where, name):
        parts = where.split(".")
        if not is_ours(where):
            return
        if parts[-1] == "TheConstants":
            self.constants.add((parts[0], name))
            return
        if len(parts) > 2 and parts[2] == "declared":
            self.types.add((parts[0], parts[-1] if parts[-1] != "TheVariants" else parts[-2]))
            return
        here = spec(where)
        if here is None:
            return
        if name in here.again:
            self.want(*here.again[name])
        elif name in here.makers:
            self.want(where, here.makers[name])
        elif name in here.blocks:
            if (here, name) not in self.reached:
                self.reached.add((here, name))
                self.todo.append((here, name))
        else:
            self.unknown.add((str(here.path.relative_to(TOP)), name))

    def words(self, text, here):
        for word in WORD.findall(text):
            first, *rest = word.split(".")
            if first in here.imports:
                self.want(*here.imports[first])
            elif first in here.aliases:
                self.want(here.aliases[first], rest[0] if rest else first)
            elif first in here.blocks:
                if (here, first) not in self.reached:
                    self.reached.add((here, first))
                    self.todo.append((here, first))

    def run(self):
        while self.todo:
            here, name = self.todo.pop()
            for number in here.blocks[name]:
                self.words(here.lines[number], here)
            self.modules(here, here.blocks[name][0])

    def modules(self, here, line):
        """A definition inside `module _` speaks of the module's parameters too."""
        if not here.lines[line].startswith("  "):
            return
        before = [b[0] for n, b in here.blocks.items() if n.startswith("module at ") and b[0] < line]
        if before:
            name = "module at " + str(max(before))
            if (here, name) not in self.reached:
                self.reached.add((here, name))
                self.words(here.lines[max(before)], here)


class Source(Spec):
    """A Rust file: only its ghost imports are read."""

    def read(self):
        for line in self.lines:
            use = USE.match(line)
            if use:
                self.add_use(use, False)


def clauses(lines, function):
    """The `requires` and `ensures` of a function."""
    text = []
    inside = False
    for line in lines:
        if re.search(rf"\bfn {function}\b", line):
            inside = True
        elif inside and (line.startswith("{") or line.rstrip().endswith("}") and line.strip() == "{}"):
            break
        if inside:
            text.append(line)
    return "\n".join(text)


def trait_clauses(lines):
    return "\n".join(line for line in lines if not USE.match(line) and not line.lstrip().startswith("//"))


def main():
    walk = Walk()
    given = sys.argv[1:]
    roots = list(zip(given[::2], given[1::2])) or [("crates/assm/src/top.rt", "run_program")]
    for file, function in roots:
        here = Source(TOP / file)
        walk.words(clauses(here.lines, function), here)
    if not given:
        for file in ("crates/disk_model/src/disk.rt", "crates/text_port/src/port.rt"):
            here = Source(TOP / file)
            walk.words(trait_clauses(here.lines), here)
    walk.run()
    files = {}
    for here, name in walk.reached:
        files.setdefault(here, set()).update(here.blocks[name])
    crates = {}
    for here in sorted(files, key=lambda s: str(s.path)):
        crate, _, *place = here.path.relative_to(CRATES).with_suffix("").parts
        crates.setdefault(crate, []).append(("/".join(place), len(here.lines) - 1, len(files[here])))
    print("| Crate | Files of specs/, with their lines and how many are reached | Lines | Reached |")
    print("|---|---|---|---|")
    for crate, rows in crates.items():
        each = ", ".join(f"{name} {lines} ({reached})" for name, lines, reached in rows)
        print(f"| `{crate}` | {each} | {sum(r[1] for r in rows)} | {sum(r[2] for r in rows)} |")
    every = [row for rows in crates.values() for row in rows]
    print(f"| all | {len(every)} files | {sum(r[1] for r in every)} | {sum(r[2] for r in every)} |")
    print("types: " + ", ".join(sorted(f"`{crate}::{name}`" for crate, name in walk.types)))
    if walk.constants:
        print("constants: " + ", ".join(sorted(f"`{crate}::{name}`" for crate, name in walk.constants)))
    for path, name in sorted(walk.unknown):
        print(f"not found: {name} in {path}")
    sys.exit(1 if walk.unknown else 0)


main()
