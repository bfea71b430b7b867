"""Reads the files of tests/: tests/README.md has their form. Finds the program that is built."""
import os
import re
import shlex
from pathlib import Path

FOLDER = Path(__file__).resolve().parents[2] / "tests"
BUILT = ("out/bsc", "crates/bsc_program/out/bsc_program")
PART = re.compile(r"-- (file \S+|input|status \S+|output|errors|rows)$")
COLUMN = re.compile(r"\{([1-9])\}")
MARK = re.compile(r"\{([0-9A-F]{2})\}|\{([^{}*]*)\*(\d+)\}")


class BadRows(Exception):
    """A file that isn't in the form."""


class Test:
    """A test as it is written: its parts, and the columns of each of its runs."""

    def __init__(self, file, line, name):
        self.file, self.line, self.name = file, line, name
        self.words, self.parts, self.table = None, {}, None

    def runs(self):
        """Each run: with the columns of each row, or one without any."""
        return [Run(self, columns, line) for line, columns in self.table] if self.table is not None else [Run(self, (), self.line)]


class Run:
    """What a run of the program is given, and what has to come of it, in octets."""

    def __init__(self, test, columns, line):
        self.test, self.columns, self.line = test, columns, line

        def part(name):
            lines = test.parts.get(name)
            return None if lines is None else octets("\n".join([*lines, ""]), columns)

        words = shlex.split(with_columns(test.words, columns))
        self.words, self.reads, self.writes = [], None, None
        rest = iter(words[1:])
        for word in rest:
            if word == "<":
                self.reads = next(rest)
            elif word == ">":
                self.writes = next(rest)
            else:
                self.words.append(octets(word, ()))
        self.files = {it[5:]: part(it) for it in test.parts if it.startswith("file ")}
        self.input = part("input") or b""
        self.output = part("output") or b""
        self.errors = part("errors")
        self.status = int(octets(test.parts.get("status", "0"), columns))

    def named(self):
        """Where the run stands, for who looks for it."""
        return f"{self.test.file}:{self.line}: {self.test.name}"


def with_columns(text, columns):
    """A text with the columns of a row in it, which has all that the text names."""
    return COLUMN.sub(lambda it: columns[int(it[1]) - 1], text)


def octets(text, columns):
    """The octets of a text: the columns are put in first, and then stand octets for digits and for texts that are repeated."""
    text = with_columns(text, columns)
    found, at = b"", 0
    for it in MARK.finditer(text):
        found += text[at : it.start()].encode()
        found += bytes.fromhex(it[1]) if it[1] else it[2].encode() * int(it[3])
        at = it.end()
    return (found + text[at:].encode()).replace(b"{no LF}\n", b"")


def read(path):
    """The tests of a file, in their order."""
    file = path.relative_to(FOLDER.parent) if path.is_relative_to(FOLDER.parent) else path
    text = path.read_text(encoding="utf-8")
    tests, part = [], None
    if not text.startswith("# "):
        raise BadRows(f"{file} doesn't begin with a sentence on what it shows")
    for number, line in enumerate(text.split("\n"), 1):
        if line.startswith("== "):
            tests.append(Test(file, number, line[3:]))
            part = None
        elif PART.match(line) and tests and tests[-1].words is not None:
            name = line[3:]
            test = tests[-1]
            if name.startswith("status "):
                name, part = "status", None
                new = name not in test.parts
                test.parts[name] = line[10:]
            elif name == "rows":
                new = test.table is None
                test.table = part = []
            else:
                new = name not in test.parts
                part = test.parts.setdefault(name, [])
            if not new:
                raise BadRows(f"{file}:{number}: {name} stands twice")
        elif part is None:
            if tests and tests[-1].words is None and line.startswith("$ bsc"):
                tests[-1].words = line[2:]
            elif line and not line.startswith("#"):
                raise BadRows(f"{file}:{number}: this is no line of the form: {line}")
        elif tests[-1].table is part:
            if line and not line.startswith("#"):
                part.append((number, [it.strip() for it in re.split(r"(?:^| )\|(?: |$)", line)]))
        else:
            part.append(line)
    for test in tests:
        if test.words is None:
            raise BadRows(f"{file}:{test.line}: no line begins with $ bsc")
        lists = [it for it in test.parts.values() if not isinstance(it, str)]
        for lines in lists:
            while lines and not lines[-1]:
                lines.pop()
        told = "\n".join([test.words, test.parts.get("status", ""), *(line for lines in lists for line in lines)])
        used = set(COLUMN.findall(told))
        for number, columns in test.table or ():
            if used != {str(it) for it in range(1, len(columns) + 1)}:
                raise BadRows(f"{file}:{number}: the row has {len(columns)} columns, and the test uses {sorted(used)}")
        if not test.table if test.table is not None else used:
            raise BadRows(f"{file}:{test.line}: there are no rows")
    return tests


def files():
    """The files of rows, in their order."""
    return sorted(FOLDER.glob("**/*.rows"))


def judged(*names):
    """What the tests of some files ask `bsc check` about: each message, its place as words, and its verdict, each once."""
    runs = [run for name in names for test in read(FOLDER / name) for run in test.runs()]
    asked = {}
    for run in runs:
        if run.words == [b"check"] and run.status == 0:
            lines = [it for it in run.input.decode().splitlines() if it.strip() and not it.lstrip().startswith("#")]
            for line, verdict in zip(lines, run.output.decode().splitlines()):
                words = line.split()
                asked[bytes.fromhex("".join(words[3:])), tuple(words[:3]), verdict] = None
    return list(asked)


def program():
    """The path of the program: the one that the variable PROGRAM names, or that was built last; None without any."""
    named = os.environ.get("PROGRAM")
    found = [Path(named)] if named else [FOLDER.parent / it for it in BUILT]
    there = [it for it in found if os.access(it, os.X_OK)]
    return str(max(there, key=lambda it: it.stat().st_mtime).resolve()) if there else None
