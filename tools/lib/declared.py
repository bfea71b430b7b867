"""The types, traits and constants of a crate's src/, which specs name as `declared`. The sources are read as text."""
import re
from pathlib import Path

from clauses import end_of_block, head_end, without_comments

ITEM = re.compile(r"\b(?:pub(?:\([\w\s]+\))?\s+)?(struct|enum|trait|type|const)\s+(\w+)")
USE = re.compile(r"(?<!ghost )\buse\s+(crate|bsc_\w+)(?:::\w+)*::(\{[^}]*\}|\w+(?:\s+as\s+\w+)?)\s*;")
PUBLIC_FIELD = re.compile(r"^\s*pub\s+\w+\s*:[^\n]*", re.M)


class Declared:
    """A type, a trait or a constant: its file, the line on which it begins, how many lines it has without its comments and
    attributes, and how many its comments have."""

    is_declared = True

    def __init__(self, crate, file, name, line):
        self.crate = crate
        self.file = file
        self.name = name
        self.line = line
        self.lines = 0
        self.comments = 0
        # Where its variants and its public fields stand.
        self.text = ""

    @property
    def path(self):
        return f"crates/{self.crate}/{self.file}"

    def words(self, definitions):
        """The types that its variants and its public fields have."""
        types = definitions.types(self.crate)
        own, brought = types.read(self.file), types.uses(self.file)
        for name in re.findall(r"\b[A-Z]\w*", self.text):
            if name in own:
                yield own[name]
            elif name in brought:
                crate, name = brought[name]
                yield definitions.types(crate or self.crate).find(name)


class Types:
    """The types, traits and constants of a crate. A file is read once it is asked for."""

    def __init__(self, crate):
        self.crate = crate
        self.root = Path("crates", crate)
        self.files = [it.relative_to(self.root).as_posix() for it in sorted(self.root.glob("src/**/*.rt"))]
        self.found = {}
        self.blank = {}

    def read(self, file):
        """What a file defines, by name."""
        if file not in self.found:
            text = (self.root / file).read_text(encoding="utf-8")
            self.blank[file] = without_comments(text)
            self.found[file] = {it.name: it for it in self.items_in(file, text, self.blank[file])}
        return self.found[file]

    def items_in(self, file, text, blank):
        lines = text.split("\n")
        for found in ITEM.finditer(blank):
            kind, name = found.groups()
            end = head_end(blank, found.end())
            has_members = blank[end : end + 1] == "{" and kind in ("struct", "enum", "trait")
            end = end_of_block(blank, end) if has_members else blank.find(";", end) + 1
            first, last = blank.count("\n", 0, found.start()), blank.count("\n", 0, end)
            it = Declared(self.crate, file, name, first + 1)
            it.text = blank[found.end() : end]
            if has_members and kind != "enum":
                it.text = "\n".join(PUBLIC_FIELD.findall(it.text)) if kind == "struct" else ""
            told = [line.strip() for line in lines[first : last + 1]]
            it.lines = sum(bool(line) and not line.startswith(("//", "#[")) for line in told)
            it.comments = sum(line.startswith("//") for line in told)
            for line in (line.strip() for line in reversed(lines[:first])):
                if line.startswith("//") and not line.startswith("//!"):
                    it.comments += 1
                elif not line.startswith("#["):
                    break
            yield it

    def uses(self, file):
        """The names that a file brings in from other modules: each with its crate, None for its own, and its name there."""
        brought = {}
        self.read(file)
        for crate, names in USE.findall(self.blank[file]):
            for one in names.strip("{}").split(","):
                parts = one.split()
                if parts:
                    brought[parts[-1]] = (None if crate == "crate" else crate, parts[0])
        return brought

    def find(self, name, module=()):
        """A type by its name, and the path of its module where that is known."""
        own = f"src/{'/'.join(module)}.rt"
        for file in [own] * (own in self.files) + self.files:
            if name in self.read(file):
                return self.read(file)[name]
        return None
