"""Planted bugs: the edits of must-fail/ and more-bugs/, what each changes, and which functions it breaks."""
import re
from dataclasses import dataclass, field
from pathlib import Path

FOLDERS = ("must-fail", "more-bugs")


@dataclass
class Bug:
    crate: str
    file: Path
    # Its pairs: a file below the crate's folder, the text that it takes away, and the one in its place.
    pairs: list
    # The functions that it names itself, by lines `function:`.
    named: list
    # Whether the gate tries it, by a line `gate: yes`.
    in_gate: bool
    # Why it can't be planted, or None.
    why_not: str = None
    # The texts that it makes of files, and where it changes them: a file, and from where to where in its old text.
    texts: dict = field(default_factory=dict)
    places: list = field(default_factory=list)
    # The functions that have to read as not proved by themselves; whether it stands in their bodies alone. A bug of a
    # definition names none: what refuses it is a row of the crate that was worked by hand.
    functions: list = field(default_factory=list)
    is_inside: bool = False
    is_of_definition: bool = False

    @property
    def name(self):
        return self.file.stem

    @property
    def label(self):
        return f"{self.crate}/{self.file.parent.name}/{self.file.name}"


def read_bug(crate, file):
    """Reads the lines `function:`, `gate:`, `file:`, `old:` and `new:` of a bug; others are for who reads it."""
    bug = Bug(crate, file, [], [], file.parent.name == "must-fail")
    where = old = None
    for line in file.read_text(encoding="utf-8").split("\n"):
        if line.startswith("function: "):
            bug.named.append(line[10:].strip())
        elif line.startswith("gate: "):
            bug.in_gate = line[6:].strip() == "yes"
        elif line.startswith("file: "):
            where = line[6:].strip()
        elif line.startswith("old: "):
            old = line[5:]
        elif line.startswith("new:"):
            if where is None or old is None:
                bug.why_not = "it has no file, or nothing to take away"
                break
            bug.pairs.append((where, old, line[4:].removeprefix(" ")))
            old = None
    if not bug.pairs and not bug.why_not:
        bug.why_not = "it has no pair of old and new"
    return bug


def plant(bug, texts):
    """Plants a bug in the texts of a crate's files: what it makes of them, or why it can't. Further pairs apply to what the
    earlier ones made."""
    made = {}
    for file, old, new in bug.pairs:
        text = made.get(file, texts.get(file))
        if text is None:
            return None, f"there is no {file}"
        count = text.count(old)
        if count != 1:
            return None, f"{file} has its text {count} times: {old.strip()}"
        made[file] = text.replace(old, new)
    if all(made[it] == texts[it] for it in made):
        return None, "it changes nothing"
    return made, None


def bugs_of(folder, sources):
    """The planted bugs of a crate, each with the functions that it breaks."""
    folder = Path(folder)
    specs = {it.relative_to(folder).as_posix(): it.read_text(encoding="utf-8") for it in sorted(folder.glob("specs/**/*.antt"))}
    bugs = [read_bug(folder.name, it) for part in FOLDERS for it in sorted(folder.glob(f"{part}/*.edit"))]
    paths = {it.path for it in sources.functions}
    for bug in bugs:
        if bug.why_not:
            continue
        bug.is_of_definition = all(file in specs for file, _, _ in bug.pairs)
        bug.texts, bug.why_not = plant(bug, specs if bug.is_of_definition else sources.texts)
        if bug.why_not or bug.is_of_definition:
            continue
        found, is_inside = [], True
        for file, old, _ in bug.pairs:
            at = sources.texts[file].find(old)
            # A pair that applies to what an earlier one made stands where that one does.
            if at < 0:
                continue
            bug.places.append((file, at, at + len(old)))
            # Spaces at its ends say nothing.
            first, last = at + len(old) - len(old.lstrip()), at + len(old.rstrip())
            it = sources.at(file, first)
            if not it or not it.body or not (it.body[0] <= first and last <= it.body[1]):
                is_inside = False
            if it and it.path not in found:
                found.append(it.path)
        bug.is_inside = is_inside
        bug.functions = bug.named or found
        unknown = [it for it in bug.functions if it not in paths]
        if unknown:
            bug.why_not = f"there is no function {unknown[0]}"
        elif not bug.functions:
            bug.why_not = "it stands in no function, so a line 'function:' is to name the one that it breaks"
    return bugs
