"""The clauses of public items, and the words of specs/ that they cite. The sources are read as text, and no prover is needed.

Public items are what a crate's root file makes public: each function and method that is `pub`, by its `requires` and
`ensures`; each trait, by its methods and its ghost members; each struct and enum, by its ghost fields, and by what an
`impl` of a trait for it says. A word is found by the `ghost use` that brings it in."""
import re
from dataclasses import dataclass, field
from pathlib import Path

NAME = re.compile(r"[A-Za-z_]\w*")
GONE = re.compile(r'//[^\n]*|/\*.*?\*/|b?"(?:\\.|[^"\\])*"|b?\'(?:\\.|[^\'\\])\'', re.S)
BRACE = re.compile(r"[{}]")
CLAUSE = re.compile(r"(requires|ensures)\b\*?\s*(?:\w+\s*)?\{")
USE = re.compile(r"\bghost\s+use\s+Rattle\.(bsc_\w+)\.specs\.([\w.]*?)\.?(?:\{([^}]*)\}|(?:\s+as\s+(\w+)))\s*;")
TEST_MODULE = re.compile(r"#\[cfg\(test\)\]\s*(?:pub(?:\(crate\))?\s+)?mod\s+(\w+)\s*;")


@dataclass
class Clause:
    """A clause: the line of its item, the item's name, and its text in its braces."""

    line: int
    item: str
    text: str = field(repr=False)


def without_comments(text):
    """The text of a source with comments and the insides of literals blanked out, at the same places."""
    return GONE.sub(lambda found: re.sub(r"[^\n]", " ", found.group()), text)


def end_of_block(text, start):
    """The place behind the block that begins with the brace at a place."""
    depth = 0
    for found in BRACE.finditer(text, start):
        depth += 1 if found.group() == "{" else -1
        if depth == 0:
            return found.end()
    return len(text)


def clauses_of_fn(text, start):
    """The clauses of the function whose name ends at a place: each in its braces."""
    found = []
    place = start
    depth = 0
    while place < len(text):
        sign = text[place]
        clause = CLAUSE.match(text, place) if sign in "re" else None
        if clause and depth == 0 and not (text[place - 1].isalnum() or text[place - 1] in "_."):
            brace = clause.end() - 1
            end = end_of_block(text, brace)
            found.append(text[brace:end])
            place = end
            continue
        if sign in "([":
            depth += 1
        elif sign in ")]":
            depth -= 1
        elif depth == 0 and sign in "{;":
            break
        place += 1
    return found


def ghosts_in(text):
    """The ghost fields and members of a block: each in its braces."""
    found = []
    for member in re.finditer(r"\bghost\s+(?!use\b)\w+\s*[:=]\s*\{", text):
        brace = member.end() - 1
        found.append(text[brace:end_of_block(text, brace)])
    return found


def head_end(text, start):
    """The place of the brace or semicolon that ends the head of an item, behind a place in the head."""
    depth = 0
    for place in range(start, len(text)):
        if text[place] in "([":
            depth += 1
        elif text[place] in ")]":
            depth -= 1
        elif depth == 0 and text[place] in "{;":
            return place
    return len(text)


def impl_of(head):
    """The type that an `impl` is for, and whether it is one of a trait."""
    out = []
    depth = 0
    for place, sign in enumerate(head):
        if sign == "<":
            depth += 1
        elif sign == ">" and head[place - 1:place] not in ("-", "="):
            depth -= 1
        elif depth == 0:
            out.append(sign)
    flat = re.split(r"\bwhere\b", "".join(out))[0]
    of_trait = re.search(r"\bfor\s+&?\s*([\w:]+)", flat)
    names = re.findall(r"[\w:]+", of_trait.group(1) if of_trait else flat)
    return (names[0].split(":")[-1] if names else ""), bool(of_trait)


class Source:
    """A file of src/: what it brings in from specs/, and the clauses of its public items."""

    def __init__(self, path, exported):
        self.path = path
        self.text = without_comments(path.read_text(encoding="utf-8"))
        self.words = {}
        self.modules = {}
        # The same of types and constants of src/, as specs name them.
        self.declared = {}
        self.declared_modules = {}
        self.clauses = []
        for use in USE.finditer(self.text):
            crate, module, names, alias = use.groups()
            is_declared = module.split(".")[0] == "declared"
            if alias:
                (self.declared_modules if is_declared else self.modules)[alias] = (crate, module)
                continue
            for one in names.split(","):
                parts = one.split()
                if parts:
                    words = self.declared if is_declared else self.words
                    words.setdefault(parts[-1], set()).add((crate, module, parts[0]))
        self.find_clauses(exported)

    def find_clauses(self, exported):
        blocks = []
        for item in re.finditer(r"\b(?:(pub)\s+(struct|enum|trait)\s+(\w+)|(impl)\b)", self.text):
            _, kind, name, is_impl = item.groups()
            brace = head_end(self.text, item.end())
            if self.text[brace:brace + 1] != "{":
                continue
            end = end_of_block(self.text, brace)
            is_trait_impl = False
            if is_impl:
                name, is_trait_impl = impl_of(self.text[item.end():brace])
                kind = "impl"
            if kind in ("trait", "impl"):
                blocks.append((item.start(), end))
            if name not in exported:
                continue
            block = self.text[brace:end]
            self.take(item.start(), name, ghosts_in(block) if kind != "impl" or is_trait_impl else [])
            if kind == "trait" or is_trait_impl:
                self.take_fns(block, brace, r"\bfn\s+(\w+)")
            elif kind == "impl":
                self.take_fns(block, brace, r"\bpub\s+(?:unsafe\s+|const\s+)*fn\s+(\w+)")
        for fn in re.finditer(r"\bpub\s+(?:unsafe\s+|const\s+)*fn\s+(\w+)", self.text):
            if fn.group(1) in exported and not any(start <= fn.start() < end for start, end in blocks):
                self.take(fn.start(), fn.group(1), clauses_of_fn(self.text, fn.end()))

    def take(self, place, item, clauses):
        line = self.text.count("\n", 0, place) + 1
        self.clauses += [Clause(line, item, clause) for clause in clauses]

    def take_fns(self, block, brace, pattern):
        for fn in re.finditer(pattern, block):
            self.take(brace + fn.start(), fn.group(1), clauses_of_fn(block, fn.end()))

    def cited(self, with_declared=False):
        """The words that the clauses cite, each with its clause; of types and constants of src/ too, where asked."""
        for clause in self.clauses:
            for found in NAME.finditer(clause.text):
                name = found.group()
                before = clause.text[:found.start()]
                if before.endswith("."):
                    owner = re.search(r"(\w+)\.$", before)
                    if owner and owner.group(1) in self.modules:
                        crate, module = self.modules[owner.group(1)]
                        yield clause, (crate, module, name)
                    elif with_declared and owner and owner.group(1) in self.declared_modules:
                        crate, module = self.declared_modules[owner.group(1)]
                        yield clause, (crate, module, name)
                    continue
                for word in self.words.get(name, ()):
                    yield clause, word
                if with_declared:
                    for word in self.declared.get(name, ()):
                        yield clause, word


def test_modules(root):
    """The modules of tests in a src/, by the attribute over their `mod` lines."""
    texts = (file.read_text(encoding="utf-8") for file in root.rglob("*.rt"))
    return {name for text in texts for name in TEST_MODULE.findall(text)}


def exported_by(root):
    """The names that the root file of a crate makes public: those of its `pub use` lines, and its own. What the `main`
    of a program calls counts too."""
    names = set()
    for path in (root / "lib.rt", root / "main.rt"):
        if path.is_file():
            text = without_comments(path.read_text(encoding="utf-8"))
            word = r"\bpub\s+use" if path.name == "lib.rt" else r"\buse"
            for use in re.finditer(word + r"\s+([^;]*);", text):
                names |= set(NAME.findall(use.group(1)))
            names |= set(re.findall(r"\bpub\s+(?:struct|enum|trait|fn)\s+(\w+)", text))
    return names


def crates_listed():
    """The crates of crates.txt, in its order."""
    lines = Path("crates.txt").read_text(encoding="utf-8").splitlines()
    return [line.split(":")[0].split()[0] for line in lines if ":" in line.split("#")[0]]


def sources_of(crate, below=""):
    """The sources of a crate but for its tests, each with its clauses: those of a file or folder of src/ alone, where one is
    given."""
    root = Path("crates") / crate / "src"
    exported = exported_by(root)
    tests = test_modules(root)
    only = Path("crates") / crate / (below or "src")
    for file in sorted(root.rglob("*.rt")):
        if (only == file or only in file.parents) and file.stem not in tests:
            yield Source(file, exported)
