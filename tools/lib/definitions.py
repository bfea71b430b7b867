"""The words that contracts are made of: where each is defined, on how many lines, and which words its definition names. The
sources are read as text, and no prover is needed.

A word is a definition of a file of specs/, or a type, trait or constant of src/ that one names (`declared`). Of proofs/ a file
is read where something asks for it. What the kit defines is no word here."""
import re
from pathlib import Path

from declared import Types
from scope import Scope

HEAD = re.compile(r"(?:(?:abbrev|unfoldable)\s+(?:pub\s+)?|(?:pub\s+)?(record|data)\s+)(\S+)")
# A lemma, or a definition that isn't unfolded. Only proofs/ have them.
LEMMA = re.compile(r"(?:pub\s+)?([^\s(){}]+)\s*:(?=\s|$)")
OUTSIDE = re.compile(r"(?:pub\s+)?use\b|(?:pub\s+)?mod\b|module\b")
USE = re.compile(r"(pub\s+)?use\s+(?:Rattle\.)?([\w.]+?)(?:\.\{([^}]*)\}|\s+as\s+(\w+)|\s*$)")


class Definition:
    """A word: its file, the line on which it begins, how many lines it has without its comments, and how many its comments
    have."""

    is_declared = False

    def __init__(self, crate, file, name, line, kind):
        self.crate = crate
        self.file = file
        self.name = name
        self.line = line
        self.kind = kind
        self.lines = 0
        self.comments = 0
        # Its type, and each of its equations; of a record or a data all is one.
        self.parts = []
        # The variants of a data, and whether each holds something.
        self.variants = {}
        # The heads of the modules in which it stands.
        self.modules = []

    @property
    def path(self):
        return f"crates/{self.crate}/{self.file}"

    def words(self, definitions):
        """The words that its definition names; of a lemma those of its type."""
        file = definitions.file(self.crate, self.file)
        scope = Scope(lambda name, owner=None: definitions.word_of(file, name, owner), file.modules)
        bound = set()
        for head in self.modules:
            bound = scope.take(re.sub(r"\s*module\s+\S+", "", head), bound)
        first = self.parts[0]
        if self.kind in ("record", "data"):
            scope.take_fields(first, bound)
        else:
            scope.take(first[first.index(self.name) + len(self.name) :], bound)
        if self.kind == "equations":
            for part in self.parts[1:]:
                if not re.match(r"\s*unfolding\b", part):
                    scope.take_equation(self.name, part, bound)
        return scope.found


class File:
    """A file of specs/ or proofs/: what it brings in, and what it defines."""

    def __init__(self, crate, file):
        self.crate = crate
        self.file = file
        self.is_proof = file.startswith("proofs/")
        self.definitions = {}
        self.lemmas = []
        self.uses = {}
        self.modules = {}
        self.handed_on = set()
        self.read(Path("crates", crate, file).read_text(encoding="utf-8").split("\n"))

    def read(self, lines):
        comment, outside, begun, modules, current = 0, "", 0, [], None
        for number, line in enumerate(lines, 1):
            told = line.strip()
            if told.startswith("--"):
                comment += 1
                continue
            code = re.sub(r"\s--\s.*", "", line).rstrip()
            indent = len(line) - len(line.lstrip())
            if re.match(r"infix[lr]?\b", told):
                continue
            if outside or OUTSIDE.match(told):
                # The head of a module may have several lines: it stands where the first of them does.
                begun = begun if outside else indent
                outside += code + "\n"
                current = None
                if outside.split()[0] == "module":
                    if outside.rstrip().endswith("where"):
                        modules = [it for it in modules if it[0] < begun] + [(begun, outside)]
                        outside = ""
                elif outside.count("{") <= outside.count("}"):
                    self.read_use(outside.strip())
                    outside = ""
            elif told:
                modules = [it for it in modules if it[0] < indent]
                base = modules[-1][0] + 2 if modules else 0
                begins = (HEAD.match(told) or self.is_proof and LEMMA.match(told)) if indent <= base else None
                if begins:
                    kind = "lemma" if begins.re is LEMMA else begins.group(1) or "equations"
                    current = Definition(self.crate, self.file, begins.groups()[-1], number, kind)
                    current.modules = [head for _, head in modules]
                    current.parts.append(code)
                    self.definitions.setdefault(current.name, current)
                    if kind == "lemma":
                        self.lemmas.append(current)
                elif current:
                    self.read_line(current, code, indent <= base)
                if current:
                    current.comments += comment
                    current.lines += 1
            comment = 0

    def read_line(self, current, code, is_at_base):
        """A further line of a definition."""
        if is_at_base and code.strip()[0] not in "})]":
            current.parts.append(code)
            return
        current.parts[-1] += "\n" + code
        variant = re.match(r"\s*(\w+)\s*:(.*)", code)
        if current.kind == "data" and variant:
            current.variants[variant.group(1)] = "→" in variant.group(2)
            self.definitions.setdefault(variant.group(1), current)

    def read_use(self, text):
        found = USE.match(" ".join(text.split()))
        if not found:
            return
        is_handed_on, path, names, alias = found.groups()
        if alias:
            self.modules[alias] = path
        for one in (names or "").split(","):
            parts = one.split()
            if parts:
                self.uses[parts[-1]] = (path, parts[0])
                if is_handed_on:
                    self.handed_on.add(parts[-1])


class Definitions:
    """All words. A file is read once it is asked for."""

    def __init__(self):
        self.crates = {it.name for it in Path("crates").iterdir()}
        self.files = {}
        self.types_of = {}
        self.named = {}

    def file(self, crate, file):
        """A file of specs/ or proofs/, or None."""
        if (crate, file) not in self.files:
            self.files[crate, file] = File(crate, file) if Path("crates", crate, file).is_file() else None
        return self.files[crate, file]

    def types(self, crate):
        """The types of a crate."""
        if crate not in self.types_of:
            self.types_of[crate] = Types(crate)
        return self.types_of[crate]

    def in_module(self, path, name):
        """The word of this name in a module, as `bsc_x.specs.Module`; None of the kit's."""
        crate, _, rest = path.partition(".")
        kind, _, module = rest.partition(".")
        if crate not in self.crates or kind not in ("specs", "proofs"):
            return None
        if module.startswith("declared."):
            *above, last = module.split(".")[1:]
            if last == "TheVariants":
                return self.types(crate).find(above[-1], above[:-1])
            if last == "TheConstants":
                return self.types(crate).find(name, above)
            return self.types(crate).find(last, above)
        file = self.file(crate, f"{kind}/{module.replace('.', '/')}.antt")
        if file is None:
            return None
        if name in file.handed_on and name not in file.definitions:
            return self.in_module(*file.uses[name])
        return file.definitions.get(name)

    def in_crate(self, crate, name):
        """The words of this name in the specs/ of a crate."""
        for path in sorted(Path("crates", crate).glob("specs/**/*.antt")):
            file = self.file(crate, "/".join(path.parts[2:]))
            if name in file.definitions:
                yield file.definitions[name]

    def word_of(self, file, name, owner=None):
        """What a name is in a file: a word or None. The name of an operator has marks where its sides stand."""
        if owner is not None:
            alias, dot, inner = owner.partition(".")
            return self.in_module(file.modules[alias] + dot + inner, name)
        for it in (name, f"◌{name}◌"):
            if it in file.definitions:
                return file.definitions[it]
            if it in file.uses:
                return self.in_module(*file.uses[it])
        return None

    def words_of(self, word):
        """The words that a word's definition names, itself left out, in order."""
        if word not in self.named:
            found = dict.fromkeys(word.words(self))
            self.named[word] = [it for it in found if it is not None and it is not word]
        return self.named[word]

    def reached_from(self, words):
        """These words and all that they are made of, the nearest first."""
        found = dict.fromkeys(words)
        waiting = list(found)
        for word in waiting:
            for it in self.words_of(word):
                if it not in found:
                    found[it] = None
                    waiting.append(it)
        return waiting
