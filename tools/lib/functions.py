"""The functions of a crate's sources: where each stands, what it is called, and who may call it. No prover is needed.

The sources are read as text: comments, strings and characters are blanked, and a function's body is told from the clauses
of its contract, which have braces too. A function has the name that `rattle check` prints: the path of its module and, of
a method, of the module of its type, as `connector::Connector::make`. Of a trait's method it is the module of the impl, and
the names in the impl's type and trait are one word, as `vmac::VmacOrd::cmp` or `fault::FrameFaultFromCheck::from`."""
import re
from dataclasses import dataclass, field
from pathlib import Path

TOKEN = re.compile(
    r"""(?P<gone>//[^\n]*|/\*.*?\*/|b?r(?P<hash>\#*)".*?"(?P=hash)|b?"(?:[^"\\]|\\.)*"|b?'(?:[^'\\\n]|\\[^'\n]+|\\')')""",
    re.S,
)
CLAUSE = re.compile(r"\b(?:requires|ensures|ghost)\*?\s*(?:\w+\s*)?:?\s*\Z")
HEAD = re.compile(r"\b(?P<kind>fn|impl|mod|struct|enum|trait|const)\b")


def blanked(text):
    """The text with its comments, strings and characters as blanks, at the same places."""
    return TOKEN.sub(lambda it: re.sub(r"[^\n]", " ", it[0]), text)


def closing(text, at):
    """The place behind the brace that closes the one at a place."""
    depth = 0
    for found in re.compile(r"[{}]").finditer(text, at):
        depth += 1 if found[0] == "{" else -1
        if depth == 0:
            return found.end()
    return len(text)


def body_of(text, at):
    """Where the body of a function begins and ends, whose parameters begin behind a place; None where it has none. The
    braces of its clauses come before."""
    depth, last, place = 0, at, at
    while place < len(text):
        it = text[place]
        if it in "([":
            depth += 1
        elif it in ")]":
            depth -= 1
        elif it == ";" and depth == 0:
            return None
        elif it == "{" and depth == 0:
            end = closing(text, place)
            if not CLAUSE.search(text[last:place]):
                return place, end
            last = place = end
            continue
        place += 1
    return None


@dataclass
class Function:
    crate: str
    # As rattle check prints it, without the crate.
    path: str
    # Its file, below the crate's folder, and from where to where it stands there, its signature and clauses included.
    file: str
    start: int
    end: int
    # Where its body is; None of a trait's method without one.
    body: tuple
    # Whether `pub` stands before it; of a trait's method, whether the trait's impl is of a type of the crate.
    is_pub: bool
    # The type whose method it is, and the trait.
    of_type: str = ""
    of_trait: str = ""
    calls: set = field(default_factory=set)

    @property
    def name(self):
        return self.path.split("::")[-1]


class Head:
    """The head of an impl, from behind the word `impl` to its brace."""

    def __init__(self, text):
        text = " ".join(re.sub(r"\bwhere\b.*", "", text, flags=re.S).split())
        self.parameters, text = self.split(text)
        trait, of = self.halves(text)
        self.of_type = (self.words(of, plain=True) or ["Any"])[0]
        self.of_trait = (self.words(trait, plain=True) or [""])[0]
        # An impl of a type itself is of all its values where it names nothing but parameters.
        self.is_generic = not trait and len(self.words(of)) == 1
        if trait == "Drop":
            self.name = self.of_type
        elif trait:
            self.name = "".join([*(self.words(of) or ["Any"]), *self.words(trait)])
        elif self.is_generic:
            self.name = self.of_type
        else:
            self.name = "+".join(re.findall(r"\w+", re.sub(r"&\s*(?:'\w+\s*)?(?:mut\s+)?", " ref ", of)))

    @staticmethod
    def split(text):
        """The parameters of an impl, and what stands behind them."""
        if not text.startswith("<"):
            return set(), text
        depth, names, begin = 0, set(), True
        for at, it in enumerate(text):
            if it == "<" or it in "([":
                depth += 1
            elif it in ")]" or it == ">" and text[at - 1] != "-":
                depth -= 1
                if depth == 0:
                    return names, text[at + 1 :].strip()
            if depth == 1 and it in "<,":
                found = re.compile(r"[<,]\s*(?:const\s+)?('?\w+)").match(text, at)
                if found:
                    names.add(found[1])
        return names, text

    @staticmethod
    def halves(text):
        """The trait and the type of an impl; no trait of one of the type itself."""
        depth = 0
        for at, it in enumerate(text):
            depth += it in "<(["
            depth -= it in ")]" or it == ">" and text[at - 1] != "-"
            if depth == 0 and text.startswith(" for ", at):
                return text[:at].strip(), text[at + 5 :].strip()
        return "", text.strip()

    def words(self, text, plain=False):
        """The names in a type but those of parameters and of modules; of a plain one those before its angle brackets alone."""
        text = text.partition("<")[0] if plain else text
        text = re.sub(r"'\w+", " ", re.sub(r"\b\w+\s*::\s*", "", text))
        return [it for it in re.findall(r"\w+", text) if it not in self.parameters and it not in ("dyn", "mut", "const")]


def module_of(file):
    """The path of the module that a file below src/ is; the root has none."""
    parts = Path(file).with_suffix("").parts[1:]
    return [it for it in parts if it not in ("lib", "main", "mod")]


class Sources:
    """The sources of a crate."""

    def __init__(self, folder):
        self.folder = Path(folder)
        self.crate = self.folder.name
        files = sorted(it.relative_to(self.folder).as_posix() for it in self.folder.glob("src/**/*.rt"))
        self.texts = {it: (self.folder / it).read_text(encoding="utf-8") for it in files}
        self.blank = {it: blanked(text) for it, text in self.texts.items()}
        self.types = {}
        for file, text in self.blank.items():
            for found in re.finditer(r"\b(?:struct|enum|union)\s+(\w+)", text):
                self.types.setdefault(found[1], module_of(file))
        self.functions = []
        for file in files:
            self.read(file, 0, len(self.blank[file]), module_of(file), None)
        names = {it.name for it in self.functions}
        for it in self.functions:
            if it.body:
                text = self.blank[it.file][it.body[0] : it.body[1]]
                it.calls = {word for word in re.findall(r"\b(\w+)\s*(?:::\s*<[^()]*>\s*)?\(", text) if word in names}

    def read(self, file, at, end, module, owner):
        """Reads the items between two places. owner: the type and the trait whose methods these are, and their name."""
        text = self.blank[file]
        while found := HEAD.search(text, at, end):
            kind, at = found["kind"], found.end()
            if kind == "fn":
                named = re.compile(r"\s+(\w+)").match(text, at)
                if not named:
                    # The type of a function.
                    continue
                body = body_of(text, named.end())
                begin = text.rfind("\n", 0, found.start()) + 1
                before = text[begin : found.start()]
                stop = body[1] if body else text.find(";", named.end()) + 1
                of_type, of_trait, called = owner or ("", "", "")
                parts = [*module, *([called] if owner else []), named[1]]
                is_pub = bool(re.search(r"\bpub\s+(?:const\s+|unsafe\s+)*\Z", before))
                self.functions.append(
                    Function(self.crate, "::".join(parts), file, begin, stop, body, is_pub, of_type, of_trait)
                )
                at = stop
            elif kind == "impl" and not re.search(r"[\w(,<&:>]\s*\Z", text[at - 200 if at > 200 else 0 : found.start()]):
                brace = self.opening(text, at)
                if brace is None:
                    continue
                last = closing(text, brace)
                head = Head(text[at:brace])
                where = self.types.get(head.of_type, module) if head.is_generic else module
                self.read(file, brace + 1, last - 1, where, (head.of_type, head.of_trait, head.name))
                at = last
            elif kind == "trait":
                named = re.compile(r"\s+(\w+)").match(text, at)
                brace = self.opening(text, at)
                if named and brace is not None:
                    last = closing(text, brace)
                    self.read(file, brace + 1, last - 1, module, (named[1], "", named[1]))
                    at = last
            elif kind == "mod":
                named = re.compile(r"\s+(\w+)\s*\{").match(text, at)
                if named:
                    last = closing(text, named.end() - 1)
                    self.read(file, named.end(), last - 1, [*module, named[1]], None)
                    at = last
            elif kind in ("struct", "enum"):
                # Its ghost fields may have any words.
                found = re.compile(r"[{;(]").search(text, at)
                if found and found[0] == "{":
                    at = closing(text, found.start())
            elif kind == "const":
                found = re.compile(r"\s*(?:fn|unsafe)\b").match(text, at)
                if not found:
                    found = re.compile(r"\s+(\w+)\s*:").match(text, at)
                    if found:
                        at = found.end()

    @staticmethod
    def opening(text, at):
        """The place of the next brace that opens the items of an impl or a trait."""
        last = at
        while (place := text.find("{", last)) >= 0:
            if ";" in text[last:place]:
                return None
            if not CLAUSE.search(text[at:place]):
                return place
            last = closing(text, place)
        return None

    def public(self):
        """The functions that other crates may call: those with `pub`, of a module or a type that the root file hands on."""
        root = self.blank.get("src/lib.rt", "")
        handed = set()
        for found in re.finditer(r"\bpub\s+use\s+([^;]+);", root):
            handed |= set(re.findall(r"\w+", found[1]))
        open_modules = set(re.findall(r"\bpub\s+mod\s+(\w+)", root))
        for it in self.functions:
            if not it.is_pub or not it.body or it.of_trait:
                continue
            head = it.path.split("::")[0]
            name = it.of_type or it.name
            if name in handed or head in open_modules or it.file == "src/lib.rt":
                yield it

    def at(self, file, place):
        """The function that has a place of a file; None where none has."""
        for it in self.functions:
            if it.file == file and it.start <= place < it.end:
                return it
        return None
