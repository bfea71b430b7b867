"""Which names in the text of a definition are words, and which ones the definition binds itself: in a pattern, behind λ or
`let`, in a type, as the field of a record. The name of a field that is read or set is no word either."""
import re

TOKEN = re.compile(r"""\d\w*|"(?:\\.|[^"\\])*"|[A-Za-z_][\w']*(?:-[A-Za-z_][\w']*)*|[^\s\w(){}\[\],;."]+|\S""")
NAME = re.compile(r"[A-Za-z_]")
KEPT = frozenset("record where let in if then else".split())
# Variants of the kit, which patterns name.
KIT_VARIANTS = frozenset("Some None Ok Err true false".split())


def split_at_equals(text):
    """What stands before and behind the first `=` that isn't in brackets; None behind, where there is none."""
    depth = 0
    for found in re.finditer(r'"(?:\\.|[^"\\])*"|[(){}\[\]]|(?<!\S)=(?!\S)', text):
        sign = found.group()
        if sign in "([{":
            depth += 1
        elif sign in ")]}":
            depth -= 1
        elif sign == "=" and depth == 0:
            return text[: found.start()], text[found.end() :]
    return text, None


def split_at_where(text):
    """A line of a definition, and the functions that stand behind its `where`, each with its own lines."""
    found = re.search(r"\n\s+where[ \t]*(?:\n|\Z)", text)
    if not found:
        return text, []
    lines = [it for it in text[found.end() :].split("\n") if it.strip()]
    least = min((len(it) - len(it.lstrip()) for it in lines), default=0)
    parts = []
    for line in lines:
        if len(line) - len(line.lstrip()) == least:
            parts.append(line)
        else:
            parts[-1] += "\n" + line
    return text[: found.start()], parts


class Scope:
    """Finds the words in the texts of one definition. `word_of` says what a name is in its file, with the module before it
    where one stands there: a word or None. `modules` are the names that its file has for modules."""

    def __init__(self, word_of, modules):
        self.word_of = word_of
        self.modules = modules
        self.found = []

    def take(self, text, bound):
        """Finds the words in a text in which some names are bound already. Gives all names that are bound at its end."""
        bound = set(bound)
        tokens = [(it.group(), it.start()) for it in TOKEN.finditer(text)]
        for place, (token, at) in enumerate(tokens):
            before = tokens[place - 1][0] if place else ""
            behind = tokens[place + 1][0] if place + 1 < len(tokens) else ""
            if token in ("λ", "let"):
                bound |= self.bound_behind(tokens, place)
            elif token in ("(", "{"):
                bound |= self.bound_by_type(tokens, place)
            elif token in ("[", "|"):
                bound |= self.bound_by_case(tokens, place)
            if token[0] == '"' or token in KEPT:
                continue
            if before == "." and text[at - 1] == ".":
                owners = self.owners(tokens, place)
                if owners and owners[0] in self.modules:
                    self.found.append(self.word_of(token, ".".join(owners)))
                continue
            is_set = behind == "=" and before in ("{", ";")
            if token not in bound and not is_set and token not in "(){}[],;.":
                self.found.append(self.word_of(token))
        return bound

    @staticmethod
    def owners(tokens, place):
        """The names before a name, as `networks` and `Deliveries` of `networks.Deliveries.Sends`."""
        names = []
        while place > 1 and tokens[place - 1][0] == ".":
            place -= 2
            names.insert(0, tokens[place][0])
        return names

    @staticmethod
    def bound_behind(tokens, place):
        """The names behind λ or `let`, up to the full stop or the equals sign; in brackets up to the colon."""
        names = set()
        depth = typed = 0
        for token, _ in tokens[place + 1 :]:
            if depth == 0 and token in ("=", ".", ":"):
                break
            if token in ("(", "{"):
                depth += 1
            elif token in (")", "}"):
                depth -= 1
                typed = min(typed, depth)
            elif token == ":":
                typed = depth
            elif NAME.match(token) and not typed:
                names.add(token)
        return names

    @staticmethod
    def bound_by_type(tokens, place):
        """The names of `(a b : type)` and of `{a b : type}`."""
        names = set()
        for token, _ in tokens[place + 1 :]:
            if token == ":":
                return names
            if not NAME.match(token):
                break
            names.add(token)
        return set()

    @staticmethod
    def bound_by_case(tokens, place):
        """The names in the pattern of a case, `[ pattern ↦` or `| pattern ↦`."""
        names = set()
        for token, _ in tokens[place + 1 :]:
            if token == "↦":
                return names
            if token in ("|", "[", "]"):
                break
            if NAME.match(token) and token[0].islower():
                names.add(token)
        return set()

    def take_patterns(self, text):
        """Finds the variants in patterns, and gives the names that these bind."""
        bound = set()
        tokens = TOKEN.findall(text)
        for place, token in enumerate(tokens):
            before = tokens[place - 1] if place else ""
            if not NAME.match(token) or before == ".":
                continue
            if token in self.modules:
                self.take("".join(tokens[place : place + 3]), set())
            elif self.is_variant(token, before == "("):
                self.take(token, set())
            else:
                bound.add(token)
        return bound

    def is_variant(self, name, is_head):
        """Whether a name in a pattern is a variant, and not a new name. One that holds something has brackets."""
        word = self.word_of(name)
        if word is None:
            return name in KIT_VARIANTS
        if word.is_declared:
            return True
        return name in word.variants and (is_head or not word.variants[name])

    def take_equation(self, name, text, bound):
        """Finds the words in a line of a definition: in its patterns, in what it comes to, and in its inner functions."""
        text, inner = split_at_where(text)
        left, right = split_at_equals(text)
        if right is None:
            self.take(text, bound)
            return
        bound = bound | self.take_patterns(re.sub(rf"^\s*{re.escape(name)}(?!\S)", "", left))
        bound |= {TOKEN.match(it.strip())[0] for it in inner}
        self.take(right, bound)
        for part in inner:
            left, right = split_at_equals(part)
            if right is None:
                self.take(left, bound)
            else:
                self.take(right, bound | self.take_patterns(left))

    def take_fields(self, text, bound):
        """Finds the words in the fields of a record or the variants of a data. A field is bound in those behind it."""
        head, _, body = text.partition("where\n")
        bound = self.take(re.sub(r"^\s*(?:pub\s+)?(?:record|data)\s+\S+", "", head), bound)
        for part in re.split(r"\n(?=\s*(?:pub\s+)?\w+\s*:)", "\n" + body):
            named = re.match(r"\s*(?:pub\s+)?(\w+)\s*:", part)
            self.take(part[named.end() :] if named else part, bound)
            if named:
                bound.add(named.group(1))
