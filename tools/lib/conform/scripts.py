"""The scripts of `tools/conform hub`: read from hub.scripts, and made ready for one run.

hub.scripts says how it is written. A script is made ready in three steps: what is short for several lines is written out
(`join`, `repeat`), octets that stand as `AA*20` too, and the VMACs and devices are replaced by new ones. What comes of it is a
script in the language of docs/SCRIPTS.md, which bsc replay takes as it is.
"""
import re
from pathlib import Path
from typing import NamedTuple

FILE = Path(__file__).resolve().parent / "hub.scripts"
HEADING = re.compile(r"\[([a-z]+)\.([a-z0-9-]+)\] +(AB\.[\d.]+|-)((?: +[a-z]+)*)")
MARKS = {"profile", "outbox", "connect", "disconnect", "heartbeat"}
COUNTER = "####"
FIRST = 0x1000  # the Message ID of the first message of a `repeat`
WINDOW = 16  # messages of a `repeat` that are under way at most
FLOOD = 5_000_000  # octets that the sockets between a hub and a node don't hold, and that fill its outbox
PLAYED = {"open", "in", "text", "drop", "hold", "free", "at"}


class BadScript(Exception):
    """A script isn't what hub.scripts says that it is."""


class Script(NamedTuple):
    group: str
    title: str
    clause: str  # of Annex AB, or none
    marks: frozenset
    says: str
    lines: tuple  # the number of each in hub.scripts, and its words

    @property
    def name(self):
        return f"{self.group}.{self.title}"


class Identity(NamedTuple):
    """Who a hub or a node is."""

    vmac: str
    device: str
    max_bvlc: int
    max_npdu: int


class Step(NamedTuple):
    """A line of a script that is ready to be played."""

    number: int  # in hub.scripts
    words: tuple
    waits: bool  # whether what is due for it has to come before the next line
    codes: frozenset  # of NAKs by other checks that the message fails too; 0 is silence

    @property
    def line(self):
        return " ".join(self.words)

    @property
    def octets(self):
        return bytes.fromhex("".join(self.words[2:]))


def read(text):
    """The scripts of a text, in order."""
    scripts, lines = [], []
    for number, line in enumerate(text.splitlines(), 1):
        words = line.split()
        if line.startswith("["):
            scripts.append((number, line, lines := []))
        elif words and scripts:
            lines.append((number, tuple(words)))
    found = [script_of(*it) for it in scripts]
    names = [it.name for it in found]
    twice = next((it for it in names if names.count(it) > 1), None)
    if twice:
        raise BadScript(f"two scripts have the name {twice}")
    return found


def script_of(number, heading, lines):
    parts = HEADING.fullmatch(heading.rstrip())
    marks = frozenset(parts[4].split()) if parts else frozenset()
    if not parts or marks - MARKS:
        raise BadScript(f"line {number} is no heading of a script: {heading}")
    # What a script is about stands right below its heading.
    says = []
    while lines and lines[0][1][0] == "#":
        says += lines.pop(0)[1][1:]
    if not says or not lines:
        raise BadScript(f"line {number}: the script says nothing, or has no line")
    return Script(parts[1], parts[2], "" if parts[3] == "-" else parts[3], marks, " ".join(says), tuple(lines))


def all_scripts():
    return read(FILE.read_text(encoding="utf-8"))


def written_out(lines, full, window):
    """The lines of a script without `join` and `repeat`: the number of each, its words, and whether it waits. `full` is how many
    messages fill an outbox and the sockets before it, `window` how many are under way in a `repeat`."""
    out = []
    inside = None
    for number, words in lines:
        if words[0] == "repeat" and inside is None:
            inside, times = [], words[1]
        elif words[0] == "end" and inside is not None:
            out += repeated(inside, full, full + 1) if times == "full" else repeated(inside, int(times), window)
            inside = None
        elif inside is not None:
            inside.append((number, words))
        elif words[0] == "join":
            out += [(number, line, True) for name in words[1:] for line in joining(name)]
        else:
            out.append((number, words, True))
    if inside is not None:
        raise BadScript("a `repeat` has no end")
    return out


def joining(name):
    """The lines by which a node joins: A has the VMAC 02000000000A and the device AA..AA."""
    return ("open", name), ("in", name, "0600", "0001", f"02000000000{name}", 32 * name, "0640", "05D9")


def repeated(lines, times, window):
    """Lines so many times, with no wait between them but behind each window."""
    out, under_way = [], 0
    for turn in range(times):
        for number, words in lines:
            under_way += 1
            waits = under_way % window == 0
            out.append((number, tuple(it.replace(COUNTER, f"{FIRST + turn:04X}") for it in words), waits))
    number, words, _ = out[-1]
    return [*out[:-1], (number, words, True)]


def octets_of(word, longest):
    """A word of octets written out: AA*20 is twenty times AA, AA*MAX-10 as many as the hub takes but for ten."""
    digits, star, count = word.partition("*")
    if not star:
        return word
    few = re.fullmatch(r"MAX([+-]\d+)?", count)
    return digits * (longest + int(few[1] or 0) if few else int(count))


def ready(script, hub, stand_ins, outbox=None):
    """The steps of a script, for a hub of this identity. `stand_ins` gives the word that stands for a VMAC or a device."""
    steps, codes = [], frozenset()
    full = (outbox or 0) + FLOOD // hub.max_bvlc
    for number, words, waits in written_out(script.lines, full, min(WINDOW, outbox or WINDOW)):
        if words[:2] == ("#", "or"):
            codes = frozenset(0 if it == "silence" else int(it) for it in words[2:])
        elif not words[0].startswith("#"):
            if words[0] not in PLAYED:
                raise BadScript(f"line {number} is no line of a script: {' '.join(words)}")
            if words[0] == "in":
                octets = [octets_of(it, hub.max_bvlc) for it in words[2:]]
                words = (*words[:2], *map(stand_ins, octets))
            steps.append(Step(number, words, waits, codes))
            codes = frozenset()
    return steps


def is_flood(step):
    """Whether a step is one of those that fill an outbox."""
    return step.words[0] == "in" and len(step.octets) > 3 and step.octets[2] >= FIRST >> 8


def held_later(steps, outbox, came):
    """The same steps, with the `hold` where it stands for what was seen: of a flood so many messages came to the node that is held.
    Those that an outbox doesn't hold were taken before it was full, and stood in the sockets."""
    flood = [n for n, it in enumerate(steps) if is_flood(it)]
    later = max(0, min(came - outbox, len(flood) - outbox - 1))
    at = next(n for n, it in enumerate(steps) if it.words[0] == "hold")
    to = flood[later] - 1
    return [*steps[:at], *steps[at + 1 : to + 1], steps[at], *steps[to + 1 :]]


class StandIns:
    """New VMACs and devices for those of a script, the same one for the same word. The hub's own stand for themselves."""

    def __init__(self, hub, draw):
        self.words = {"0200000000FF": hub.vmac, "00112233445566778899AABBCCDDEEFF": hub.device}
        self.draw = draw

    def __call__(self, word):
        if re.fullmatch(r"0200000000[0-9A-F]{2}", word):
            # Random-48, as docs/reference/DEFINITIONS.md has it.
            return self.words.get(word) or self.new(word, bytes([self.draw(1)[0] & 0xF0 | 2]) + self.draw(5))
        if re.fullmatch(r"([0-9A-F])\1{31}", word):
            return self.words.get(word) or self.new(word, self.draw(16))
        return word

    def new(self, word, octets):
        self.words[word] = octets.hex().upper()
        return self.words[word]

    def vmacs(self):
        return {bytes.fromhex(it) for it in self.words.values() if len(it) == 12}


def hub_line(hub, outbox):
    """The line by which bsc replay has a hub like this one."""
    rows = 64
    most = 2**30 // (rows * hub.max_bvlc)
    frames = max(2, min(outbox or 1024, 1024, most))
    return f"hub {hub.vmac} {hub.device} {hub.max_bvlc:04X} {hub.max_npdu:04X} {rows} {frames}"
