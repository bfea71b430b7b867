"""Two programs that answer lines of `check`, side by side: the first line that they answer otherwise, made small."""
import re
import shlex
import subprocess
import tempfile
from typing import NamedTuple

from conform.checks import BROADCAST, PHASES, Place, judged
from message import octets_in

ALONE = 400  # questions that are asked one by one where a program ends on one of them
LAST_WORDS = 200  # what is shown of what it said as it ended


class NotRun(Exception):
    """A program can't be run, or doesn't end."""


class Answers(NamedTuple):
    """What a program wrote for lines, one for each that it answered; and how it ended, where it didn't answer all."""

    lines: list
    ended: str


class Run:
    """A program that answers the lines of a file."""

    def __init__(self, words, name, patience):
        self.words, self.name, self.patience = words, name, patience

    def start(self, text):
        self.input, self.output, self.errors = (tempfile.TemporaryFile() for _ in range(3))
        self.input.write(text)
        self.input.seek(0)
        self.asked = text.count(b"\n")
        try:
            self.process = subprocess.Popen(self.words, stdin=self.input, stdout=self.output, stderr=self.errors)
        except OSError as why:
            raise NotRun(f"{self.name} can't be run: {why.strerror}") from None

    def written(self):
        """Waits for the end, and gives all that was written as it is."""
        try:
            self.status = self.process.wait(self.patience)
        except subprocess.TimeoutExpired:
            self.process.kill()
            self.process.wait()
            raise NotRun(f"{self.name} didn't end within {self.patience} s") from None
        self.output.seek(0)
        return self.output.read()

    def answers(self, written):
        lines = [it.rstrip() for it in written.decode("utf-8", "replace").splitlines()]
        if len(lines) >= self.asked and self.status == 0:
            return Answers(lines, "")
        self.errors.seek(0)
        said = self.errors.read().decode("utf-8", "replace").strip()[-LAST_WORDS:]
        how = f"by signal {-self.status}" if self.status < 0 else f"with status {self.status}"
        return Answers(lines, f"it ended {how} behind {len(lines):,} of {self.asked:,} lines" + (f": {said}" if said else ""))

    def asks(self, lines):
        self.start("".join(lines).encode())
        return self.answers(self.written())


class Difference(NamedTuple):
    line: str
    ours: str
    theirs: str


class Line(NamedTuple):
    """A line of check, taken apart."""

    place: str
    phase: str
    longest: int
    octets: bytes

    def text(self):
        return f"{self.place} {self.phase} {self.longest} {self.octets.hex().upper()}".rstrip() + "\n"

    def weight(self):
        """How small it is: fewer octets, then more usual words, then lesser octets."""
        kinds, phases = ("hub", "node", "direct"), ("connected", "request", "accept", "disconnecting")
        place = kinds.index(self.place.split(":")[0])
        return len(self.octets), place, phases.index(self.phase), self.longest != 1600, sum(map(bool, self.octets)), self.octets


def line_of(text):
    place, phase, longest, *octets = text.split()
    return Line(place, phase, int(longest), octets_in(octets))


def place_of(word):
    kind, *vmacs = word.split(":")
    return Place(kind, *(None if it == "-" else bytes.fromhex(it) for it in vmacs))


def is_of_profile(text):
    """Whether the answer to this line is the profile's choice."""
    it = line_of(text)
    verdict = judged(it.octets, place_of(it.place), it.phase, it.longest)
    if verdict.word in ("pass", "carry"):
        return False
    if verdict.word == "silent":
        return verdict.check in ("C1", "C2", "C3", "C4", "C13")
    return len(verdict.failing) > 1 or verdict.check == "C11"


def without_profile(answer):
    """What of an answer the standard says: pass, carry, that nothing answers, or the function and the code of a NAK."""
    word, *rest = answer.split() or [""]
    if word != "nak" or not rest or not re.fullmatch("([0-9A-Fa-f]{2})+", rest[-1]):
        return word
    nak = bytes.fromhex(rest[-1])
    payload = nak[10:] if len(nak) > 1 and nak[1] & 0x04 else nak[4:]
    return f"nak {nak[:4].hex()} {payload[:2].hex()} {payload[3:7].hex()}"


class Comparing:
    """`bsc check` beside another program."""

    def __init__(self, ours, theirs, standard_only=False, patience=120):
        self.ours = Run([ours, "check"], "bsc", patience)
        self.theirs = Run(theirs, shlex.join(theirs), patience)
        self.standard_only = standard_only

    def differ(self, line, one, other):
        if one == other:
            return False
        if not self.standard_only:
            return True
        return without_profile(one) != without_profile(other) and not is_of_profile(line)

    def start(self, lines):
        text = "".join(lines).encode()
        self.ours.start(text)
        self.theirs.start(text)

    def first(self, lines):
        """The first difference among the lines that were started, or None."""
        one, other = self.ours.written(), self.theirs.written()
        if one == other and not self.ours.status and not self.theirs.status:
            return None
        ours, theirs = self.ours.answers(one), self.theirs.answers(other)
        if ours.ended:
            raise NotRun(f"bsc doesn't answer: {ours.ended}")
        for line, it, found in zip(lines, ours.lines, theirs.lines):
            if self.differ(line, it, found):
                return Difference(line, it, found)
        if theirs.ended:
            return self.where_it_ends(lines, ours.lines, theirs.ended)
        return None

    def where_it_ends(self, lines, ours, ended):
        """The first line on which the other program ends. It may hold back answers, so the place is looked for by halves."""
        low, high = 0, len(lines)
        while high - low > 1:
            middle = (low + high) // 2
            if self.theirs.asks(lines[:middle]).ended:
                high = middle
            else:
                low = middle
        return Difference(lines[high - 1], ours[high - 1], ended)

    def each(self, lines):
        """The answers of both to lines that are asked together, and where the other program ends on one, each by itself."""
        ours, theirs = self.ours.asks(lines), self.theirs.asks(lines)
        if ours.ended:
            raise NotRun(f"bsc doesn't answer: {ours.ended}")
        if not theirs.ended:
            return list(zip(lines, ours.lines, theirs.lines))
        found = []
        for line, it in list(zip(lines, ours.lines))[:ALONE]:
            alone = self.theirs.asks([line])
            found.append((line, it, alone.ended or alone.lines[0]))
        return found

    def made_small(self, difference, tell=lambda count: None):
        """The smallest that is found step by step: of all that are a step smaller, the smallest that still differs."""
        best, tried = difference, {difference.line}
        if not any(self.differ(*it) for it in self.each([difference.line])):
            return difference
        while True:
            here = line_of(best.line)
            smaller = sorted({it for it in steps(here) if it.weight() < here.weight() and it.text() not in tried}, key=Line.weight)
            tried.update(it.text() for it in smaller)
            tell(len(tried))
            found = next((Difference(*it) for it in self.each([it.text() for it in smaller]) if self.differ(*it)), None) if smaller else None
            if not found:
                return best
            best = found


PLACES = ("hub", "node:02000000000B", "direct:02000000000B:02000000000A", "direct:02000000000B:-")
ADDRESSES = ((0x08, 6), (0x04, 6), (0x0C, 12))
SHORT = 40  # octets, of a message in which two things are changed at once


def cuts(octets):
    """The message without some octets that stand together, the longest ones first."""
    size = width = len(octets)
    while width:
        for at in range(0, size - width + 1, max(1, width // 2)):
            yield octets[:at] + octets[at + width:]
        width //= 2


def without_flags(octets):
    """The message without an address, or without flags of lists and the first octets behind the addresses."""
    if len(octets) < 4:
        return
    flags = octets[1]
    for bits, width in ADDRESSES:
        if flags & bits == bits:
            yield octets[:1] + bytes((flags & ~bits,)) + octets[2:4] + octets[4 + width:]
    at = 4 + 6 * bin(flags & 0x0C).count("1")
    for bits in (0x01, 0x02, 0x03):
        if flags & bits == bits:
            for width in range(6):
                yield octets[:1] + bytes((flags & ~bits,)) + octets[2:at] + octets[at + width:]


def lesser_octets(octets):
    """The message with one octet made less, and that with octets behind it taken out."""
    for at, octet in enumerate(octets):
        for value in {0, octet & octet - 1 if octet else 0, octet & ~0x20, octet & ~0x80, max(octet - 1, 0)} - {octet}:
            other = octets[:at] + bytes((value,))
            for width in range(4 if len(octets) <= SHORT else 1):
                yield other + octets[at + 1 + width:]


def steps(it):
    """The lines that are a step smaller than this one."""
    octets, size = it.octets, len(it.octets)
    for smaller in (*cuts(octets), *without_flags(octets)):
        yield it._replace(octets=smaller)
        yield it._replace(octets=smaller, longest=max(0, it.longest - size + len(smaller)))
    for place in PLACES:
        for same_or_smaller in (octets, *without_flags(octets)):
            yield it._replace(place=place, octets=same_or_smaller)
    for phase in PHASES:
        yield it._replace(phase=phase)
    for longest in (1600, size, size - 1):
        if longest >= 0:
            yield it._replace(longest=longest)
    for smaller in lesser_octets(octets):
        yield it._replace(octets=smaller)
    if BROADCAST in octets:
        yield it._replace(octets=octets.replace(BROADCAST, bytes.fromhex("02000000000B")))
