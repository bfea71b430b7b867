"""Reads the journals of a hub as a course. docs/AUDIT.md has their lines.

The entries are drawn in the order of their places, whichever journal they stand in. Nothing is judged: whether a hub may
have this history is for `bsc audit` to say. Places that no entry has are marked as a gap."""
import re
from typing import NamedTuple

from course import Arrow, BadText, Change, Course, Line, Mark, Note, Place, tied
from message import Message, count, digits_of, name_of, octets_in, told_of
from replay import HUB, NAMED, SHOWN, counted, list_of

NUMBER = r"(0|[1-9]\d{0,18})"
NUMBERS = rf"(-|{NUMBER}(?:,{NUMBER})*)"
LOOKS = rf"(-|{NUMBER}:{NUMBER}(?:,{NUMBER}:{NUMBER})*)"
END = "(left|replaced|full|stopped)"
COUNTS = r"counts(?: [a-z]+=\d+){9}"
HUB_LINE = re.compile(r"hub [0-9A-F]{12} [0-9A-F]{32} [0-9A-F]{4} [0-9A-F]{4} \d+ \d+ \d+")
ENTRY = re.compile(rf"{NUMBER} {NUMBER} (connect|forward|leave|stop|count) ?(.*)")
CALLS = {name: re.compile(form) for name, form in (
    ("connect", rf"[0-9A-F]{{52}} (joined {NUMBER}( replacing {NUMBER})?|duplicate (hub|{NUMBER})|tablefull {NUMBER}|stopped)"),
    ("forward", rf"{NUMBER} ([0-9A-F]{{2}})+ looks {LOOKS} ((sent|full|long) {NUMBER}|noholder|stopped|notcurrent {END}"
                rf"|sentall to={NUMBERS} missed={NUMBERS} skipped={NUMBERS})"),
    ("leave", rf"{NUMBER} {NUMBER} {NUMBER} gone {END} {NUMBER}"), ("stop", COUNTS), ("count", COUNTS))}


class Entry(NamedTuple):
    """A line of a journal: its place, who called, the call, and the words behind it."""

    place: int
    caller: str
    call: str
    words: list[str]


class Journals:
    """What stands in some journals: hub lines, entries, and what was denied, with the place of the entry before it."""

    def __init__(self):
        self.hubs = []
        self.entries = []
        self.denied = {}

    def add(self, name, text):
        lines = [it.removesuffix("\r") for it in text.split("\n")]
        before = None
        for number, line in enumerate(lines[:-1] if lines[-1] == "" else lines, 1):
            entry = entry_of(line)
            if entry:
                self.entries.append(entry)
                before = entry.place
            elif line.startswith("deny"):
                self.denied.setdefault(before, []).append(line)
            elif HUB_LINE.fullmatch(line):
                self.hubs.append(line.split())
            else:
                raise BadText(f"line {number} of {name} is no line of a journal: {line[:SHOWN]}")


def entry_of(line):
    form = ENTRY.fullmatch(line)
    if not form or not CALLS[form[3]].fullmatch(form[4]):
        return None
    return Entry(int(form[1]), form[2], form[3], form[4].split())


def numbers_in(words):
    return [] if words == "-" else words.split(",")


class Reader:
    def __init__(self, journals):
        self.journals = journals
        self.lines = {HUB: Line(HUB, journals.hubs[0][1] if journals.hubs else "", is_hub=True)}
        self.records = []
        self.live = []  # the connections that haven't ended, in the order of joining
        self.joined = {it.words[2]: it for it in journals.entries if it.call == "connect" and it.words[1] == "joined"}

    # Records.

    def add(self, *records):
        self.records.extend(records)

    def arrow(self, start, end, words, under="", said="", fate="came", **more):
        self.add(Arrow(start, end, words, tied(under), tied(said), fate, **more))

    def line_of(self, connection):
        """The name of the line of a connection. Where no entry tells of its connect it has no words, and is drawn from here."""
        name = f"connection {connection}"
        entry = self.joined.get(connection)
        if name not in self.lines:
            self.lines[name] = Line(name, entry.words[0][:12] if entry else "")
            self.add(*([] if entry else [Change(name, "open")]))
        return name

    def lines_of(self, connections):
        return [self.line_of(it) for it in connections]

    def end(self, connection, why):
        if connection in self.live:
            self.live.remove(connection)
        name = self.line_of(connection)
        self.add(Mark(name, tied(f"ends: {why}"), "refused"), Change(name, "open"))

    # Entries.

    def connect(self, it):
        who = octets_in(it.words[:1])
        said, *words = it.words[1:]
        name = self.line_of(words[0]) if said == "joined" else f"caller {it.caller}"
        self.lines.setdefault(name, Line(name))
        under = f"VMAC {digits_of(who[:6])}, device {digits_of(who[6:8])}..{digits_of(who[20:22])}"
        if said == "joined":
            self.add(Change(name, "open"))
            self.arrow(name, HUB, "connect", f"{under}\nof caller {it.caller}", f"joins as connection {words[0]}", octets=it.words[0])
            self.add(Change(name, "joined"))
            self.live.append(words[0])
            if len(words) > 1:
                self.end(words[2], f"replaced by connection {words[0]}")
            return
        why = {"duplicate": lambda: "the hub itself has this VMAC" if words == [HUB] else f"connection {words[0]} has this VMAC",
               "tablefull": lambda: f"the table is full, of {count(int(words[0]), 'row')}",
               "stopped": lambda: "the hub has stopped"}[said]()
        self.arrow(name, HUB, "connect", under, f"refused: {why}", "refused", octets=it.words[0])

    def forward(self, it):
        connection, octets, _, looks, said, *words = it.words
        message = Message(octets_in([octets]))
        taken = dict(look.split(":") for look in numbers_in(looks))
        why = {"full": lambda: f"the outbox of {self.line_of(words[0])} is full",
               "long": lambda: f"it is longer than {self.line_of(words[0])} takes",
               "noholder": lambda: f"nobody holds {digits_of(message.destination)}",
               "notcurrent": lambda: f"its connection has ended: {words[0]}",
               "stopped": lambda: "the hub has stopped"}.get(said)
        to, missed, skipped = [words, [], []] if said == "sent" else [[], [], []]
        if said == "sentall":
            to, missed, skipped = (numbers_in(it.split("=")[1]) for it in words)
            why = None if to else lambda: "it joins no outbox"
        name = self.line_of(connection)
        fate = "lost" if why else "came"
        self.arrow(name, HUB, name_of(message), told_of(message), f"dropped: {why()}" if why else "", fate, octets=octets)
        self.outboxes(to, "into its outbox", "came", taken)
        self.outboxes(missed, "missed: the outbox is full", "lost", taken)
        self.outboxes(skipped, "skipped: too long for it", "lost", taken)
        if said == "full":
            self.end(words[0], "its outbox was full")

    def outboxes(self, connections, words, fate, taken):
        """What becomes of a message at some outboxes: an arrow each, or a remark where they are many."""
        names = self.lines_of(connections)
        if len(names) > NAMED:
            self.add(Mark(HUB, tied(f"{words}: {list_of(names)}"), fate))
            return
        for connection, name in zip(connections, names):
            found = f"{taken[connection]} taken from it before" if connection in taken else ""
            self.arrow(HUB, name, words, found, fate=fate)

    def leave(self, it):
        connection, taken, empties, _, ending, _ = it.words
        name = self.line_of(connection)
        if connection in self.live:
            self.live.remove(connection)
        said = f"gone: {ending}, {count(int(taken), 'frame')} taken, and found empty {count(int(empties), 'time')}"
        self.arrow(name, HUB, "leave", said=said, closes=True)
        self.add(Change(name, "away"))

    def stop(self, it):
        self.add(Mark(HUB, f"stops: {counted(it.words[1:])}"))
        self.add(*(Change(self.line_of(connection), "open") for connection in self.live))
        self.live = []

    def count(self, it):
        self.add(Mark(HUB, f"counts: {counted(it.words[1:])}"))

    does = {"connect": connect, "forward": forward, "leave": leave, "stop": stop, "count": count}

    # The whole.

    def gap(self, due, place):
        """Places that no entry has, and places that an entry before had too."""
        if place == due - 1:
            self.add(Note(f"The place {place} is claimed once more."))
        elif place > due:
            missing = f"place {due} is" if place == due + 1 else f"places {due:,} to {place - 1:,} are"
            self.add(Note(f"The {missing} missing: what happened there no journal tells."))

    def deny(self, place):
        for words in self.journals.denied.get(place, ()):
            behind = "before any entry" if place is None else f"behind place {place}"
            self.add(Note(f"{words} (its journal has it {behind}; the hub never saw what was denied)"))

    def read(self):
        if not self.journals.hubs:
            self.add(Note("There is no hub line."))
        self.deny(None)
        due = 0
        for it in sorted(self.journals.entries, key=lambda it: it.place):
            self.gap(due, it.place)
            self.add(Place(it.place))
            self.does[it.call](self, it)
            if it.place >= due:
                self.deny(it.place)
            due = it.place + 1


def caption_of(journals):
    if not journals.hubs:
        return ""
    _, _, _, longest, _, rows, frames, _ = journals.hubs[0]
    return f"A hub of {count(int(rows), 'row')} and outboxes of {count(int(frames), 'frame')}. It takes {int(longest, 16):,} octets."


def read(texts):
    """The course of the journals of a hub: each is a name and a text."""
    journals = Journals()
    for name, text in texts:
        journals.add(name, text)
    if len(journals.hubs) > 1:
        raise BadText(f"there are {len(journals.hubs)} hub lines: these are journals of more than one hub, or one stands there twice")
    reader = Reader(journals)
    reader.read()
    return Course(caption_of(journals), list(reader.lines.values()), reader.records)
