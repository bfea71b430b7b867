"""Reads a script and the text that `bsc replay` writes for it as a course. docs/SCRIPTS.md has both languages.

The text doesn't say which line of the script a line of it belongs to. It follows from their order: what a line of the
script comes to stands before what the next one does, its own lines first, then what is taken from the outboxes. For that
the reader keeps of each name whether it has joined, is held, or was asked to disconnect, and since when it waits. It makes
no line of the text: it only sorts them.
"""
from collections import deque

from course import NO_BREAK, Arrow, BadText, Change, Course, Line, Mark, Note, Time
from message import (DISCONNECT_ACK, DISCONNECT_REQUEST, RESULT, Message, count, digits_of, name_of, octets_in, told_of,
                     words_of_checks)

HUB = "hub"
SHOWN = 60  # what is shown of a line that doesn't belong there
CUT_SHORT = (["fault", "read"], ["fault", "memory"])  # the last lines of a run that wasn't made to its end
NAMED = 3  # how many names a remark has before it says how many more there are
WAITS = {"1008 connect wait": 10_000, "1008 idle": 600_000, "1000": 10_000}  # after which the clock closes a name


class TextEnds(Exception):
    """The text ends before what a line of the script comes to."""


class Peer:
    """An open name: its connection, whether that has ended, and since when its waits last."""

    def __init__(self, now):
        self.connection = None
        self.ended = False
        self.held = False
        self.asked = None  # the Message ID by which it was asked to disconnect
        self.since = {"1008 connect wait": now, "1008 idle": now}

    def state(self):
        if self.connection is None or self.ended:
            return "open"
        return "held" if self.held else "joined"


def lines_of(text):
    """The lines of an input as lists of words: only spaces stand between words, and one CR may stand before an LF."""
    lines = text.split("\n")
    lines = [it.removesuffix("\r") for it in lines[:-1]] + lines[-1:]
    return [[word for word in it.split(" ") if word] for it in lines]


def list_of(names):
    """Names in words, the first few of them where they are many."""
    shown = names if len(names) <= NAMED + 1 else [*names[:NAMED], f"{len(names) - NAMED} more"]
    return " and ".join(filter(None, [", ".join(shown[:-1]), shown[-1]]))


def counted(words):
    """The counts of a hub, but for those of nothing."""
    return ", ".join(it.replace("=", NO_BREAK) for it in words if not it.endswith("=0")) or "nothing"


class Reader:
    def __init__(self, text):
        self.text = deque(it for it in lines_of(text) if it)
        self.number_in_text = 0
        self.records = []
        self.lines = {}
        self.open = {}
        self.names = {}  # the name of each connection
        self.now = 0
        self.longest = 0  # that the hub takes
        self.checks = words_of_checks()

    # The text.

    def next_is(self, name, *words):
        """Whether the next line of the text is of this name, and goes on with one of these words."""
        line = self.text[0] if self.text else [""]
        return line[0] == name and (not words or line[1:2] and line[1] in words)

    def take(self, name, *words):
        """The words of the next line behind its name. It has to be of this name, and go on with one of these words."""
        if not self.text or self.text[0][:2] in CUT_SHORT:
            raise TextEnds
        if not self.next_is(name, *words):
            raise BadText(f"a line of {name} is due, and line {self.number_in_text + 1} of the text is: {self.next_words()}")
        self.number_in_text += 1
        return self.text.popleft()[1:]

    def next_words(self):
        return " ".join(self.text[0])[:SHOWN]

    # Records.

    def add(self, *records):
        self.records.extend(records)

    def change(self, name):
        self.add(Change(name, self.open[name].state() if name in self.open else "away"))

    def end(self, connection, words):
        """A connection has ended: its name isn't joined any more."""
        name = self.names[connection]
        peer = self.open.get(name)
        if peer and peer.connection == connection:
            peer.ended = True
            self.add(Mark(name, words, "refused"))
            self.change(name)

    def send(self, start, end, message, said="", fate="came"):
        self.add(Arrow(start, end, name_of(message), told_of(message), said, fate, octets=digits_of(message.octets)))

    def take_out(self, name):
        """A message that the hub puts."""
        message = Message(octets_in(self.take(name, "out")[1:]))
        is_nak = message.function == RESULT
        self.send(HUB, name, message, fate="refused" if is_nak else "came")
        if message.function == DISCONNECT_REQUEST and not message.origin:
            self.open[name].asked = message.id
            self.open[name].since["1000"] = self.now
        return message

    def take_gone(self, name):
        """What a connection came to, where one leaves."""
        if not self.next_is(name, "gone"):
            return ""
        _, ending, taken = self.take(name, "gone")
        return f"connection {self.open[name].connection} leaves: {ending}, {taken} taken"

    def take_close(self, name):
        """The hub closes a WebSocket."""
        code = " ".join(self.take(name, "close")[1:])
        self.add(Arrow(HUB, name, f"closes with {code}", said=self.take_gone(name), closes=True))
        self.leave(name)

    def leave(self, name):
        del self.open[name]
        self.change(name)

    # What the outboxes are emptied to, of all names that aren't held.

    def is_of_outbox(self, line):
        name, what, *words = line
        if what == "out":
            message = Message(octets_in(words))
            return bool(message.origin) or message.function == DISCONNECT_REQUEST
        return what == "close" and words == ["1008", "outbox", "full"]

    def empty(self):
        while self.text and len(self.text[0]) > 2:
            name = self.text[0][0]
            if name not in self.open or self.open[name].held or not self.is_of_outbox(self.text[0]):
                break
            if self.next_is(name, "out"):
                self.take_out(name)
            else:
                self.take_close(name)

    # The lines of a script.

    def hub(self, vmac, _, longest, *__):
        self.longest = int(longest, 16)
        self.lines[HUB] = Line(HUB, vmac.upper(), is_hub=True)

    def opens(self, name):
        self.open[name] = Peer(self.now)
        self.lines.setdefault(name, Line(name))
        self.change(name)

    def binary(self, name, *words):
        message = Message(octets_in(words))
        peer = self.open[name]
        peer.since["1008 idle"] = self.now
        if peer.asked is not None and self.is_done_without_reply(name, message):
            return
        if self.next_is(name, "out"):
            self.send(name, HUB, message)
            if self.take_out(name).function == DISCONNECT_ACK:
                self.take_close(name)
            return
        said, *words = self.take(name, "silent", *self.replies)
        if said == "silent":
            self.send(name, HUB, message, f"met with silence: {words[0]}, {self.checks.get(words[0], 'a check fails')}", "lost")
        else:
            self.replies[said](self, name, message, words)

    def is_done_without_reply(self, name, message):
        """Of a name that was asked to disconnect: the answer to that closes, and another answer does nothing."""
        if not self.is_answer(message) or message.flags and self.next_is(name, "silent"):
            return False
        is_for_it = message.function == DISCONNECT_ACK or message.payload[0] == DISCONNECT_REQUEST
        if is_for_it and message.id == self.open[name].asked:
            self.send(name, HUB, message)
            self.take_close(name)
        else:
            self.send(name, HUB, message, "nothing is done about it")
        return True

    def is_answer(self, message):
        """Whether a name that was asked to disconnect may answer so. Of one with destination options the text says it."""
        is_one = message.function in (RESULT, DISCONNECT_ACK) and message.flags in (0x00, 0x02)
        return is_one and message.is_whole() and message.is_in_range() and len(message.octets) <= self.longest

    def joined(self, name, message, words):
        connection, replaced = words[0], words[2:]
        self.open[name].connection = connection
        self.names[connection] = name
        told = f", and replaces connection {replaced[0]} ({self.names[replaced[0]]})" if replaced else ""
        self.lines[name] = Line(name, digits_of(message.field("VMAC")))
        self.send(name, HUB, message, f"joins as connection {connection}{told}")
        self.change(name)
        if replaced:
            self.end(replaced[0], f"connection {replaced[0]} ends: replaced")
        self.take_out(name)

    def refused(self, name, message, why):
        self.send(name, HUB, message, f"refused: {why}", "refused")
        if self.next_is(name, "out"):
            self.take_out(name)
        self.take_close(name)

    def duplicate(self, name, message, words):
        holder = "the hub itself" if words[0] == HUB else f"connection {words[0]} ({self.names[words[0]]})"
        self.refused(name, message, f"{holder} has this VMAC")

    def tablefull(self, name, message, words):
        self.refused(name, message, f"the table is full, of {count(int(words[0]), 'row')}")

    def stopped(self, name, message, _):
        if self.open[name].connection is None:
            self.refused(name, message, "the hub has stopped")
        else:
            self.dropped(name, message, "the hub has stopped")

    def worn(self, name, message, _):
        self.refused(name, message, "the hub is worn")

    def dropped(self, name, message, why):
        self.send(name, HUB, message, f"dropped: {why}", "lost")

    def sent(self, name, message, words):
        self.send(name, HUB, message, f"into the outbox of {self.names[words[0]]}")

    def full(self, name, message, words):
        self.dropped(name, message, f"the outbox of {self.names[words[0]]} is full")
        self.end(words[0], f"connection {words[0]} ends: full")

    def long(self, name, message, words):
        self.dropped(name, message, f"it is longer than {self.names[words[0]]} takes")

    def noholder(self, name, message, _):
        self.dropped(name, message, f"nobody holds {digits_of(message.destination)}")

    def notcurrent(self, name, message, words):
        self.dropped(name, message, f"its connection has ended: {words[0]}")

    def sentall(self, name, message, words):
        lists = dict(it.split("=") for it in words)
        to, missed, skipped = ([self.names[it] for it in lists[of].split(",") if it != "-"] for of in ("to", "missed", "skipped"))
        if not to:
            self.dropped(name, message, "it joins no outbox")
        else:
            self.send(name, HUB, message, f"into the outbox{'es' if len(to) > 1 else ''} of {list_of(to)}")
        for names, what, why in ((missed, "missed", "the outbox is full"), (skipped, "skipped", "too long for it")):
            if len(names) > NAMED:
                self.add(Mark(HUB, f"{what} by {list_of(names)}: {why}", "lost"))
            else:
                self.add(*(Arrow(HUB, it, f"{what}: {why}", f"ID {message.id}", fate="lost") for it in names))

    replies = {it.__name__: it for it in (
        joined, duplicate, tablefull, stopped, worn, sent, full, long, noholder, notcurrent, sentall)}

    def textual(self, name):
        self.add(Arrow(name, HUB, "a text message", fate="lost"))
        self.take_close(name)

    def drop(self, name):
        self.add(Arrow(name, HUB, "closes its WebSocket", said=self.take_gone(name), closes=True))
        self.leave(name)

    def hold(self, name):
        self.open[name].held = True
        self.add(Mark(name, "held: its outbox isn't emptied"))
        self.change(name)

    def free(self, name):
        self.open[name].held = False
        self.add(Mark(name, "freed: its outbox is emptied"))
        self.change(name)

    def at(self, ms):
        self.now = int(ms)
        self.add(Time(self.now))
        while self.text and self.text[0][1:2] == ["close"] and self.is_of_clock(self.text[0]):
            self.take_close(self.text[0][0])

    def is_of_clock(self, line):
        """Whether a line closes a name whose wait has passed by now."""
        code = " ".join(line[2:])
        since = self.open[line[0]].since.get(code) if line[0] in self.open else None
        return since is not None and since + WAITS[code] <= self.now

    def stop(self):
        words = self.take(HUB, "counts", "stopped")
        if words[0] == "stopped":
            self.add(Mark(HUB, "told to stop: it has stopped already", "refused"))
            return
        self.add(Mark(HUB, f"stops: {counted(words[1:])}"))
        for name, peer in self.open.items():
            if peer.connection is not None:
                peer.ended = True
                self.change(name)

    def counts(self):
        words = self.take(HUB, "counts", "worn")
        told = "no counts: it is worn" if words[0] == "worn" else f"counts: {counted(words[1:])}"
        self.add(Mark(HUB, told))

    does = {"hub": hub, "open": opens, "in": binary, "text": textual, "drop": drop, "hold": hold, "free": free,
            "at": at, "stop": stop, "counts": counts}

    def line(self, words):
        self.does[words[0]](self, *words[1:])
        self.empty()


def read_line(reader, number, words):
    try:
        reader.line(words)
    except BadText as bad:
        raise BadText(f"line {number} of the script: {bad}") from None
    except (KeyError, ValueError, TypeError, IndexError):
        raise BadText(f"line {number} of the script is no line of a script, or the text isn't what it comes to") from None


def course_of(reader, script):
    """The course of a script, by a reader that has the text that was written for it."""
    captions, remark = [], []
    for number, words in enumerate([*lines_of(script), []], 1):
        is_remark = bool(words) and words[0].startswith("#")
        if is_remark:
            remark.append(" ".join(words).lstrip("# "))
        elif remark:
            # What stands above the hub line is said of the whole.
            captions.append(" ".join(remark)) if not reader.lines else reader.add(Note(" ".join(remark)))
            remark = []
        if reader.text and reader.text[0] == ["fault", "script", "line", str(number)]:
            reader.add(Note(f"Line {number} is refused, and the script ends with it."))
            reader.text.clear()
            break
        if words and not is_remark:
            try:
                read_line(reader, number, words)
            except TextEnds:
                reader.add(Note(f"The text ends here, at line {number} of the script."))
                reader.text.clear()
                break
    if reader.text:
        raise BadText(f"line {reader.number_in_text + 1} of the text belongs to no line of the script: {reader.next_words()}")
    return Course(" ".join(captions), list(reader.lines.values()), reader.records)


def read(script, text):
    """The course of a script, by the text that was written for it."""
    return course_of(Reader(text), script)
