"""Messages of journals and of recordings, as packets of a capture."""
import re

import journal
import replay
from conform.capture import Packet
from course import Arrow, BadText, Time
from message import octets_in

HUB = "hub"
MILLISECOND = 1000
SHOWN = 60
RECORD = re.compile(r"(\d{1,15}(?:\.\d{1,3})?) +(\w{1,16}) +([<>]) *((?: *[0-9A-Fa-f])*)")


def forwarded(octets, origin):
    """A message as the hub passes it on: docs/FORMAT.md, What the hub passes on."""
    is_broadcast = octets[4:10] == b"\xFF" * 6
    flags = octets[1] | 0x08 if is_broadcast else (octets[1] | 0x08) & ~0x04
    return octets[:1] + bytes((flags,)) + octets[2:4] + origin + octets[4 if is_broadcast else 10:]


class OfJournals:
    """The messages that are handed in, and what of them is passed on, in the order of their places. A journal tells no times:
    a place counts as a millisecond, and what is passed on comes a microsecond behind."""

    def __init__(self, files):
        journals = journal.Journals()
        for name, text in files:
            journals.add(name, text)
        self.entries = sorted(journals.entries)
        self.vmacs = {it.words[2]: bytes.fromhex(it.words[0][:12]) for it in self.entries if it.call == "connect" and it.words[1] == "joined"}
        self.names = [HUB, *sorted({name_of(it) for it in self.connections()}, key=lambda name: int(name.rsplit("-", 1)[1]))]

    def connections(self):
        for it in self.entries:
            if it.call == "forward":
                yield it.words[0]
                yield from receivers(it)

    def packets(self):
        for it in self.entries:
            if it.call != "forward":
                continue
            connection, digits, _, _, *reply = it.words
            octets = octets_in([digits])
            name = name_of(connection)
            yield Packet(it.place * MILLISECOND, name, HUB, octets, f"place {it.place}: connection {connection}, {' '.join(reply)}")
            origin = self.vmacs.get(connection)
            if origin is None:
                continue
            for number, receiver in enumerate(receivers(it), 1):
                yield Packet(it.place * MILLISECOND + number, HUB, name_of(receiver), forwarded(octets, origin), f"place {it.place}: to connection {receiver}")


def name_of(connection):
    return f"connection-{connection}"


def receivers(it):
    """The connections whose outboxes a message joined."""
    said, *words = it.words[4:]
    if said == "sent":
        return words[:1]
    return journal.numbers_in(words[0].removeprefix("to=")) if said == "sentall" else []


class OfRecording:
    """The traffic of peers whole. A line is one message: `MS NAME > OCTETS` was sent by a peer, `MS NAME < OCTETS` came to it."""

    def __init__(self, text):
        self.found, self.names = [], [HUB]
        for number, line in enumerate(text.splitlines(), 1):
            if not line.strip() or line.lstrip().startswith("#"):
                continue
            record = RECORD.fullmatch(line.strip())
            octets = record and octets_in(record[4].split())
            if octets is None:
                raise BadText(f"line {number} is no message of a recording: {line[:SHOWN]}")
            self.add(round(float(record[1]) * MILLISECOND), record[2], record[3] == ">", octets, number)

    def add(self, at, name, is_sent, octets, number):
        if name not in self.names:
            self.names.append(name)
        # Of two messages in one millisecond the later one comes a microsecond behind.
        at = max([at, *(it.at + 1 for it in self.found[-1:])])
        ends = (name, HUB) if is_sent else (HUB, name)
        self.found.append(Packet(at, *ends, octets, f"line {number}"))

    def packets(self):
        return self.found


class OfReplay:
    """The messages of a script and of the text that bsc replay wrote for it, with the times that the script sets."""

    def __init__(self, script, text):
        course = replay.read(script, text)
        self.names = [HUB, *(it.name for it in course.lines if it.name != HUB)]
        self.found = []
        now = 0
        for it in course.records:
            if isinstance(it, Time):
                now = max(now, it.ms * MILLISECOND)
            elif isinstance(it, Arrow) and it.octets:
                self.found.append(Packet(now, it.start, it.end, octets_in([it.octets]), it.said))
                now += 1

    def packets(self):
        return self.found
