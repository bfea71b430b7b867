"""Reads a network's script and the text that `bsc simulate` writes for it as a course. docs/NETWORK.md has both.

The script says what moves, the text which links were dialled and what was delivered. Which message moves neither says: it
follows from the rules of nodes and hubs, which `network` follows. Where the text has other links or deliveries than these
rules come to, it is refused."""
from collections import deque

from course import Arrow, BadText, Change, Line, Mark, Note, Place, Time, tied
from message import Message, count, digits_of, name_of, octets_in, told_of
from network import DOWN, UP, Hub, Network
from node import PRIMARY, Identity
from replay import CUT_SHORT, NAMED, SHOWN, TextEnds, course_of, lines_of, list_of

OWN = {"start": "starts", "tick": "is told the time", "finish": "is to end", "send": "sends {npdu} to {vmac}",
       "resolve": "asks for the URIs of {vmac}", "direct": "wants a direct connection to {vmac}",
       "solicit": "asks {vmac} for an Advertisement"}
DIGITS = 24  # what is shown of an NPDU


def short(digits):
    return digits if len(digits) <= DIGITS else f"{digits[:DIGITS]}.. of {len(digits) // 2:,} octets"


def names_of(connections):
    return list_of([it.link.source.name for it in connections])


def words_of(parcel):
    """What a parcel is, and what it says, in words."""
    if parcel.what == "message":
        told = Message(parcel.octets)
        return name_of(told), told_of(told)
    return {"opened": "the WebSocket has opened", "arrived": "a peer has dialled", "closed": f"closes with {parcel.words}"}[parcel.what], ""


def is_nak(parcel):
    return parcel.what == "message" and Message(parcel.octets).field("result code") == b"\1"


def number_of(node):
    return node.name.split()[1]


def written(news):
    """The lines of text of a step: those of its links stand before its deliveries."""
    lines = [f"link {link.number} {number_of(link.source)} {link.target.name}" for _, link in (it for it in news if it[0] == "dials")]
    for _, node, place, sender, is_for_all, npdu in (it for it in news if it[0] == "delivers"):
        reach = "broadcast" if is_for_all else "unicast"
        lines.append(f"{number_of(node)} got {place} {digits_of(sender)} {reach} {digits_of(npdu)}")
    return lines


class Reader:
    def __init__(self, text):
        self.text = deque(it for it in lines_of(text) if it)
        self.number_in_text = 0
        self.is_cut = False
        self.network = Network()
        self.lines = {}
        self.records = []
        self.way = None  # who put what arrived newest, and where it arrived
        self.arrow = None  # where in the records the arrow stands of which what comes of it is told next

    # The text.

    def take(self, line):
        """The next line of the text has to be this one."""
        if not self.text or self.text[0][:2] in CUT_SHORT:
            self.is_cut = True
            raise TextEnds
        if self.text[0] != line.split():
            raise BadText(f"'{line}' is due, and line {self.number_in_text + 1} of the text is: {self.next_words()}")
        self.text.popleft()
        self.number_in_text += 1

    def next_words(self):
        return " ".join(self.text[0])[:SHOWN]

    # Records.

    def add(self, *records):
        self.records.extend(records)

    def send(self, start, end, words, under="", said="", fate="came", is_quiet=False, octets=""):
        """An arrow, or a remark where a node has both ends."""
        self.arrow = len(self.records)
        if start is end:
            self.add(Mark(start.name, tied(f"{words}, by itself\n{under}"), fate))
        else:
            self.add(Arrow(start.name, end.name, words, under, said, fate, is_quiet, octets))

    def mark(self, name, words, fate="came"):
        self.add(Mark(name, tied(words), fate))

    def comes_of(self, words, fate="came"):
        """What comes of the message that arrived."""
        arrow = self.records[self.arrow]
        if isinstance(arrow, Arrow) and isinstance(self.way[1], Hub):
            self.records[self.arrow] = arrow._replace(said=tied(words), fate=arrow.fate if fate == "came" else fate)
            return
        if fate == "lost":
            self.records[self.arrow] = arrow._replace(fate=fate)
        self.mark(self.way[1].name, words, fate)

    def show(self, link, way, parcel, fate="came"):
        """What stands at the front of a way, as an arrow from who put it."""
        self.way = (link.source, link.target) if way == UP else (link.target, link.source)
        words, told = words_of(parcel)
        if fate == "came" and is_nak(parcel):
            fate = "refused"
        under = f"link {link.number}, place {parcel.place}\n{told}".strip()
        self.send(*self.way, words, under, fate=fate, is_quiet=parcel.what != "message" and fate == "came", octets=digits_of(parcel.octets))

    # News.

    def dials(self, link):
        if isinstance(link.target, Hub):
            self.send(link.source, link.target, "dials", f"link {link.number}", is_quiet=True)
        else:
            self.mark(link.source.name, f"dials {link.target.name}: link {link.number}")

    def arrives(self, link, way, parcel):
        self.show(link, way, parcel)

    def joins(self, connection, replaced):
        told = f", and replaces connection {list_of([str(it.number) for it in replaced])}" if replaced else ""
        self.comes_of(f"joins as connection {connection.number}{told}")

    def refuses(self, why):
        self.comes_of(f"refused: {why}", "refused")

    def drops(self, why):
        self.comes_of(f"dropped: {why}", "lost")

    def forwards(self, to, full, skipped, is_for_all):
        if not is_for_all:
            if to:
                self.comes_of(f"into the outbox of {names_of(to)}")
            else:
                self.drops(f"it is longer than {names_of(skipped)} takes" if skipped else f"the outbox of {names_of(full)} is full")
            return
        if to:
            self.comes_of(f"into the outbox{'es' if len(to) > 1 else ''} of {names_of(to)}")
        else:
            self.drops("it joins no outbox")
        for connections, words in ((full, "missed: the outbox is full"), (skipped, "skipped: too long for it")):
            if len(connections) > NAMED:
                self.mark(self.way[1].name, f"{words}: {names_of(connections)}", "lost")
            else:
                self.add(*(Arrow(self.way[1].name, it.link.source.name, words, fate="lost") for it in connections))

    def dropped(self):
        if self.records[self.arrow].words.startswith("closes"):
            self.comes_of("both ends have closed")
        else:
            self.comes_of("dropped: this end has closed", "lost")

    def silent(self):
        self.comes_of("nothing is done about it", "lost")

    def left(self, connection):
        hub, newest = connection.link.target.name, self.records[-1]
        words = f"connection {connection.number} leaves" + ("" if connection.end == "left" else f": {connection.end}")
        if isinstance(newest, Arrow) and newest.end == hub and newest.fate == "came" and not newest.said:
            self.records[-1] = newest._replace(said=tied(words))
        else:
            self.mark(hub, words)

    def ended(self, connection, why):
        words = f"connection {connection.number} ({connection.link.source.name}) ends: {why}"
        self.mark(connection.link.target.name, words, "refused")

    def tells(self, node, words, fate):
        self.mark(node.name, words, fate)

    def uses(self, node, side):
        hub = None if side is None else "hub 0" if side == PRIMARY else "hub 1"
        self.mark(node.name, f"its hub is {hub}" if hub else "has no hub", "came" if hub else "lost")
        self.add(Change(node.name, "joined" if hub else "open"))

    def delivers(self, node, place, sender, is_for_all, npdu):
        words = f"delivers what place {place} sent{' to all' if is_for_all else ''}"
        self.mark(node.name, f"{words}: {short(digits_of(npdu))}, of {digits_of(sender)}")

    def takes(self, connection, frame):
        hub, whose = connection.link.target.name, f"the outbox of {connection.link.source.name} (link {connection.link.number})"
        if frame:
            self.mark(hub, f"takes what place {frame.place} sent from {whose}")
        else:
            self.mark(hub, f"finds {whose} empty" + (f"; its connection has ended: {connection.end}" if connection.end else ""))

    def loses(self, link):
        carried = [(way, parcel) for way in (UP, DOWN) for parcel in link.ways[way]]
        self.send(link.source, link.target, f"link {link.number} is lost", "" if carried else "with nothing on it", fate="lost")
        for way, parcel in carried[:NAMED]:
            self.show(link, way, parcel, "lost")
        if len(carried) > NAMED:
            self.mark(link.source.name, f"and {len(carried) - NAMED} more on this link", "lost")

    def stops(self, hub):
        self.mark(hub.name, "stops")

    shows = {"dials": dials, "arrives": arrives, "joins": joins, "refuses": refuses, "drops": drops, "forwards": forwards,
             "dropped": dropped, "silent": silent, "left": left, "ends": ended, "tells": tells, "uses": uses,
             "delivers": delivers, "takes": takes, "loses": loses, "stops": stops}

    # The lines of a script.

    def hub(self, vmac, device, longest, longest_npdu):
        who = Identity(octets_in([vmac]), octets_in([device]), int(longest, 16), int(longest_npdu, 16))
        self.network.add_hub(who)
        name = self.network.hubs[-1].name
        self.lines[name] = Line(name, vmac.upper(), is_hub=True)

    def node(self, vmac, device, direct=""):
        self.network.add_node(Identity(octets_in([vmac]), octets_in([device]), 1600, 1497), direct == "direct")
        name = self.network.nodes[-1].name
        self.lines[name] = Line(name, vmac.upper() + (", direct" if direct else ""))

    def at(self, ms):
        self.network.now = int(ms)
        self.add(Time(self.network.now))

    does = {"hub": hub, "node": node, "at": at}

    def line(self, words):
        if words[0] in self.does:
            self.does[words[0]](self, *words[1:])
            return
        self.add(Place(self.network.place))
        if not self.network.step(words):
            raise BadText("this step isn't possible here, and the text doesn't say so")
        for line in written(self.network.news):
            self.take(line)
        if words[0] in OWN:
            name = self.network.nodes[int(words[1])].name
            vmac, npdu = "".join(words[2:3]).upper(), short("".join(words[3:]).upper())
            self.mark(name, OWN[words[0]].format(vmac="all" if vmac == "F" * 12 else vmac, npdu=npdu))
        if words[0] == "start":
            self.add(Change(name, "open"))
        for what, *rest in self.network.news:
            self.shows[what](self, *rest)

    def remains(self):
        """What still stands on links and in outboxes."""
        links = [it for it in self.network.links if not it.lost]
        ways = [f"{words_of(parcel)[0]} (link {it.number} {way})" for it in links for way in (UP, DOWN) for parcel in it.ways[way]]
        frames = sum(len(it.outbox) for hub in self.network.hubs for it in hub.there)
        if ways:
            self.add(Note(f"On links still stands: {list_of(ways)}."))
        if frames:
            self.add(Note(f"In outboxes: {count(frames, 'frame')}."))


def read(script, text):
    """The course of a network's script, by the text that was written for it."""
    reader = Reader(text)
    course = course_of(reader, script)
    if not reader.is_cut:
        reader.remains()
    return course
