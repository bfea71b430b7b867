"""What stands on the links of a network in memory, step by step, by the rules of docs/NETWORK.md.

A network's script says no message, and the text that is written for it says none either. Which one arrives by a step
follows from the rules of nodes (docs/NODE.md), of their hubs (docs/HUB.md) and of the accepting machine (crates/bsc_accept/README.md):
those are followed here. Nothing here is proved. Who uses it compares what is dialled and delivered with the text.

Each step leaves `news`: what came about, one after the other, as tuples that begin with a word.
"""
from collections import deque
from typing import NamedTuple

from message import BROADCAST, CONNECT_ACCEPT, CONNECT_REQUEST, DISCONNECT_ACK, DISCONNECT_REQUEST, RESULT, Message, digits_of, octets_in
from node import HEARTBEAT_ACK, HEARTBEAT_REQUEST, Node, identity_in, is_farewell, message, nak

UP, DOWN = "up", "down"
ROWS, FRAMES, LINKS = 256, 64, 4096
DUPLICATE = "1000"  # with which a WebSocket is closed behind the NAK for a VMAC that another has


class Parcel(NamedTuple):
    """Something on a way: that a WebSocket opened, that a peer dialled, a message, or that the other end has closed."""

    what: str
    place: int
    octets: bytes = b""
    words: str = ""


class Connection:
    """A connection that joined a hub: over which link, who it is, how it ended, and what is in its outbox."""

    def __init__(self, number, link, who):
        self.number, self.link, self.who = number, link, who
        self.end = ""
        self.outbox = deque()


class Hub:
    def __init__(self, name, who):
        self.name, self.who = name, who
        self.stopped = False
        self.joined = 0
        self.there = []  # the connections that haven't left, in the order of joining

    def live(self):
        return [it for it in self.there if not it.end]

    def refusal(self, who):
        """Why a peer may not join and with what it is closed, or None."""
        if self.stopped:
            return "the hub has stopped", "1001"
        if who.vmac == self.who.vmac:
            return "the hub itself has this VMAC", DUPLICATE
        for it in self.live():
            if it.who.vmac == who.vmac and it.who.device != who.device:
                return f"connection {it.number} has this VMAC", DUPLICATE
        return ("the table is full", "1008 table full") if len(self.there) >= ROWS else None


class Link:
    """A link. Where it leads to a hub, the hub's side is a session with a machine."""

    def __init__(self, number, source, target):
        self.number, self.source, self.target = number, source, target
        self.ways = {UP: deque(), DOWN: deque()}
        self.lost = self.over = False
        self.phase = "request"
        self.connection = None

    def has_outbox(self):
        return isinstance(self.target, Hub) and self.phase == "connected" and not self.over and not self.lost


class Network:
    def __init__(self):
        self.hubs, self.nodes, self.links = [], [], []
        self.now = self.place = 0
        self.news = []
        self.failed = []  # the dials that failed in this step

    def add_hub(self, who):
        self.hubs.append(Hub(f"hub {len(self.hubs)}", who))

    def add_node(self, who, direct):
        uri = f"ws://node{len(self.nodes)}/" if direct else ""
        self.nodes.append(Node(self, f"node {len(self.nodes)}", who, uri, len(self.hubs) > 1))

    def tell(self, *news):
        self.news.append(news)

    def put(self, link, way, what, octets=b"", words="", place=None):
        self.links[link].ways[way].append(Parcel(what, self.place if place is None else place, octets, words))

    # Dialling.

    def with_uri(self, uri):
        if len(self.links) >= LINKS:
            return None
        places = {f"ws://hub{n}/": it for n, it in enumerate(self.hubs)} | {it.uri: it for it in self.nodes if it.uri}
        return places.get(uri)

    def dial(self, node, name, uri):
        """A node dials. Where it fails the node is told once the event is over."""
        target = self.with_uri(uri)
        if target is None:
            self.failed.append(name)
            return
        link = Link(len(self.links), node, target)
        self.links.append(link)
        node.holds[name] = (link.number, DOWN)
        self.tell("dials", link)
        self.put(link.number, DOWN, "opened")
        if not isinstance(target, Hub):
            self.put(link.number, UP, "arrived")

    def comes(self, node, event, *words):
        """An event comes to a node, and then the dials that failed."""
        event(node, *words)
        while self.failed:
            node.dial_failed(self.failed.pop(0))

    # The hub's side of a link.

    def close_side(self, link, words):
        self.put(link.number, DOWN, "closed", words=words)
        self.leave(link)

    def leave(self, link):
        """The session is over, and its connection leaves."""
        link.over = True
        if link.connection:
            link.connection.end = link.connection.end or "left"
            link.target.there.remove(link.connection)
            self.tell("left", link.connection)

    def ends(self, connection, why):
        connection.end = why
        self.tell("ends", connection, why)

    def join(self, link, told):
        hub, who = link.target, identity_in(told.payload)
        refusal = hub.refusal(who)
        if refusal:
            why, closing = refusal
            self.tell("refuses", why)
            if closing == DUPLICATE:
                self.put(link.number, DOWN, "message", message(RESULT, told.id, nak(CONNECT_REQUEST, 151)))
            self.close_side(link, closing)
            return
        old = [it for it in hub.live() if it.who.device == who.device]
        hub.joined += 1
        link.connection = Connection(hub.joined, link, who)
        self.tell("joins", link.connection, old)
        for it in old:
            self.ends(it, "replaced")
        hub.there.append(link.connection)
        link.phase = "connected"
        self.put(link.number, DOWN, "message", message(CONNECT_ACCEPT, told.id, hub.who.octets()))

    def forward(self, link, told, place):
        """A hub passes a message on, or drops it."""
        hub, sender = link.target, link.connection
        is_for_all = told.destination == BROADCAST
        if is_for_all:
            others = [it for it in hub.live() if it is not sender]
        else:
            others = [it for it in hub.live() if it.who.vmac == told.destination]
        if hub.stopped or sender.end:
            self.tell("drops", "the hub has stopped" if hub.stopped else f"its connection has ended: {sender.end}")
            return
        if not others:
            self.tell("drops", "it joins no outbox" if is_for_all else f"nobody holds {digits_of(told.destination)}")
            return
        passed = message(told.function, told.id, told.payload, sender.who.vmac, told.destination if is_for_all else b"")
        skipped = [it for it in others if len(passed) > it.who.longest]
        full = [it for it in others if it not in skipped and len(it.outbox) >= FRAMES]
        to = [it for it in others if it not in skipped and it not in full]
        for it in to:
            it.outbox.append(Parcel("message", place, passed))
        self.tell("forwards", to, full, skipped, is_for_all)
        for it in [] if is_for_all else full:
            self.ends(it, "full")

    def reach_side(self, link, parcel):
        """Something arrives at the hub's side."""
        if link.over:
            self.tell("dropped")
        elif parcel.what == "closed":
            self.leave(link)
        else:
            self.hear(link, Message(parcel.octets), parcel.place)

    def hear(self, link, told, place):
        if len(told.octets) > link.target.who.longest:
            self.tell("silent")
        elif told.destination and link.phase == "connected":
            self.forward(link, told, place)
        elif told.destination:
            self.tell("silent")
        elif link.phase == "request" and told.function == CONNECT_REQUEST:
            self.join(link, told)
        elif link.phase == "connected" and told.function == HEARTBEAT_REQUEST:
            self.put(link.number, DOWN, "message", message(HEARTBEAT_ACK, told.id))
        elif link.phase == "connected" and told.function == DISCONNECT_REQUEST:
            self.put(link.number, DOWN, "message", message(DISCONNECT_ACK, told.id))
            self.close_side(link, "1000")
        elif link.phase == "disconnecting" and is_farewell(told, 1):
            self.close_side(link, "1000")
        else:
            self.tell("silent")

    # Steps. Each answers whether it may be made.

    def step(self, words):
        """Makes a step by the words of its line. False where it is refused."""
        self.news = []
        what, number, *rest = words
        done = self.does[what](self, number) if what in self.does else self.of_node(what, number, *rest)
        self.place += done
        return done

    def of_node(self, what, number, *words):
        """An event of a node's own comes to it."""
        node = self.nodes[int(number)] if int(number) < len(self.nodes) else None
        if not node or node.started == (what == "start"):
            return False
        octets = [octets_in(it) for it in (words[:1], words[1:]) if it]
        self.comes(node, node.does[what], *octets)
        return True

    def link_at(self, number):
        link = self.links[int(number)] if int(number) < len(self.links) else None
        return link if link and not link.lost else None

    def arrives(self, number, way):
        link = self.link_at(number)
        if not link or not link.ways[way]:
            return False
        parcel = link.ways[way].popleft()
        end = link.source if way == DOWN else link.target
        self.tell("arrives", link, way, parcel)
        if isinstance(end, Hub):
            self.reach_side(link, parcel)
        else:
            self.comes(end, Node.reach, link.number, way, parcel)
        return True

    def take(self, number):
        link = self.link_at(number)
        if not link or not link.has_outbox():
            return False
        connection = link.connection
        frame = connection.outbox.popleft() if connection.outbox else None
        self.tell("takes", connection, frame)
        if frame:
            link.ways[DOWN].append(frame)
        elif connection.end == "full":
            self.close_side(link, "1008 outbox full")
        elif connection.end:
            link.phase = "disconnecting"
            self.put(link.number, DOWN, "message", message(DISCONNECT_REQUEST, 1))
        return True

    def lose(self, number):
        link = self.link_at(number)
        if not link:
            return False
        link.lost = True
        self.tell("loses", link)
        self.comes(link.source, Node.lose, link.number, DOWN)
        if not isinstance(link.target, Hub):
            self.comes(link.target, Node.lose, link.number, UP)
        elif not link.over:
            self.leave(link)
        return True

    def stop(self, number):
        hub = self.hubs[int(number)] if int(number) < len(self.hubs) else None
        if not hub or hub.stopped:
            return False
        hub.stopped = True
        self.tell("stops", hub)
        for it in hub.live():
            self.ends(it, "stopped")
        return True

    does = {"up": lambda self, link: self.arrives(link, UP), "down": lambda self, link: self.arrives(link, DOWN),
            "take": take, "lose": lose, "stop": stop}
