"""What a node of a network in memory does, by the rules of docs/NODE.md: its events, and what follows from each.

Nothing here is proved; bsc_node has the definition. All messages that come are those of other nodes and of hubs, so each
is whole, and only its phase may be the wrong one for it."""
from dataclasses import dataclass
from typing import NamedTuple, Optional

from message import (ADVERTISEMENT, BROADCAST, CONNECT_ACCEPT, CONNECT_REQUEST, DISCONNECT_ACK, DISCONNECT_REQUEST, NPDU,
                     RESOLUTION_ACK, RESULT, Message, digits_of, function_name, number)

RESOLUTION, SOLICITATION, HEARTBEAT_REQUEST, HEARTBEAT_ACK = 2, 5, 10, 11
RESPONSES = (RESULT, RESOLUTION_ACK, CONNECT_ACCEPT, DISCONNECT_ACK, HEARTBEAT_ACK)
PRIMARY, FAILOVER = "primary", "failover"
SLOTS = range(64)
NAMES = (PRIMARY, FAILOVER, *SLOTS)
OTHER = {"up": "down", "down": "up"}
WAIT, HEARTBEAT, LEAST, GREATEST = 10_000, 300_000, 2_000, 30_000  # in milliseconds
HELD = 256


class Identity(NamedTuple):
    vmac: bytes
    device: bytes
    longest: int  # the longest message that it takes
    longest_npdu: int

    def octets(self):
        return self.vmac + self.device + self.longest.to_bytes(2, "big") + self.longest_npdu.to_bytes(2, "big")


def identity_in(payload):
    return Identity(payload[:6], payload[6:22], number(payload[22:24]), number(payload[24:26]))


def message(function, id, payload=b"", origin=b"", destination=b""):
    flags = (8 if origin else 0) | (4 if destination else 0)
    return bytes([function, flags]) + id.to_bytes(2, "big") + origin + destination + payload


def nak(function, code):
    return bytes([function, 1, 0, 0, 7]) + code.to_bytes(2, "big")


def is_farewell(told, id):
    """Whether a message answers the Disconnect-Request with this Message ID."""
    return told.id == id and (told.function == DISCONNECT_ACK or told.function == RESULT and told.payload[0] == DISCONNECT_REQUEST)


@dataclass
class Machine:
    """That of an end of a link, dialled or taken. Its phases are websocket, accept or request, connected, disconnecting."""

    phase: str
    start: int
    last: int  # when the last message came; the start, where none did
    id: int = 0  # of the Connect-Request
    farewell: int = 0  # that of the Disconnect-Request, and since when its answer is awaited
    since: int = 0
    asked: bool = False  # whether a Heartbeat-Request was put since the last message
    peer: Optional[Identity] = None


@dataclass
class Side:
    """One of the two hubs: idle, tried, up or waiting; when it is due, and how often it failed in a row."""

    state: str = "idle"
    due: int = 0
    failures: int = 0


@dataclass
class Slot:
    wanted: bytes = b""
    peer: Optional[Identity] = None
    uris: int = 0  # how many were dialled


class Node:
    def __init__(self, network, name, who, uri, has_failover):
        self.network, self.name, self.who, self.uri, self.has_failover = network, name, who, uri, has_failover
        self.started = self.finishing = False
        self.there = {}  # the machines of the links that are there, by name
        self.taken = set()  # the names whose newest link was taken
        self.holds = {}  # which link a name has, and by which way its end hears
        self.sides = {PRIMARY: Side(), FAILOVER: Side()}
        self.is_dropped = False  # whether the primary hub accepted since the failover was dialled
        self.slots, self.questions, self.learnt = {}, {}, {}
        self.numbered = 0

    def tell(self, words, fate="came"):
        self.network.tell("tells", self, words, fate)

    def is_there(self, name):
        return name in self.there

    # What it puts, dials and closes.

    def next_id(self):
        return (self.numbered + 1) % 65536

    def put(self, name, octets):
        link, hears = self.holds[name]
        self.network.put(link, OTHER[hears], "message", octets)
        self.numbered += octets[0] not in RESPONSES

    def close(self, name, words="1000"):
        """Closes a link, without what follows from it."""
        link, hears = self.holds[name]
        self.network.put(link, OTHER[hears], "closed", words=words)
        self.there.pop(name, None)

    def close_link(self, name, words):
        self.close(name, words)
        self.ends(name)

    def dial(self, name, uri):
        now = self.network.now
        self.there[name] = Machine("websocket", now, now)
        self.taken.discard(name)
        if name == FAILOVER:
            self.is_dropped = False
        self.network.dial(self, name, uri)

    # The connector.

    def use(self):
        return next((it for it in (PRIMARY, FAILOVER) if self.sides[it].state == "up"), None)

    def dials_by(self, event, name):
        """The sides that the connector dials when it is told something, and whether it drops the failover."""
        now, primary, failover = self.network.now, self.sides[PRIMARY], self.sides[FAILOVER]
        dials, drops = [], False
        if event == "start":
            dials = [PRIMARY]
        elif event == "tick":
            dials = [it for it in self.sides if self.sides[it].state == "waiting" and now >= self.sides[it].due]
        elif event == "connected":
            self.sides[name] = Side("up")
            if name == PRIMARY:
                drops = failover.state in ("up", "tried")
                self.sides[FAILOVER] = Side()
        else:
            side = self.sides[name]
            side.failures += 1
            side.state, side.due = "waiting", now + min(GREATEST, LEAST << side.failures - 1)
            if side is primary and self.has_failover and failover.state == "idle":
                dials = [FAILOVER]
        for it in dials:
            self.sides[it].state = "tried"
        return dials, drops

    def connector(self, event, name=None):
        before = self.use()
        dials, drops = self.dials_by(event, name)
        if event == "connected" and name == PRIMARY:
            self.is_dropped = True
        for it in [] if self.finishing else dials:
            if it == FAILOVER and self.is_there(it):
                self.close(it)
            self.dial(it, "ws://hub0/" if it == PRIMARY else "ws://hub1/")
        if self.use() != before:
            self.network.tell("uses", self, self.use())
        if drops:
            self.finish_machine(FAILOVER)

    # The end of a link.

    def ends(self, name):
        if name in self.sides:
            state = self.sides[name].state
            if not (name == FAILOVER and self.is_dropped) and state in ("up", "tried"):
                self.connector("failed", name)
        else:
            slot = self.slots.pop(name, Slot())
            if slot.peer:
                self.tell(f"direct connection to {digits_of(slot.peer.vmac)} is down", "lost")
        self.tell_finished()

    def tell_finished(self):
        if self.finishing and not self.there:
            self.tell("has ended")

    def finish_machine(self, name):
        machine = self.there.get(name)
        if machine and machine.phase == "connected":
            self.part(name, machine)
        elif machine and machine.phase != "disconnecting":
            self.close(name)

    def part(self, name, machine):
        machine.phase, machine.farewell, machine.since = "disconnecting", self.next_id(), self.network.now
        self.put(name, message(DISCONNECT_REQUEST, machine.farewell))

    def finish_link(self, name):
        if self.is_there(name):
            self.finish_machine(name)
            if not self.is_there(name):
                self.ends(name)

    # What arrives, by the link and the way.

    def reach(self, link, way, parcel):
        name = next((it for it in NAMES if self.holds.get(it) == (link, way)), None)
        machine = self.there.get(name)
        if parcel.what == "arrived":
            self.arrived(link, way)
        elif not machine or (parcel.what == "opened") != (machine.phase == "websocket") and parcel.what != "closed":
            self.network.tell("dropped")
        elif parcel.what == "opened":
            machine.phase, machine.id = "accept", self.next_id()
            self.put(name, message(CONNECT_REQUEST, machine.id, self.who.octets()))
        elif parcel.what == "closed":
            del self.there[name]
            self.ends(name)
        else:
            machine.last, machine.asked = self.network.now, False
            self.came(name, machine, Message(parcel.octets), parcel.place)

    def lose(self, link, way):
        name = next((it for it in NAMES if self.holds.get(it) == (link, way)), None)
        if self.there.pop(name, None):
            self.ends(name)

    def arrived(self, link, way):
        name = next((it for it in SLOTS if it not in self.slots), None)
        if name is None:
            self.network.put(link, OTHER[way], "closed", words="1008 table full")
            return
        now = self.network.now
        self.slots[name] = Slot()
        self.holds[name] = (link, way)
        self.taken.add(name)
        self.there[name] = Machine("request", now, now)

    def dial_failed(self, name):
        if self.there.pop(name, None) is None:
            return
        slot = self.slots.get(name)
        uris = self.uris_to_dial(slot.wanted) if slot else []
        if slot and slot.uris < len(uris):
            self.dial_next(name, uris)
            return
        if slot:
            self.tell(f"no direct connection to {digits_of(slot.wanted)}", "lost")
        self.ends(name)

    def came(self, name, machine, told, place):
        is_taken, function = name in self.taken, told.function
        if machine.phase == "request" and function == CONNECT_REQUEST:
            machine.id, machine.peer = told.id, identity_in(told.payload)
            self.meets(name, machine)
        elif machine.phase == "accept" and function == CONNECT_ACCEPT and told.id == machine.id:
            machine.phase, machine.peer = "connected", identity_in(told.payload)
            self.meets(name, machine)
        elif machine.phase == "accept" and function == RESULT and told.id == machine.id:
            self.close(name)
            self.tell("is refused", "refused")
            self.ends(name)
        elif machine.phase == "disconnecting" and is_farewell(told, machine.farewell):
            self.close_link(name, "1000")
        elif machine.phase != "connected" or function in (CONNECT_REQUEST, CONNECT_ACCEPT, DISCONNECT_ACK):
            self.network.tell("silent")
        elif function == HEARTBEAT_REQUEST:
            self.put(name, message(HEARTBEAT_ACK, told.id))
        elif function == DISCONNECT_REQUEST:
            self.put(name, message(DISCONNECT_ACK, told.id))
            self.close_link(name, "1000")
        else:
            self.take_up(name, machine, told, place)

    # A peer that named itself.

    def meets(self, name, machine):
        if name in self.sides:
            if self.sides[name].state == "tried":
                self.connector("connected", name)
            return
        slot, who = self.slots[name], machine.peer
        others = [it for it in self.slots.values() if it is not slot and it.peer]
        is_wrong = slot.wanted and slot.wanted != who.vmac
        is_double = who.vmac == self.who.vmac or any(it.peer.vmac == who.vmac and it.peer.device != who.device for it in others)
        if name in self.taken and is_double:
            self.put(name, message(RESULT, machine.id, nak(CONNECT_REQUEST, 151)))
            self.close_link(name, "1000")
        elif is_wrong or is_double or slot.peer:
            self.close_link(name, "1008 wrong peer")
        else:
            if name in self.taken:
                machine.phase = "connected"
                self.put(name, message(CONNECT_ACCEPT, machine.id, self.who.octets()))
            slot.peer = who
            self.tell(f"direct connection to {digits_of(who.vmac)} is up")
            for key, it in list(self.slots.items()):
                if it is not slot and it.peer and it.peer.device == who.device:
                    it.peer = None
                    self.finish_link(key)

    # What is for the node.

    def take_up(self, name, machine, told, place):
        is_hub, is_for_all = name in self.sides, told.destination == BROADCAST
        sender = told.origin or (b"" if is_hub else machine.peer.vmac)
        back = told.origin if is_hub else b""
        asks = self.questions.get(sender, (None,))[0] == told.id
        if told.function == NPDU:
            self.network.tell("delivers", self, place, sender, is_for_all, told.payload)
        elif told.function == RESOLUTION and self.uri:
            self.put(name, message(RESOLUTION_ACK, told.id, self.uri.encode(), destination=back))
        elif told.function == RESOLUTION and not is_for_all:
            self.put(name, message(RESULT, told.id, nak(RESOLUTION, 45), destination=back))
        elif told.function == RESOLUTION_ACK and asks:
            del self.questions[sender]
            self.learnt[sender] = told.payload.decode()
            self.tell(f"learns of {digits_of(sender)}: {self.learnt[sender]}")
        elif told.function == ADVERTISEMENT:
            self.tell(f"is told what {digits_of(sender)} advertises")
        elif told.function == SOLICITATION:
            status = {None: 0, PRIMARY: 1, FAILOVER: 2}[self.use()]
            advert = bytes([status, bool(self.uri)]) + self.who.octets()[-4:]
            self.put(name, message(ADVERTISEMENT, self.next_id(), advert, destination=back))
        elif told.function == RESULT and told.field("result code") == b"\1":
            self.tell(f"is told of the NAK for {function_name(told.payload[0])}")
            if told.payload[0] == RESOLUTION and asks:
                del self.questions[sender]

    # Time.

    def tick(self):
        for name in NAMES:
            if self.is_there(name):
                self.tick_link(name, self.there[name])
        self.connector("tick")
        self.questions = {key: it for key, it in self.questions.items() if self.network.now < it[1] + WAIT}

    def tick_link(self, name, machine):
        now, is_taken = self.network.now, name in self.taken
        if machine.phase in ("websocket", "accept", "request"):
            if now - machine.start >= WAIT:
                self.close_link(name, "1008 connect wait")
        elif machine.phase == "disconnecting":
            if now - machine.since >= WAIT:
                self.close_link(name, "1000")
        elif now - machine.last >= 2 * HEARTBEAT:
            self.close_link(name, "1008 idle")
        elif now - machine.last >= HEARTBEAT and not machine.asked and not is_taken:
            machine.asked = True
            self.put(name, message(HEARTBEAT_REQUEST, self.next_id()))

    # What its user wants.

    def start(self):
        self.started = True
        self.connector("start")

    def finish(self):
        self.finishing = True
        self.tell_finished()
        for name in NAMES:
            self.finish_link(name)

    def path(self, vmac):
        """The name by which a message for a VMAC goes and its Destination, or None."""
        slot = next((it for it in SLOTS if it in self.slots and self.slots[it].peer and self.slots[it].peer.vmac == vmac), None)
        if slot is not None:
            return slot, b""
        if self.use():
            return self.use(), vmac
        self.tell(f"no path to {digits_of(vmac)}", "lost")
        return None

    def put_own(self, path, function, payload=b""):
        self.put(path[0], message(function, self.next_id(), payload, destination=path[1]))

    def send(self, vmac, npdu):
        path = self.path(vmac)
        peer = self.there[path[0]].peer if path else None
        if path and (len(npdu) > peer.longest_npdu or 4 + len(path[1]) + len(npdu) > peer.longest):
            self.tell(f"too long for {digits_of(vmac)}", "lost")
        elif path:
            self.put_own(path, NPDU, npdu)

    def resolve(self, vmac):
        path = self.path(vmac)
        if path and vmac in self.questions:
            self.tell("this question is under way", "lost")
        elif path and vmac not in self.learnt and len(self.learnt.keys() | self.questions.keys()) >= HELD:
            self.tell(f"{HELD} VMACs are held", "lost")
        elif path:
            self.questions[vmac] = (self.next_id(), self.network.now)
            self.put_own(path, RESOLUTION)

    def solicit(self, vmac):
        path = self.path(vmac)
        if path:
            self.put_own(path, SOLICITATION)

    def uris_to_dial(self, vmac):
        return [it for it in self.learnt.get(vmac, "").split(" ") if it.startswith("ws://")]

    def dial_next(self, name, uris):
        slot = self.slots[name]
        slot.uris += 1
        self.dial(name, uris[slot.uris - 1])

    def direct(self, vmac):
        if any(it.peer and it.peer.vmac == vmac for it in self.slots.values()):
            return
        name = next((it for it in SLOTS if it not in self.slots), None)
        if vmac not in self.learnt or name is None:
            self.tell(f"no URIs of {digits_of(vmac)}" if vmac not in self.learnt else "all slots are taken", "lost")
        elif not self.uris_to_dial(vmac):
            self.tell(f"no direct connection to {digits_of(vmac)}", "lost")
        else:
            self.slots[name] = Slot(vmac)
            self.dial_next(name, self.uris_to_dial(vmac))

    # The events of its own, by their words.
    does = {"start": start, "tick": tick, "send": send, "resolve": resolve, "direct": direct, "solicit": solicit, "finish": finish}
