"""Where each NPDU that a node delivered came from: by the scripts of nodes, the lines that they wrote, and the journals of hubs.

Each delivery has a Send of a node: of this NPDU, to the address that the
receiver has, or to all. It went through a hub, whose journal has the Forward, from a connection of the sender to one of the receiver;
or over a direct connection, where both nodes have told that it is up. No two deliveries of one node have the same Send.

A session of a hub that was killed may have lost the line of its last entry. So for each there may be one Forward that no journal has,
of a Send behind all those that its journal has.
"""
from collections import Counter, defaultdict
from dataclasses import dataclass, field

from journal import entry_of, numbers_in

EVERYONE = "FFFFFFFFFFFF"
REACH = {"unicast", "broadcast"}


class BadRun(Exception):
    """What stands in no journal, no script or no node's output."""


@dataclass
class NodeRun:
    """A node: its first address and its device, what it was asked to send, and the lines that it wrote."""

    vmac: str
    device: str
    sends: list
    lines: list


@dataclass
class HubRun:
    """One start of a hub: its journals, by name, and whether it was killed."""

    name: str
    journals: dict
    was_killed: bool


@dataclass
class Session:
    """What the journal of one caller has: who joined, and the Sends that were forwarded, as (destination, NPDU), each with the
    connections that got it."""

    vmac: str = ""
    device: str = ""
    connection: str = ""
    left: bool = False
    forwards: list = field(default_factory=list)


@dataclass(frozen=True)
class Key:
    """What tells Sends apart: the node that sends, where to, and the NPDU."""

    sender: int
    to: str
    npdu: str


def sends_of(script):
    """The Sends of a node's script, in order."""
    words = [line.split() for line in script.splitlines()]
    return [(line[1].upper(), "".join(line[2:]).upper()) for line in words if line[:1] == ["send"]]


def npdu_in(octets):
    """Destination and NPDU of an Encapsulated-NPDU as a node sends it to its hub, or None for another message."""
    if len(octets) < 4 or octets[0] != 0x01:
        return None
    flags, at, to = octets[1], 4, ""
    at += 6 if flags & 8 else 0
    if flags & 4:
        to, at = octets[at:at + 6].hex().upper(), at + 6
    for bit in (2, 1):
        more = flags & bit
        while more:
            marker, at = octets[at], at + 1
            at += 2 + int.from_bytes(octets[at:at + 2], "big") if marker & 0x20 else 0
            more = marker & 0x80
    return to, octets[at:].hex().upper()


def entries_in(hub):
    """The entries of all journals of a start of a hub. The last line of one that was killed may be cut."""
    for name, text in sorted(hub.journals.items()):
        whole, _, rest = text.rpartition("\n")
        if rest and not hub.was_killed:
            raise BadRun(f"the last line of {name} is cut, and the hub wasn't killed")
        for line in whole.split("\n") if whole else []:
            if line.startswith(("hub ", "deny ")):
                continue
            entry = entry_of(line)
            if not entry:
                raise BadRun(f"{name} has a line that no journal has: {line[:80]}")
            yield entry


def sessions_of(hub):
    """The sessions of a hub by their callers."""
    sessions = defaultdict(Session)
    for it in entries_in(hub):
        session, words = sessions[it.caller], it.words
        if it.call == "connect" and words[1] == "joined":
            session.vmac, session.device, session.connection = words[0][:12], words[0][12:44], words[2]
        elif it.call == "leave":
            session.left = True
        elif it.call == "forward":
            if words[0] != session.connection:
                raise BadRun(f"{hub.name}: caller {it.caller} forwards for connection {words[0]}, and joined as {session.connection or 'none'}")
            found = npdu_in(bytes.fromhex(words[1]))
            got = [words[5]] if words[4] == "sent" else numbers_in(words[5].removeprefix("to=")) if words[4] == "sentall" else []
            if found:
                session.forwards.append((*found, got))
    return sessions


class Runs:
    """Hubs and nodes, and what is wrong of them."""

    def __init__(self, hubs, nodes):
        self.hubs, self.nodes, self.faults = hubs, nodes, []
        # The nodes that had an address at some time.
        self.had = defaultdict(set)
        for number, node in enumerate(nodes):
            self.had[node.vmac].add(number)
            for line in node.lines:
                if line.startswith("vmac "):
                    self.had[line.split()[1]].add(number)
        self.by_device = {node.device: number for number, node in enumerate(nodes)}
        self.sent = Counter(Key(number, to, npdu) for number, node in enumerate(nodes) for to, npdu in node.sends)
        self.place = {}
        for number, node in enumerate(nodes):
            for place, (to, npdu) in enumerate(node.sends):
                self.place[Key(number, to, npdu)] = place
        # How often hubs passed a Send on to a node, under which address, and the sessions that may have lost a line: of each the
        # place of its last Send, by its node and its address.
        self.passed, self.forwarded, self.losers = Counter(), Counter(), []
        for hub in hubs:
            self.read(hub)
        self.missing = defaultdict(set)
        self.delivered = Counter()
        for number, node in enumerate(nodes):
            self.follow(number, node)
        self.count()

    def fault(self, text):
        self.faults.append(text)

    def read(self, hub):
        sessions = sessions_of(hub)
        owners = {s.connection: s for s in sessions.values() if s.connection}
        for caller, session in sessions.items():
            if not session.connection:
                if session.forwards:
                    self.fault(f"{hub.name}: caller {caller} forwards and never joined")
                continue
            sender, last = self.by_device.get(session.device), -1
            if sender is None or sender not in self.had[session.vmac]:
                self.fault(f"{hub.name}: {session.vmac} joined, and no node has had this address and this device")
                continue
            for to, npdu, got in session.forwards:
                key = Key(sender, to, npdu)
                last = max(last, self.place.get(key, -1))
                self.forwarded[key] += 1
                for connection in got:
                    receiver = owners.get(connection)
                    if not receiver or receiver.device not in self.by_device:
                        # The line that a session of a killed hub lost may be its join.
                        if receiver or not hub.was_killed:
                            self.fault(f"{hub.name}: connection {connection} got an NPDU and is no node's")
                        continue
                    self.passed[key, self.by_device[receiver.device], session.vmac, receiver.vmac] += 1
            if hub.was_killed and not session.left:
                self.losers.append((sender, session.vmac, last))

    def follow(self, number, node):
        """The deliveries of a node, each with its Send and its way."""
        own, up = node.vmac, set()
        for line in node.lines:
            kind, *words = line.split()
            if kind == "vmac":
                own = words[0]
            elif kind == "direct":
                (up.add if words[1] == "up" else up.discard)(words[0])
            elif kind == "npdu":
                self.deliver(number, own, words[0], words[1], words[2], up)

    def deliver(self, number, own, sender_vmac, reach, npdu, up):
        to = EVERYONE if reach == "broadcast" else own
        text = f"{own} delivered {npdu[:40]} of {sender_vmac} by {reach}"
        senders = [sender for sender in sorted(self.had.get(sender_vmac, ())) if self.sent[Key(sender, to, npdu)]]
        if not senders:
            self.fault(f"{text}, and no node of that address sent it")
            return
        # None that was passed on serves twice.
        for sender in senders:
            key = Key(sender, to, npdu)
            if self.passed[key, number, sender_vmac, own] > 0:
                self.passed[key, number, sender_vmac, own] -= 1
                self.delivered[key, number] += 1
                return
        key = Key(senders[0], to, npdu)
        self.delivered[key, number] += 1
        if not (reach == "unicast" and sender_vmac in up and self.was_up(senders[0], own)):
            self.missing[key, sender_vmac].add(text)

    def was_up(self, sender, vmac):
        return f"direct {vmac} up" in self.nodes[sender].lines

    def count(self):
        for (key, number), times in sorted(self.delivered.items(), key=str):
            if times > self.sent[key]:
                self.fault(f"node {number} delivered {times} times what node {key.sender} sent {self.sent[key]} times to {key.to}: {key.npdu[:40]}")
        for key, times in sorted(self.forwarded.items(), key=str):
            if times > self.sent[key]:
                self.fault(f"hubs forwarded {times} times what node {key.sender} sent {self.sent[key]} times to {key.to}: {key.npdu[:40]}")
        # Each Send that no journal has is of one session that lost its last line.
        left = list(self.losers)
        for (key, vmac), texts in sorted(self.missing.items(), key=lambda item: -self.place[item[0][0]]):
            loser = max((it for it in left if it[:2] == (key.sender, vmac) and it[2] < self.place[key]), key=lambda it: it[2], default=None)
            if loser:
                left.remove(loser)
            else:
                self.fault(f"{min(texts)}, and no journal has its Forward")


def faults_of(hubs, nodes):
    """What is wrong, as lines of text: none, where each delivery came of a Send, by its way, once."""
    try:
        return Runs(hubs, nodes).faults
    except BadRun as bad:
        return [str(bad)]


def figures_of(hubs, nodes):
    """How many deliveries there are, how many of these no journal has, and how many sessions may have lost a line."""
    runs = Runs(hubs, nodes)
    return sum(runs.delivered.values()), len(runs.missing), len(runs.losers)
