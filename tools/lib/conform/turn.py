"""A case that is played at a node: what is sent, what is due, and the differences."""
import subprocess
import time

from conform import definition
from conform.events import Closing, Coming, Texting
from conform.judging import DUPLICATE, JUDGED, told
from conform.node_rules import RULES
from conform.rules import Difference
from conform.standing import (CONNECT_ACCEPT, CONNECT_REQUEST, HEARTBEAT_ACK, HEARTBEAT_REQUEST, HUB, HUB_DEVICES, HUB_VMACS, LENGTHS, NAK,
                              NPDU, RESOLUTION, RESOLUTION_ACK, SOLICITATION, spelled)
from course import Arrow, Change, Mark
from message import BROADCAST, Message, digits_of, name_of, number, told_of

RESPONSES = (0x00, 0x03, 0x07, 0x09, 0x0B)
QUIET, LONG_QUIET = 0.4, 5.0  # seconds in which nothing more is to come, and for which that is waited for
NODE = "node"
OF_ITSELF = (NPDU, RESOLUTION, SOLICITATION, 0x04)  # what a node may send at any time


class NoDial(Exception):
    """The node didn't dial. It says whom."""


class NoRequest(Exception):
    """What a node sent first doesn't say who it is. That is told as a difference."""


class Skip(Exception):
    """The case can't be played at this node. It says why."""


class Node:
    """What is known of the node under test, from case to case."""

    def __init__(self):
        self.vmac, self.device, self.max_bvlc, self.max_npdu = b"", b"", 0, 0
        self.link = None  # its connection with the primary hub
        self.failover = None  # that with the failover hub
        self.accepts = None  # whether it accepts direct connections, where it has said so
        self.uris = []
        self.gone = 0  # cases in a row that waited in vain for it to dial
        self.lost = 0  # how often something that was due hasn't come in time
        self.id = 0x4000

    def next_id(self):
        self.id += 1
        return self.id


def verdict(place, phase, longest, octets):
    """What bsc check says of a message: pass, silent or nak, the check, and the NAK."""
    line = f"{place} {phase} {longest} {octets.hex()}\n"
    try:
        done = subprocess.run([definition.program(), "check"], input=line, capture_output=True, text=True, timeout=definition.PATIENCE)
    except (OSError, subprocess.TimeoutExpired) as why:
        raise definition.NoProgram(f"bsc check can't be run: {why}") from None
    words = done.stdout.split()
    if done.returncode or not words:
        raise definition.NoProgram(f"bsc check refused {line.strip()}: {done.stdout.strip()} {done.stderr.strip()}")
    check = words[1] if words[1:] else ""
    return words[0], check, bytes.fromhex(words[2]) if words[2:] else b""


class Turn:
    """One case. `expected` and `found` are the two courses that a page draws."""

    def __init__(self, case, asked, stand, node):
        self.case, self.asked, self.stand, self.node = case, asked, stand, node
        self.differences, self.expected, self.found = [], [], []
        stand.turn = self

    # What happens.

    def saw(self, link, event):
        if isinstance(event, Closing):
            self.found += [Arrow(NODE, link.side, told(event), closes=True), Change(link.side, "away")]
        elif isinstance(event, Coming):
            message = Message(event.octets)
            self.found.append(Arrow(NODE, link.side, name_of(message), told_of(message), octets=digits_of(event.octets)))
        else:
            self.found.append(Arrow(NODE, link.side, told(event)))

    def sent(self, link, octets):
        if isinstance(octets, str):
            arrow = Arrow(link.side, NODE, "a text message")
        else:
            message = Message(octets)
            arrow = Arrow(link.side, NODE, name_of(message), told_of(message), octets=digits_of(octets))
        self.expected.append(arrow)
        self.found.append(arrow)

    def due(self, link, octets=None, words=""):
        """What the node has to send now."""
        if octets:
            message = Message(octets)
            self.expected.append(Arrow(NODE, link.side, name_of(message), told_of(message), octets=digits_of(octets)))
        else:
            self.expected.append(Mark(NODE, words))

    def differ(self, rule, at, words, wanted=None, found=None, whose=None):
        rule = RULES[rule]
        event = Coming(at, wanted) if wanted else None
        self.differences.append(Difference(rule, whose or rule.whose, rule.clause or self.case.clause, at, 0, words, event, found))
        self.found.append(Mark(NODE, f"{words} ({rule.name})", "refused"))

    # How the node comes.

    @property
    def patience(self):
        return self.asked.patience if self.node.lost < 2 else 2 * QUIET

    async def dialled(self, side="primary", seconds=None):
        """The node's next link to a hub, behind its Connect-Request."""
        link = await self.stand.sides[side].next(self.asked.dials if seconds is None else seconds)
        if link is None:
            raise NoDial(f"the node didn't dial its {side} hub")
        if link.ws.subprotocol != HUB:
            self.differ("protocol", side, f"the node didn't offer the sub-protocol {HUB} to its hub")
        self.found.append(Change(side, "open"))
        self.expected.append(Change(side, "open"))
        first = await link.next(self.patience)
        self.due(link, words="asks to connect")
        if not self.look_at_request(link, first):
            await link.close()
            raise NoRequest()
        link.request = first.octets
        return link

    def look_at_request(self, link, first):
        """Whether it is a Connect-Request from which the node is known."""
        if not isinstance(first, Coming):
            self.differ("binary" if isinstance(first, Texting) else "connect-request", link.side, f"{told(first)} came in place of a Connect-Request",
                        None, first)
            return False
        message = Message(first.octets)
        if message.id is None or message.function != CONNECT_REQUEST or message.flags & 0x0C:
            self.differ("connect-request", link.side, f"{told(first)} came in place of a Connect-Request", None, first)
            return False
        what, check, _ = verdict("hub", "request", 65535, first.octets)
        if what != "pass":
            rule = "identity" if check == "C11" else "whole"
            self.differ(rule, link.side, f"its Connect-Request fails {check}", None, first)
        if message.missing:
            return False
        vmac, device = message.field("VMAC"), message.field("Device UUID")
        lengths = [number(message.field(f"max. {it} length")) for it in ("BVLC", "NPDU")]
        if not any(device) or not all(lengths):
            self.differ("identity", link.side, "its Connect-Request has a device of zeros, or a length of zero", None, first)
        if self.node.device and device != self.node.device:
            self.differ("same-device", link.side, f"the device {digits_of(device)} came in place of {digits_of(self.node.device)}", None, first)
        if link.side != "peer":
            self.node.vmac = vmac
        self.node.device = device
        self.node.max_bvlc, self.node.max_npdu = lengths
        return True

    async def accept(self, link, id=None):
        """Accepts a node that has asked."""
        own = id if id is not None else Message(link.request or bytes(4)).id
        link.accepted = True
        await link.send(spelled(CONNECT_ACCEPT, own, payload=HUB_VMACS[link.side] + HUB_DEVICES[link.side] + LENGTHS))
        if link.side == "primary":
            self.node.link = link
        for course in self.expected, self.found:
            course.append(Change(link.side, "joined"))
        return link

    async def joined(self):
        """The node's connection with its primary hub, which is made where there is none."""
        link = self.node.link
        if link and not link.closed:
            link.came.clear()
            return link
        return await self.accept(await self.dialled())

    # What it answers.

    async def answers(self, link, *messages, fence=True):
        """What comes for messages, up to the answer of a Heartbeat-Request behind them. What a node sends of itself is left out."""
        for it in messages:
            await link.send(it)
        if not fence:
            return await self.quiet(link)
        id = self.node.next_id()
        await link.send(spelled(HEARTBEAT_REQUEST, id))
        self.due(link, spelled(HEARTBEAT_ACK, id))
        came, until = [], time.monotonic() + self.patience
        while True:
            event = await link.next(until - time.monotonic())
            if isinstance(event, Coming) and event.octets == spelled(HEARTBEAT_ACK, id):
                return came
            if event is None:
                self.node.lost += 1
                return came
            if not self.is_of_itself(link, event):
                came.append(event)
            if isinstance(event, Closing):
                return came

    async def quiet(self, link, seconds=QUIET):
        """What comes until nothing more does for a while, or far too much has."""
        came, until = [], time.monotonic() + LONG_QUIET
        while True:
            event = await link.next(seconds)
            if event is None or time.monotonic() > until:
                return came
            if not self.is_of_itself(link, event):
                came.append(event)
            if isinstance(event, Closing):
                return came

    def is_of_itself(self, link, event):
        """Whether a node may send this at any time. How its messages are made is looked at in passing."""
        if not isinstance(event, Coming):
            return False
        message = Message(event.octets)
        if message.function in OF_ITSELF[:3] and not message.missing:
            if message.origin and link.side != "peer":
                self.differ("origin-in", link.side, f"{told(event)} came", None, event)
            return True
        return False

    def judge(self, link, source, came, wanted=b"", check="", codes=()):
        """Compares what came for one message with the one answer that is due, or with none."""
        sent = Message(source)
        if wanted:
            self.due(link, wanted)
        left = []
        for event in came:
            if isinstance(event, Closing):
                self.differ("close-undue", link.side, f"{told(event)} came", None, event)
            elif isinstance(event, Texting):
                self.differ("binary", link.side, "a text message came", None, event)
            elif Message(event.octets).missing:
                self.differ("whole", link.side, f"{told(event)} came", None, event)
            else:
                left.append(event)
        first = next((it for it in left if it.octets == wanted), None) or self.likeliest(left, wanted)
        if wanted and first is None:
            due = Message(wanted)
            code = number(due.field("error code"))
            whose = "profile" if due.function == NAK and code not in JUDGED else None
            self.differ(self.rule_of(due), link.side, f"{told(Coming(link.side, wanted))} didn't come", wanted, None, whose)
        if first is not None:
            left.remove(first)
            for rule in self.between(Message(wanted), Message(first.octets), codes):
                self.differ(rule, link.side, f"{told(first)} came in place of {told(Coming(link.side, wanted))}", wanted, first)
        for event in left:
            self.differ(self.rule_of_extra(sent, event, wanted, check), link.side, f"{told(event)} came", None, event)

    @staticmethod
    def likeliest(events, wanted):
        """What came in place of what was due: of the same function, or else anything that has its ID."""
        if not wanted:
            return None
        due = Message(wanted)
        same = [it for it in events if Message(it.octets).function == due.function]
        return next(iter(same + [it for it in events if Message(it.octets).id == due.id]), None)

    @staticmethod
    def rule_of(due):
        """The rule by which an answer is due."""
        if due.function == NAK and number(due.field("error code")) == DUPLICATE:
            return "direct-duplicate"
        return {NAK: "nak", HEARTBEAT_ACK: "heartbeat-ack", RESOLUTION_ACK: "resolution-ack", 0x04: "advertisement", 0x09: "disconnect-ack",
                CONNECT_ACCEPT: "direct-accept"}[due.function]

    def between(self, due, came, codes):
        """The rules by which an answer differs from what was due."""
        if due.function != came.function:
            yield self.rule_of(due)
            return
        if due.id != came.id and due.function != 0x04:
            yield "message-id"
        if due.origin != came.origin:
            yield "origin-in"
        if due.destination != came.destination:
            yield "answer-to"
        if due.function == NAK:
            yield from self.between_naks(due, came, codes)
        elif due.function == 0x04:
            if due.payload[:1] != came.payload[:1]:
                yield "hub-status"
            if due.payload[2:] != came.payload[2:]:
                yield "own-lengths"
        elif due.function == CONNECT_ACCEPT:
            if due.payload != came.payload:
                yield "direct-accept"
        elif due.function != RESOLUTION_ACK and (due.payload != came.payload or (due.flags ^ came.flags) & 3):
            yield self.rule_of(due)

    @staticmethod
    def between_naks(due, came, codes):
        wanted, found = (number(it.field("error code")) for it in (due, came))
        if wanted != found:
            if found in codes:
                yield "nak-first"
            elif wanted == DUPLICATE:
                yield "direct-duplicate"
            else:
                yield "nak-code" if wanted in JUDGED else "nak-range"
        if due.field("header marker") != came.field("header marker"):
            yield "nak-marker"
        if any(due.field(it) != came.field(it) for it in ("function answered", "result code", "error class")):
            yield "nak-function"
        if due.field("details") != came.field("details"):
            yield "nak-details"

    @staticmethod
    def rule_of_extra(sent, event, wanted, check):
        message = Message(event.octets)
        if event.octets == wanted:
            return "once"
        if message.function == NAK and message.id == sent.id:
            if sent.function in RESPONSES:
                return "nak-to-response"
            if sent.destination == BROADCAST:
                return "nak-to-broadcast"
            return "silence" if check else "nak-undue"
        return "undue"

    async def ends(self, link, code):
        """The node closes a link, and nothing but that comes. It gives back whether it did."""
        return await self.ends_by("close", link, code, self.patience)

    async def ends_by(self, rule, link, code, seconds):
        """The same within so many seconds; where it doesn't, this rule says so."""
        self.due(link, words=f"closes with {code}")
        until = time.monotonic() + seconds
        while True:
            event = await link.next(until - time.monotonic())
            if event is None:
                self.differ(rule, link.side, "the node didn't close the WebSocket")
                await link.close()
                return False
            if isinstance(event, Closing):
                if event.code != code:
                    self.differ("close-code", link.side, f"{told(event)} came in place of a close {code}", None, event)
                return True
            if not self.is_of_itself(link, event):
                self.differ("undue", link.side, f"{told(event)} came", None, event)

    async def stays(self, link):
        """The link is open still, and the node answers on it."""
        came = await self.answers(link)
        self.judge(link, spelled(HEARTBEAT_REQUEST, self.node.id), came)

