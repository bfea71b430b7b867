#!/usr/bin/env python3
"""A small hub by python3-websockets, written from docs/HUB.md and docs/CHECKS.md: python_hub.py [BUG] [--wait MS] [--tls CA CERT KEY]

It binds a free port of 127.0.0.1, writes that port, and serves until it is killed. It keeps no outboxes: what is forwarded waits
in the library. Its waits are those of docs/SCRIPTS.md, or with --wait each of them so long. A word plants a bug, which tools/conform hub has to find (interop/check-conform):
"""
import asyncio
import ssl
import sys
import time
from dataclasses import dataclass, field
from pathlib import Path

import websockets
from websockets.exceptions import ConnectionClosed

sys.dont_write_bytecode = True
sys.path.insert(0, str(Path(__file__).resolve().parents[1] / "hub"))
import bvlc  # noqa: E402
from bvlc import BROADCAST, Identity, Message  # noqa: E402

PROTOCOL = "hub.bsc.bacnet.org"
OWN = Identity(bytes.fromhex("0200000000FE"), bytes(range(16)), 2000, 1497)
RESPONSES = (bvlc.RESULT, bvlc.RESOLUTION_ACK, bvlc.CONNECT_ACCEPT, bvlc.DISCONNECT_ACK, bvlc.HEARTBEAT_ACK)
TAKES_DATA_OPTIONS = (bvlc.NPDU, bvlc.PROPRIETARY)
NEEDS_PAYLOAD = (bvlc.NPDU, bvlc.ADVERTISEMENT, bvlc.CONNECT_REQUEST, bvlc.CONNECT_ACCEPT, bvlc.PROPRIETARY)
FIXED = {bvlc.NPDU: 1, bvlc.ADVERTISEMENT: 6, bvlc.CONNECT_REQUEST: 26, bvlc.CONNECT_ACCEPT: 26, bvlc.PROPRIETARY: 3}
HAS_REST = (bvlc.NPDU, bvlc.RESOLUTION_ACK, bvlc.PROPRIETARY)
AWAITING, CONNECTED, DISCONNECTING, OVER = "awaiting", "connected", "disconnecting", "over"

# The bug that each word plants: the rule by which it is found, a group of scripts that find it, and what it does.
BUGS = {
    "old-holder": ("old-holder", "takeover", "what is for a VMAC goes to the old connection too, after a takeover"),
    "back-to-sender": ("back-to-sender", "broadcast", "a broadcast comes back to its sender"),
    "nak-to-response": ("nak-to-response", "malformed", "a response that is wrong gets a NAK"),
    "nak-to-broadcast": ("nak-to-broadcast", "malformed", "a broadcast that is wrong gets a NAK"),
    "origin-in": ("origin-in", "addresses", "a message in which its sender gives an Originating address is forwarded"),
    "no-origin": ("origin", "unicast", "a message is forwarded without an Originating address"),
    "destination-left": ("destination-out", "unicast", "a unicast is forwarded with its Destination"),
    "duplicate-in": ("duplicate", "refusals", "a duplicate is let in"),
    "no-disconnect-ack": ("disconnect-ack", "disconnect", "no Disconnect-ACK comes before the close"),
    "wrong-code": ("nak-code", "malformed", "options that are cut get the code of a header that is encoded wrongly"),
    "out-of-order": ("order", "ordering", "of forty unicasts one is put behind the next"),
    "twice": ("once", "ordering", "of forty unicasts one comes twice"),
    "lost": ("unicast", "ordering", "of forty unicasts one is lost"),
    "no-takeover": ("takeover", "takeover", "a device that comes again is refused as a duplicate"),
    "heartbeat-id": ("message-id", "heartbeat", "a Heartbeat-ACK has the Message ID 0"),
    "options-lost": ("unchanged", "options", "data options are left out of what is forwarded"),
    "before-joining": ("not-joined", "join", "what a node sends before it has joined is forwarded"),
    "left-stays": ("accept", "join", "who has left still has its VMAC"),
}
# What the standard leaves open: the rule of the profile, a group of scripts, and what is done otherwise.
CHOICES = {
    "details": ("nak-details", "malformed", "a NAK has details"),
    "marker": ("nak-marker", "malformed", "the header marker of each NAK is 00"),
    "close-code": ("close-code", "malformed", "a text message is closed with 1002"),
    "payload-first": ("nak-first", "malformed", "a heartbeat with a payload is refused for that, whatever else is wrong with it"),
}
BUGS_AND_CHOICES = {**BUGS, **CHOICES}
__doc__ += "\n" + "\n".join(f"    {word:18} {says}" for word, (_, _, says) in BUGS_AND_CHOICES.items()) + "\n"

bug = ""
connect_wait, disconnect_wait, heartbeat = 10, 10, 300  # seconds


class Wrong(Exception):
    """A check fails: the error code of the NAK, or None, and the header marker."""

    def __init__(self, code=None, marker=0):
        self.code, self.marker = code, marker


@dataclass(eq=False)
class Connection:
    ws: object
    phase: str = AWAITING
    who: Identity = None
    forwarded: int = 0
    late: list = field(default_factory=list)


class Hub:
    def __init__(self):
        self.live = {}  # connections by their VMAC
        self.old = []  # those that were taken over, for a bug
        self.left = {}  # devices that have left, by their VMAC, for a bug

    async def serve(self, ws):
        it = Connection(ws)
        begun = time.monotonic()
        try:
            while it.phase != OVER:
                left = begun + connect_wait - time.monotonic() if it.phase == AWAITING else 2 * heartbeat
                octets = await asyncio.wait_for(ws.recv(), left)
                if isinstance(octets, str):
                    await ws.close(1002 if bug == "close-code" else 1003)
                    break
                await self.receive(it, octets)
        except asyncio.TimeoutError:
            await ws.close(1008, "connect wait" if it.phase == AWAITING else "idle")
        except ConnectionClosed:
            pass
        finally:
            self.leave(it)

    def leave(self, it):
        if it.who and self.live.get(it.who.vmac) is it:
            del self.live[it.who.vmac]
            self.left[it.who.vmac] = it.who.device
        if it in self.old:
            self.old.remove(it)

    async def receive(self, it, octets):
        try:
            message = judged(it.phase, octets)
        except Wrong as wrong:
            await self.refuse(it, octets, wrong)
            return
        if message is None:
            await self.forward(it, octets)
        elif it.phase == AWAITING:
            await self.connect(it, message)
        elif it.phase == CONNECTED and message.function == bvlc.HEARTBEAT_REQUEST:
            await put(it, Message(bvlc.HEARTBEAT_ACK, 0 if bug == "heartbeat-id" else message.id).octets())
        elif it.phase == CONNECTED:
            if bug != "no-disconnect-ack":
                await put(it, Message(bvlc.DISCONNECT_ACK, message.id).octets())
            await self.end(it)
        elif message.id == 1 and (message.function == bvlc.DISCONNECT_ACK or message.payload[0] == bvlc.DISCONNECT_REQUEST):
            await self.end(it)

    async def end(self, it, code=1000, reason=""):
        it.phase = OVER
        self.leave(it)
        await it.ws.close(code, reason)

    async def refuse(self, it, octets, wrong):
        code = wrong.code
        if code is None:
            return
        if bug == "wrong-code" and code == 147:
            code = 145
        is_broadcast = octets[1] & 0x04 and octets[4:10] == BROADCAST
        if is_broadcast and bug != "nak-to-broadcast" or octets[0] in RESPONSES and bug != "nak-to-response":
            return
        if bug == "payload-first" and octets[0] == bvlc.HEARTBEAT_REQUEST and octets[-1] == 0xAA:
            code = 150
        marker = 0 if bug == "marker" or code == 150 else wrong.marker
        nak = bvlc.nak(int.from_bytes(octets[2:4], "big"), octets[0], code, marker)
        await put(it, nak.octets() + (b"no" if bug == "details" else b""))

    async def connect(self, it, request):
        who = Identity(request.payload[:6], request.payload[6:22], *(int.from_bytes(request.payload[at : at + 2], "big") for at in (22, 24)))
        holder = self.live.get(who.vmac)
        is_duplicate = who.vmac == OWN.vmac or holder and (holder.who.device != who.device or bug == "no-takeover")
        if bug == "duplicate-in" and who.vmac != OWN.vmac:
            is_duplicate = False
        if bug == "left-stays" and self.left.get(who.vmac, who.device) != who.device:
            is_duplicate = True
        if is_duplicate:
            await put(it, bvlc.nak(request.id, bvlc.CONNECT_REQUEST, bvlc.NODE_DUPLICATE_VMAC).octets())
            await self.end(it)
            return
        old = next((other for other in self.live.values() if other.who.device == who.device), None)
        if old:
            del self.live[old.who.vmac]
            self.old.append(old)
            old.phase = DISCONNECTING
        it.who, it.phase = who, CONNECTED
        self.live[who.vmac] = it
        await put(it, bvlc.connect_accept(request.id, OWN).octets())
        if old:
            await put(old, Message(bvlc.DISCONNECT_REQUEST, 1).octets())
            asyncio.get_running_loop().call_later(disconnect_wait, lambda: asyncio.ensure_future(old.ws.close()))

    async def forward(self, it, octets):
        vmac = it.who.vmac if it.who else bytes(6)
        destination = octets[10:16] if octets[1] & 0x08 else octets[4:10]
        rest = octets[16:] if octets[1] & 0x08 else octets[10:]
        origin = octets[4:10] if octets[1] & 0x08 else vmac
        flags = octets[1]
        if bug == "options-lost" and flags & 0x01 and destination != BROADCAST:
            begin = bvlc.options_end(rest, 0) if flags & 0x02 else 0
            rest, flags = rest[:begin] + rest[bvlc.options_end(rest, begin):], flags & ~0x01
        if destination == BROADCAST:
            frame = bytes([octets[0], flags | 0x08]) + octets[2:4] + origin + destination + rest
            to = [other for other in self.live.values() if other is not it or bug == "back-to-sender"]
        else:
            frame = unicast(octets[0], flags, octets[2:4], origin, destination, rest)
            to = [self.live[destination]] if destination in self.live else []
        if bug == "old-holder":
            to += [other for other in self.old if destination in (BROADCAST, other.who.vmac)]
        for other in to:
            if len(frame) <= other.who.max_bvlc:
                await self.pass_on(other, frame, destination != BROADCAST)

    async def pass_on(self, it, frame, is_unicast):
        frames = [frame]
        it.forwarded += is_unicast
        if is_unicast and it.forwarded % 40 == 0:
            frames = {"twice": [frame, frame], "lost": []}.get(bug, frames)
        if bug == "out-of-order" and is_unicast and it.forwarded % 40 == 39:
            it.late, frames = [frame], []
        elif it.late:
            frames, it.late = [frame, *it.late], []
        for one in frames:
            await put(it, one)


def unicast(function, flags, id, origin, destination, rest):
    if bug == "no-origin":
        return bytes([function, flags & ~0x0C]) + id + rest
    if bug == "destination-left":
        return bytes([function, flags | 0x0C]) + id + origin + destination + rest
    return bytes([function, flags & ~0x04 | 0x08]) + id + origin + rest


async def put(it, octets):
    try:
        await it.ws.send(octets)
    except ConnectionClosed:
        pass


def judged(phase, octets):
    """The message, or None where it is to be forwarded. By docs/CHECKS.md, in its order."""
    if len(octets) < 4 or len(octets) > OWN.max_bvlc:
        raise Wrong()
    function, flags = octets[:2]
    at = 4 + 6 * bool(flags & 0x08) + 6 * bool(flags & 0x04)
    if len(octets) < at or flags & 0x08 and not (bug == "origin-in" and flags & 0x04):
        raise Wrong()
    if flags & 0xF0:
        raise Wrong(145)
    if flags & 0x04:
        if phase != CONNECTED and bug != "before-joining":
            raise Wrong()
        return None
    if function > bvlc.PROPRIETARY:
        raise Wrong(143)
    lists = []
    for bit in (0x02, 0x01):
        items, at = options(octets, at) if flags & bit else ([], at)
        lists.append(items)
    for marker, length in lists[0] + lists[1]:
        kind, has_data = marker & 0x1F, marker & 0x20
        if kind == 0 or kind == 1 and has_data or kind == 31 and (not has_data or length < 3):
            raise Wrong(145)
    if lists[1] and function not in TAKES_DATA_OPTIONS:
        raise Wrong(145)
    strange = next((marker for marker, _ in lists[0] if marker & 0x40 and marker & 0x1F != 1), None)
    if strange is not None:
        raise Wrong(146, strange)
    look_at_payload(function, octets[at:])
    look_at_place(phase, function)
    return bvlc.read(octets)


def options(octets, at):
    """The markers and lengths of a list of header options, and where it ends."""
    items, follows = [], True
    while follows:
        if at >= len(octets):
            raise Wrong(147)
        marker, length = octets[at], 0
        at += 1
        if marker & 0x20:
            length = int.from_bytes(octets[at : at + 2], "big")
            if at + 2 + length > len(octets):
                raise Wrong(147)
            at += 2 + length
        items.append((marker, length))
        follows = marker & 0x80
    return items, at


def look_at_payload(function, payload):
    if function in NEEDS_PAYLOAD and not payload:
        raise Wrong(149)
    fixed, has_rest = FIXED.get(function, 0), function in HAS_REST
    if function == bvlc.RESULT:
        is_nak = len(payload) > 1 and payload[1] == 1
        fixed, has_rest = (7, True) if is_nak else (2, len(payload) > 1 and payload[1] > 1)
    if len(payload) < fixed:
        raise Wrong(147)
    if len(payload) > fixed and not has_rest:
        raise Wrong(150)
    if function == bvlc.RESULT and (payload[1] > 1 or not is_text(payload[7:])) or function == bvlc.RESOLUTION_ACK and not is_text(payload):
        raise Wrong(80)
    if function == bvlc.ADVERTISEMENT and (payload[0] > 2 or payload[1] > 1):
        raise Wrong(80)
    if function in (bvlc.CONNECT_REQUEST, bvlc.CONNECT_ACCEPT) and payload[:6] in (bytes(6), BROADCAST):
        raise Wrong(80)
    if function == bvlc.PROPRIETARY:
        raise Wrong(144)


def is_text(octets):
    try:
        octets.decode("utf-8")
        return True
    except UnicodeDecodeError:
        return False


def look_at_place(phase, function):
    taken = {AWAITING: (bvlc.CONNECT_REQUEST,), CONNECTED: (bvlc.DISCONNECT_REQUEST, bvlc.HEARTBEAT_REQUEST),
             DISCONNECTING: (bvlc.RESULT, bvlc.DISCONNECT_ACK)}
    if function not in taken.get(phase, ()):
        raise Wrong()


def listed(table):
    return "\n".join(f"{word} {rule} {group}" for word, (rule, group, _) in table.items())


async def main(words):
    global bug, connect_wait, disconnect_wait, heartbeat
    tls = None
    if "--tls" in words:
        at = words.index("--tls")
        ca, cert, key = words[at + 1 : at + 4]
        del words[at : at + 4]
        tls = ssl.SSLContext(ssl.PROTOCOL_TLS_SERVER)
        tls.load_cert_chain(cert, key)
        tls.load_verify_locations(ca)
        tls.verify_mode = ssl.CERT_REQUIRED
    if "--wait" in words:
        at = words.index("--wait")
        connect_wait = disconnect_wait = heartbeat = int(words[at + 1]) / 1000
        del words[at : at + 2]
    if words in (["--help"], ["--bugs"]):
        print(__doc__ if words == ["--help"] else listed(BUGS))
        return 0
    if words == ["--choices"]:
        print(listed(CHOICES))
        return 0
    if words and (len(words) > 1 or words[0] not in BUGS_AND_CHOICES):
        print("python_hub: no such bug; --help names them", file=sys.stderr)
        return 2
    bug = "".join(words)
    async with websockets.serve(Hub().serve, "127.0.0.1", 0, subprotocols=[PROTOCOL], compression=None, ping_interval=None,
                                max_size=None, ssl=tls, close_timeout=1) as server:
        print(server.sockets[0].getsockname()[1], flush=True)
        await asyncio.Future()


if __name__ == "__main__":
    sys.exit(asyncio.run(main(sys.argv[1:])))
