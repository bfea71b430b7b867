#!/usr/bin/env python3
"""A small node by python3-websockets, written from docs/NODE.md and docs/CHECKS.md: python_node.py PRIMARY FAILOVER PEER [BUG]

PRIMARY and FAILOVER are URIs of hubs. The node binds a free port of 127.0.0.1 for direct connections, and opens one to the peer with
the VMAC PEER once the hub has told where that is. It runs until it is killed. It takes 1,600 octets; its waits are 1,500 ms, and it
dials again after 200 to 1,000 ms. A word plants a bug, which tools/conform node has to find (interop/check-conform-node):
"""
import asyncio
import os
import sys
import time
from pathlib import Path

import websockets
from websockets.exceptions import ConnectionClosed, InvalidHandshake

sys.dont_write_bytecode = True
sys.path.insert(0, str(Path(__file__).resolve().parents[1] / "hub"))
import bvlc  # noqa: E402
from bvlc import BROADCAST, Message  # noqa: E402

HUB, DIRECT = "hub.bsc.bacnet.org", "dc.bsc.bacnet.org"
DEVICE, LENGTHS = bytes(range(0x40, 0x50)), bytes.fromhex("064005D9")
MAX_BVLC = 1600
WAIT, LEAST, GREATEST = 1.5, 0.2, 1.0  # seconds
ASKING, CONNECTED, LEAVING = "asking", "connected", "leaving"
RESPONSES = (bvlc.RESULT, bvlc.RESOLUTION_ACK, bvlc.CONNECT_ACCEPT, bvlc.DISCONNECT_ACK, bvlc.HEARTBEAT_ACK)
NEEDS_PAYLOAD = (bvlc.NPDU, bvlc.ADVERTISEMENT, bvlc.CONNECT_REQUEST, bvlc.CONNECT_ACCEPT, bvlc.PROPRIETARY)
FIXED = {bvlc.NPDU: 1, bvlc.ADVERTISEMENT: 6, bvlc.CONNECT_REQUEST: 26, bvlc.CONNECT_ACCEPT: 26, bvlc.PROPRIETARY: 3}
HAS_REST = (bvlc.NPDU, bvlc.RESOLUTION_ACK, bvlc.PROPRIETARY)

# The bug that each word plants: the rule by which it is found, a group of cases that find it, and what it does.
BUGS = {
    "nak-to-response": ("nak-to-response", "refusals", "a response that is wrong gets a NAK"),
    "nak-to-broadcast": ("nak-to-broadcast", "refusals", "a broadcast that is wrong gets a NAK"),
    "wrong-code": ("nak-code", "refusals", "options that are cut get the code of a header that is encoded wrongly"),
    "no-nak": ("nak", "refusals", "an unknown function is met by silence"),
    "nak-closes": ("close-undue", "refusals", "the node closes the connection behind a NAK"),
    "nak-to-nobody": ("answer-to", "refusals", "a NAK for a peer has no Destination"),
    "heartbeat-id": ("message-id", "answers", "a Heartbeat-ACK has the Message ID 0"),
    "origin": ("origin-in", "answers", "an Address-Resolution-ACK has the node's VMAC as Originating address"),
    "no-advertisement": ("advertisement", "answers", "an Advertisement-Solicitation isn't answered"),
    "lengths": ("own-lengths", "answers", "an Advertisement has other lengths than the Connect-Request"),
    "status": ("hub-status", "failover", "an Advertisement says that the primary hub is in use, whichever is"),
    "same-vmac": ("renewal", "renewal", "a node whose VMAC is a duplicate asks with the same again"),
    "new-device": ("same-device", "renewal", "a node that draws a VMAC draws a device too"),
    "any-vmac": ("random", "renewal", "the VMAC that is drawn is no Random-48"),
    "any-accept": ("accept-id", "join", "a Connect-Accept with any Message ID is taken"),
    "early-ack": ("undue", "join", "a Heartbeat-Request is answered before the hub has accepted"),
    "no-disconnect-ack": ("disconnect-ack", "leave", "no Disconnect-ACK comes before the close"),
    "no-failover": ("failover", "failover", "the failover hub is never dialled"),
    "stays": ("back", "failover", "a node at its failover hub never returns"),
    "both": ("leaves-failover", "failover", "a node that has returned keeps the failover's connection"),
    "at-once": ("backoff", "backoff", "a hub is dialled again after 20 ms"),
    "no-heartbeat": ("heartbeat", "times", "the node never asks whether its hub is there"),
    "never-idle": ("idle", "times", "the node keeps a hub that doesn't answer"),
    "no-connect-wait": ("connect-wait", "times", "the node waits for ever for a Connect-Accept"),
    "direct-duplicate": ("direct-duplicate", "direct", "a peer with the node's own VMAC is let in"),
    "hub-protocol": ("protocol", "direct.dials", "a peer is dialled as a hub"),
}
__doc__ += "\n" + "\n".join(f"    {word:18} {says}" for word, (_, _, says) in BUGS.items()) + "\n"
bug = ""


class Wrong(Exception):
    """A message that fails a check: the code of the NAK and the marker, or no code."""

    def __init__(self, code=None, marker=0):
        self.code, self.marker = code, marker


class Gone(Exception):
    """A connection is over."""


class Link:
    """One end of a connection: `kind` is primary, failover, dialled or accepted."""

    def __init__(self, node, kind, ws):
        self.node, self.kind, self.ws = node, kind, ws
        self.phase, self.id, self.peer = ASKING, node.next_id(), None
        self.heard, self.has_asked = time.monotonic(), False
        self.is_hub = kind in ("primary", "failover")

    async def put(self, message):
        try:
            await self.ws.send(message.octets())
        except ConnectionClosed:
            pass

    async def end(self, code=1000):
        await self.ws.close(code)
        raise Gone()

    async def run(self):
        """Until the connection is over. It gives back whether the peer refused it as a duplicate."""
        ticking = asyncio.create_task(self.tick())
        try:
            if self.kind != "accepted":
                await self.put(Message(bvlc.CONNECT_REQUEST, self.id, payload=self.node.identity()))
            async for octets in self.ws:
                self.heard, self.has_asked = time.monotonic(), False
                if isinstance(octets, str):
                    await self.end(1003)
                if await self.take(octets):
                    return True
        except (Gone, ConnectionClosed):
            pass
        finally:
            ticking.cancel()
            self.node.left(self)
            await self.ws.close()
        return False

    async def tick(self):
        """Looks at the time."""
        begun = time.monotonic()
        while True:
            await asyncio.sleep(0.02)
            now = time.monotonic()
            if self.phase == ASKING and now - begun >= WAIT and bug != "no-connect-wait":
                await self.ws.close(1008)
            if self.phase == CONNECTED and now - self.heard >= 2 * WAIT and bug != "never-idle":
                await self.ws.close(1008)
            if self.phase == CONNECTED and now - self.heard >= WAIT and not self.has_asked and bug != "no-heartbeat":
                self.has_asked = True
                await self.put(Message(bvlc.HEARTBEAT_REQUEST, self.node.next_id()))

    async def leave(self):
        self.phase, self.id = LEAVING, self.node.next_id()
        await self.put(Message(bvlc.DISCONNECT_REQUEST, self.id))
        await asyncio.sleep(WAIT)
        await self.ws.close()

    async def take(self, octets):
        """Judges a message and does what it asks. Whether it is a refusal as a duplicate."""
        try:
            message = judged(self, octets)
        except Wrong as why:
            await self.refuse(octets, why)
            return False
        function = message.function
        if self.phase == ASKING:
            return await self.take_asking(message)
        if self.phase == LEAVING:
            if message.id == self.id:
                await self.end()
        elif function == bvlc.HEARTBEAT_REQUEST:
            await self.put(Message(bvlc.HEARTBEAT_ACK, 0 if bug == "heartbeat-id" else message.id))
        elif function == bvlc.DISCONNECT_REQUEST:
            if bug != "no-disconnect-ack":
                await self.put(Message(bvlc.DISCONNECT_ACK, message.id))
            await self.end()
        elif function in (bvlc.RESOLUTION, bvlc.SOLICITATION):
            await self.answer(message)
        elif function == bvlc.RESOLUTION_ACK and (message.origin, message.id) == (self.node.peer, self.node.asked):
            self.node.learn(message.payload.decode())
        return False

    async def answer(self, message):
        """Answers a node that asks."""
        to = message.origin if self.is_hub else b""
        if message.function == bvlc.RESOLUTION:
            origin = self.node.vmac if bug == "origin" else b""
            await self.put(Message(bvlc.RESOLUTION_ACK, message.id, origin, to, payload=self.node.uri.encode()))
        elif bug != "no-advertisement":
            status = 2 if self.node.hub and self.node.hub.kind == "failover" and bug != "status" else 1
            lengths = bytes.fromhex("04000400") if bug == "lengths" else LENGTHS
            await self.put(Message(bvlc.ADVERTISEMENT, self.node.next_id(), destination=to, payload=bytes([status, 1]) + lengths))

    async def take_asking(self, message):
        if self.kind == "accepted":
            return await self.take_request(message)
        if message.function == bvlc.HEARTBEAT_REQUEST:
            await self.put(Message(bvlc.HEARTBEAT_ACK, message.id))
        elif message.function == bvlc.CONNECT_ACCEPT and (message.id == self.id or bug == "any-accept"):
            self.phase, self.peer = CONNECTED, message.payload[:6]
            self.node.came(self)
        elif message.function == bvlc.RESULT and message.id == self.id and message.payload[:2] == b"\x06\x01":
            return message.payload[5:7] == bvlc.NODE_DUPLICATE_VMAC.to_bytes(2, "big")
        return False

    async def take_request(self, message):
        """A Connect-Request of a peer that dialled."""
        if message.payload[:6] == self.node.vmac and bug != "direct-duplicate":
            await self.put(bvlc.nak(message.id, bvlc.CONNECT_REQUEST, bvlc.NODE_DUPLICATE_VMAC))
            await self.end()
        self.phase, self.peer = CONNECTED, message.payload[:6]
        await self.put(Message(bvlc.CONNECT_ACCEPT, message.id, payload=self.node.identity()))
        return False

    async def refuse(self, octets, why):
        """The NAK for a message, where it gets one."""
        if why.code is None:
            return
        origin = octets[4:10] if octets[1] & 8 else b""
        at = 4 + len(origin)
        is_broadcast = octets[1] & 4 and octets[at : at + 6] == BROADCAST
        is_response = octets[0] in RESPONSES
        if is_broadcast and bug != "nak-to-broadcast" or is_response and bug != "nak-to-response" or why.code == 143 and bug == "no-nak":
            return
        code = 145 if bug == "wrong-code" and why.code == 147 else why.code
        nak = bvlc.nak(int.from_bytes(octets[2:4], "big"), octets[0], code, why.marker)
        to = origin if self.is_hub and bug != "nak-to-nobody" else b""
        await self.put(Message(nak.function, nak.id, destination=to, payload=nak.payload))
        if bug == "nak-closes":
            await self.end()


class Node:
    def __init__(self, primary, failover, peer):
        self.uris, self.peer = {"primary": primary, "failover": failover}, bytes.fromhex(peer)
        self.vmac, self.device = drawn(), DEVICE
        self.hub, self.links, self.uri, self.id = None, {}, "", 0
        self.peers_uri, self.asked, self.failed = "", None, asyncio.Event()

    def next_id(self):
        self.id = self.id % 0xFFFF + 1
        return self.id

    def identity(self):
        return self.vmac + self.device + LENGTHS

    def renew(self):
        if bug != "same-vmac":
            self.vmac = drawn()
        if bug == "new-device":
            self.device = os.urandom(16)

    def came(self, link):
        """A hub or a peer accepted."""
        self.links[link.kind] = link
        if link.kind == "primary" and "failover" in self.links and bug != "both":
            asyncio.create_task(self.links["failover"].leave())
        self.hub = self.links.get("primary") or self.links.get("failover")

    def left(self, link):
        if self.links.get(link.kind) is link:
            del self.links[link.kind]
        self.hub = self.links.get("primary") or self.links.get("failover")

    def learn(self, uris):
        self.peers_uri = next((it for it in uris.split(" ") if it.startswith("ws://")), "")

    async def dial(self, kind, uri, protocol):
        """One connection, to its end. Whether it was accepted once, and whether it was refused as a duplicate."""
        try:
            ws = await websockets.connect(uri, subprotocols=[protocol], compression=None, max_size=None, ping_interval=None, close_timeout=1,
                                          open_timeout=WAIT)
        except (OSError, InvalidHandshake, ConnectionClosed, asyncio.TimeoutError):
            return False, False
        link = Link(self, kind, ws)
        is_duplicate = await link.run()
        if is_duplicate:
            self.renew()
        return link.phase != ASKING, is_duplicate

    async def keep_primary(self):
        failures = 0
        while True:
            accepted, _ = await self.dial("primary", self.uris["primary"], HUB)
            failures = 1 if accepted else failures + 1
            self.failed.set()
            if bug == "stays" and "failover" in self.uris:
                await asyncio.sleep(0.3)
                while "failover" in self.links:
                    await asyncio.sleep(0.1)
            await asyncio.sleep(0.02 if bug == "at-once" else min(GREATEST, LEAST * 2 ** (failures - 1)))

    async def keep_failover(self):
        """Dials the failover hub where the primary has failed and isn't there."""
        while bug != "no-failover":
            await self.failed.wait()
            self.failed.clear()
            while "primary" not in self.links:
                await self.dial("failover", self.uris["failover"], HUB)
                await asyncio.sleep(LEAST)

    async def keep_peer(self):
        """Asks where the peer accepts, and dials it."""
        while True:
            await asyncio.sleep(1)
            if self.hub and self.hub.phase == CONNECTED:
                if self.peers_uri:
                    await self.dial("dialled", self.peers_uri, HUB if bug == "hub-protocol" else DIRECT)
                else:
                    self.asked = self.next_id()
                    await self.hub.put(Message(bvlc.RESOLUTION, self.asked, destination=self.peer))

    async def accept(self, ws, path=None):
        await Link(self, "accepted", ws).run()

    async def run(self):
        async with websockets.serve(self.accept, "127.0.0.1", 0, subprotocols=[DIRECT], compression=None, ping_interval=None, max_size=None,
                                    close_timeout=1, process_request=offers_direct) as server:
            self.uri = f"ws://127.0.0.1:{server.sockets[0].getsockname()[1]}/"
            await asyncio.gather(self.keep_primary(), self.keep_failover(), self.keep_peer())


async def offers_direct(path, headers):
    """Who doesn't offer the sub-protocol of direct connections is refused."""
    return None if DIRECT in headers.get("Sec-WebSocket-Protocol", "") else (400, [], b"")


def drawn():
    """A Random-48 VMAC."""
    octets = os.urandom(6)
    return bytes([octets[0] & 0xF0 | (5 if bug == "any-vmac" else 2)]) + octets[1:]


def judged(link, octets):
    """The message, where it is for this node. By docs/CHECKS.md, in its order."""
    if len(octets) < 4 or len(octets) > MAX_BVLC:
        raise Wrong()
    function, flags = octets[:2]
    at = 4 + 6 * bool(flags & 0x08) + 6 * bool(flags & 0x04)
    if len(octets) < at:
        raise Wrong()
    look_at_addresses(link, function, octets[4 : 10] if flags & 8 else b"", octets[at - 6 : at] if flags & 4 else b"")
    if flags & 0xF0:
        raise Wrong(145)
    if function > bvlc.PROPRIETARY:
        raise Wrong(143)
    lists = []
    for bit in (0x02, 0x01):
        items, at = options(octets, at) if flags & bit else ([], at)
        lists.append(items)
    for marker, length in lists[0] + lists[1]:
        kind, has_data = marker & 0x1F, marker & 0x20
        if kind == 0 or kind == 1 and has_data or kind == 31 and (not has_data or length < 3):
            raise Wrong(145)
    if lists[1] and function not in (bvlc.NPDU, bvlc.PROPRIETARY):
        raise Wrong(145)
    strange = next((marker for marker, _ in lists[0] if marker & 0x40 and marker & 0x1F != 1), None)
    if strange is not None:
        raise Wrong(146, strange)
    look_at_payload(function, octets[at:])
    look_at_place(link, function, flags & 0x08)
    return bvlc.read(octets)


def look_at_addresses(link, function, origin, destination):
    if link.is_hub:
        own = function == bvlc.RESULT or bvlc.CONNECT_REQUEST <= function <= bvlc.HEARTBEAT_ACK
        if not own and not origin or destination and destination not in (BROADCAST, link.node.vmac):
            raise Wrong()
    elif origin and origin != link.peer or destination and destination != link.node.vmac:
        raise Wrong()


def options(octets, at):
    """The markers and lengths of a list of header options, and where it ends."""
    items, follows = [], True
    while follows:
        if at >= len(octets):
            raise Wrong(147)
        marker, length = octets[at], 0
        at += 1
        if marker & 0x20:
            length = int.from_bytes(octets[at : at + 2], "big")
            if at + 2 + length > len(octets):
                raise Wrong(147)
            at += 2 + length
        items.append((marker, length))
        follows = marker & 0x80
    return items, at


def look_at_payload(function, payload):
    if function in NEEDS_PAYLOAD and not payload:
        raise Wrong(149)
    fixed, has_rest = FIXED.get(function, 0), function in HAS_REST
    if function == bvlc.RESULT:
        is_nak = len(payload) > 1 and payload[1] == 1
        fixed, has_rest = (7, True) if is_nak else (2, len(payload) > 1 and payload[1] > 1)
    if len(payload) < fixed:
        raise Wrong(147)
    if len(payload) > fixed and not has_rest:
        raise Wrong(150)
    if function == bvlc.RESULT and (payload[1] > 1 or not is_text(payload[7:])) or function == bvlc.RESOLUTION_ACK and not is_text(payload):
        raise Wrong(80)
    if function == bvlc.ADVERTISEMENT and (payload[0] > 2 or payload[1] > 1):
        raise Wrong(80)
    if function in (bvlc.CONNECT_REQUEST, bvlc.CONNECT_ACCEPT) and payload[:6] in (bytes(6), BROADCAST):
        raise Wrong(80)
    if function == bvlc.PROPRIETARY:
        raise Wrong(144)


def is_text(octets):
    try:
        octets.decode("utf-8")
        return True
    except UnicodeDecodeError:
        return False


def look_at_place(link, function, has_origin):
    """Whether the function is in place in the phase of the link."""
    taken = {ASKING: (bvlc.CONNECT_REQUEST,) if link.kind == "accepted" else (bvlc.RESULT, bvlc.CONNECT_ACCEPT),
             LEAVING: (bvlc.RESULT, bvlc.DISCONNECT_ACK)}.get(link.phase)
    if bug == "early-ack" and link.phase == ASKING and function == bvlc.HEARTBEAT_REQUEST:
        return
    if taken is None:
        of_hub = (bvlc.DISCONNECT_REQUEST, bvlc.HEARTBEAT_REQUEST, bvlc.HEARTBEAT_ACK)
        taken = range(bvlc.RESULT, bvlc.CONNECT_REQUEST) if has_origin and link.is_hub else [*range(bvlc.RESULT, bvlc.CONNECT_REQUEST), *of_hub]
    if function not in taken:
        raise Wrong()


def main(words):
    global bug
    if words == ["--bugs"]:
        print("\n".join(f"{word} {rule} {group}" for word, (rule, group, _) in BUGS.items()))
        return 0
    if len(words) not in (3, 4) or words[3:] and words[3] not in BUGS:
        print(__doc__ if words == ["--help"] else "python_node: three words and a bug are wanted; --help names them")
        return 0 if words == ["--help"] else 2
    bug = "".join(words[3:])
    asyncio.run(Node(*words[:3]).run())
    return 0


if __name__ == "__main__":
    sys.exit(main(sys.argv[1:]))
