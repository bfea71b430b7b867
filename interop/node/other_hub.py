"""A node of bsc at a hub by python3-websockets. This hub refuses the first Connect-Request, as that of a duplicate VMAC, so
that the node draws another; it gives each NPDU back as if whom it is for had sent it; it answers for a node E, to which the
node goes directly; it asks the node where it accepts direct connections, and dials it there as a node G; and it lets the
connection go once.
"""
import asyncio
import os
import time
from pathlib import Path

import websockets

import bvlc
from bvlc import BROADCAST, Identity, Message
from live import Failed
from nodes import PATIENCE, PROGRAM, free_port

HUB_PROTOCOL, DIRECT_PROTOCOL = "hub.bsc.bacnet.org", "dc.bsc.bacnet.org"
HUB, NODE, E, F, G = (Identity(bytes.fromhex(f"0200000000{last}"), bytes([int(last, 16)] * 16)) for last in ("FF", "0D", "0E", "0F", "47"))
DEVICE = bytes.fromhex("dddddddd111142228333444444444444")
BEATS = 700

SETTINGS = """[node]
vmac = "{vmac}"
uuid = "{uuid}"
primary = "ws://127.0.0.1:{hub}/"
max_bvlc = 1600
least_reconnect_ms = 200
heartbeat_ms = {beats}
direct_port = {port}
direct_uris = "wss://bacnet.example/ ws://127.0.0.1:{port}/"
"""

# What the node sends by the hub, directly, and once the hub has let it go: of one octet, and as long as may be.
BY_HUB = [bytes(length) for length in (1, 2, 300, 1497)]
DIRECT = [b"\x01\x00" + bytes(range(length)) for length in (0, 100, 256)]
TO_ALL, LET_GO, AGAIN, OF_G = b"\x01\x20\xFF\xFF\x00\xFF\x10\x08", b"\x01\x00let me go", b"\x01\x00again", b"\x01\x00of G"

SCRIPT = [
    (1500, [("send", E, octets) for octets in BY_HUB] + [("send", None, TO_ALL)]),
    (2000, [("resolve", E, b""), ("solicit", E, b"")]),
    (2500, [("direct", E, b"")]),
    (3500, [("send", E, octets) for octets in DIRECT] + [("send", F, AGAIN)]),
    (4000, [("send", F, LET_GO)]),
    (5500, [("send", F, AGAIN)]),
]
FINISH = 7500


def script():
    lines = []
    for at, wishes in SCRIPT:
        lines.append(f"at {at}")
        for word, to, octets in wishes:
            lines.append(f"{word} {to.vmac.hex() if to else 'FFFFFFFFFFFF'} {octets.hex()}".rstrip())
    return "\n".join([*lines, f"at {FINISH}", "finish", ""])


class OtherHub:
    def __init__(self):
        self.requests, self.answers, self.of_g, self.closes = [], [], [], []
        self.beats, self.faults = {HUB_PROTOCOL: 0, DIRECT_PROTOCOL: 0}, []

    async def serve(self, ws):
        """Whoever connects, until it goes."""
        try:
            async for octets in ws:
                message = bvlc.read(octets)
                if message.octets() != octets:
                    self.faults.append(f"the node sent {octets.hex()}")
                answer = self.common(ws, message) or (self.at_hub if ws.subprotocol == HUB_PROTOCOL else self.at_e)(message)
                if message.payload == LET_GO:
                    ws.transport.abort()
                elif answer:
                    await ws.send(answer.octets())
                if message.function == bvlc.CONNECT_REQUEST and ws.subprotocol == HUB_PROTOCOL and len(self.requests) == 2:
                    await self.ask(ws)
        except websockets.exceptions.ConnectionClosed:
            pass
        self.closes.append((ws.subprotocol, ws.close_code))

    def common(self, ws, message):
        if message.function == bvlc.HEARTBEAT_REQUEST:
            self.beats[ws.subprotocol] += 1
            return Message(bvlc.HEARTBEAT_ACK, message.id)
        if message.function == bvlc.DISCONNECT_REQUEST:
            return Message(bvlc.DISCONNECT_ACK, message.id)
        return None

    def at_hub(self, message):
        to, id = message.destination, message.id
        if message.function == bvlc.CONNECT_REQUEST:
            self.requests.append(message)
            duplicate = bvlc.nak(id, bvlc.CONNECT_REQUEST, bvlc.NODE_DUPLICATE_VMAC)
            return duplicate if len(self.requests) == 1 else bvlc.connect_accept(id, HUB)
        if message.function == bvlc.NPDU:
            return Message(bvlc.NPDU, id, E.vmac if to == BROADCAST else to, to if to == BROADCAST else b"", payload=message.payload)
        if message.function == bvlc.RESOLUTION:
            return Message(bvlc.RESOLUTION_ACK, id, to, payload=self.uris_of_e)
        if message.function == bvlc.SOLICITATION:
            return Message(bvlc.ADVERTISEMENT, id, to, payload=bytes.fromhex("0101064005D9"))
        self.answers.append(message)
        return None

    def at_e(self, message):
        if message.function == bvlc.CONNECT_REQUEST:
            return bvlc.connect_accept(message.id, E)
        if message.function == bvlc.NPDU:
            return message
        self.faults.append(f"the node sent {message} to E")
        return None

    async def ask(self, ws):
        """Asks the node where it accepts direct connections, for an Advertisement, and whether it is there."""
        for message in Message(bvlc.RESOLUTION, 0x1234, G.vmac), Message(bvlc.SOLICITATION, 0x1235, G.vmac), Message(bvlc.HEARTBEAT_REQUEST, 0x1236):
            await ws.send(message.octets())

    async def dial_as_g(self, uri):
        async with websockets.connect(uri, subprotocols=[DIRECT_PROTOCOL], compression=None, ping_interval=None) as ws:
            for message in bvlc.connect_request(1, G), Message(bvlc.NPDU, 2, payload=OF_G), Message(bvlc.DISCONNECT_REQUEST, 3):
                await ws.send(message.octets())
            self.of_g = [bvlc.read(octets) async for octets in ws]


def same(found, due, what):
    if found != due:
        raise Failed(f"other hub: {what}: {found} in place of {due}")


def lines_due(vmac, uris_of_e):
    def came(of, octets, reach="unicast"):
        return f"npdu {of.vmac.hex().upper()} {reach} {octets.hex().upper()}"

    e, g = E.vmac.hex().upper(), G.vmac.hex().upper()
    return ["nak hub 06 151", f"vmac {vmac.hex().upper()}", "hub primary", f"direct {g} up", came(G, OF_G), f"direct {g} down",
            *(came(E, octets) for octets in BY_HUB), came(E, TO_ALL, "broadcast"), f"uris {e} {uris_of_e.hex().upper()}",
            f"advert {e} 1 1 1600 1497", f"direct {e} up", *sorted([came(E, octets) for octets in DIRECT] + [came(F, AGAIN)]),
            "hub none", "hub primary", came(F, AGAIN), "hub none", f"direct {e} down", "finished"]


async def meet(folder):
    """Gives back how many NPDUs came back."""
    hub, port = OtherHub(), free_port()
    settings, words = Path(folder) / "node.toml", Path(folder) / "node.script"
    words.write_text(script())
    async with websockets.serve(hub.serve, "127.0.0.1", 0, subprotocols=[HUB_PROTOCOL, DIRECT_PROTOCOL], compression=None,
                                ping_interval=None) as server:
        hub_port = server.sockets[0].getsockname()[1]
        hub.uris_of_e = f"wss://127.0.0.1:{hub_port}/ ws://127.0.0.1:{hub_port}/e".encode()
        settings.write_text(SETTINGS.format(vmac=NODE.vmac.hex(), uuid=DEVICE.hex(), hub=hub_port, port=port, beats=BEATS))
        node = await asyncio.create_subprocess_exec(PROGRAM, "node", settings, words, stdout=asyncio.subprocess.PIPE,
                                                    stderr=asyncio.subprocess.PIPE)
        ends = asyncio.create_task(node.communicate())
        try:
            # The answers to what the hub asks, the Heartbeat-ACK last.
            until = time.monotonic() + PATIENCE
            while len(hub.answers) < 3 and time.monotonic() < until and not ends.done():
                await asyncio.sleep(0.01)
            if len(hub.answers) >= 3:
                await asyncio.wait_for(hub.dial_as_g(f"ws://127.0.0.1:{port}/"), PATIENCE)
            told, said = await asyncio.wait_for(ends, FINISH / 1000 + PATIENCE)
        except (asyncio.TimeoutError, OSError, websockets.exceptions.WebSocketException) as fault:
            raise Failed(f"other hub: {fault!r}, {len(hub.requests)} requests, {len(hub.answers)} answers") from None
        finally:
            if node.returncode is None:
                node.kill()
                await node.wait()
    return compare(hub, port, node.returncode, told.decode().splitlines(), said.decode())


def compare(hub, port, status, lines, said):
    same(status, 0, f"the status, with {lines[-3:]} and {said!r}")
    same(len(hub.requests), 3, "how often the node asked to connect")
    who = [Identity(m.payload[:6], m.payload[6:22], *(int.from_bytes(m.payload[at : at + 2], "big") for at in (22, 24))) for m in hub.requests]
    vmac = who[1].vmac
    same((vmac[0] & 15, vmac != NODE.vmac), (2, True), f"the VMAC that was drawn, {vmac.hex()}")
    same(who, [Identity(NODE.vmac, DEVICE), Identity(vmac, DEVICE), Identity(vmac, DEVICE)], "who asked to connect")
    uris = f"wss://bacnet.example/ ws://127.0.0.1:{port}/".encode()
    # An Advertisement is no answer by the standard's names, and has an ID of the node's own.
    own = hub.answers[1].id
    same(hub.answers, [Message(bvlc.RESOLUTION_ACK, 0x1234, destination=G.vmac, payload=uris),
                       Message(bvlc.ADVERTISEMENT, own, destination=G.vmac, payload=bytes.fromhex("0101064005D9")),
                       Message(bvlc.HEARTBEAT_ACK, 0x1236)], "the answers to what the hub asked")
    me = Identity(vmac, DEVICE)
    same(hub.of_g, [bvlc.connect_accept(1, me), Message(bvlc.DISCONNECT_ACK, 3)], "what came at G")
    due = lines_due(vmac, hub.uris_of_e)
    # What came by the hub and directly at one time may stand in either order.
    at = due.index(f"direct {E.vmac.hex().upper()} up") + 1
    same(lines[:at] + sorted(lines[at : at + len(DIRECT) + 1]) + lines[at + len(DIRECT) + 1 :], due, "what the node wrote")
    same(said, f"bsc: node {NODE.vmac.hex().upper()} accepts ws://127.0.0.1:{port}/ as dc.bsc.bacnet.org\n", "what it said when its port was bound")
    same(hub.faults, [], "messages")
    # A close of its own, at once after the refusal and behind the Disconnect-ACKs; let go, the hub saw none.
    same(sorted(hub.closes), sorted([(HUB_PROTOCOL, 1000), (HUB_PROTOCOL, 1006), (HUB_PROTOCOL, 1000), (DIRECT_PROTOCOL, 1000)]), "how connections ended")
    if not all(hub.beats.values()):
        raise Failed(f"other hub: heartbeats {hub.beats}")
    return len(BY_HUB) + len(DIRECT) + 4
