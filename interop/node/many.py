"""A node of bsc with 32 direct connections, whose other ends are by python3-websockets. All send it NPDUs, heartbeats and
Advertisement-Solicitations at once, and it sends each of them NPDUs. Half of them leave, and the node leaves the others. There is
no hub: each dial of it is refused. All lines that the node writes and all messages that come of it are compared.
"""
import asyncio
import time
from pathlib import Path

import websockets

import bvlc
from bvlc import Identity, Message
from live import Failed
from nodes import PATIENCE, PROGRAM, free_port

PROTOCOL = "dc.bsc.bacnet.org"
NODE = Identity(bytes.fromhex("02000000000D"), bytes.fromhex("dddddddd111142228333444444444444"))
PEERS = [Identity(b"\x02\x00\x00\x00\x01" + bytes([n]), bytes([n + 1] * 16)) for n in range(32)]
# Each peer sends so many NPDUs, and each tenth of them is followed by a heartbeat and a question for an Advertisement.
COUNT = 100
# Milliseconds behind the start: when the node sends to all, when half of them leave, when the node leaves the others.
SENDS, LEAVES, FINISHES = 4000, 5500, 7000

SETTINGS = """[node]
vmac = "{vmac}"
uuid = "{uuid}"
primary = "ws://127.0.0.1:{nobody}/"
max_bvlc = 1600
direct_port = {port}
direct_uris = "ws://127.0.0.1:{port}/"
"""


def given(place, n):
    """NPDU n of a peer."""
    return b"\x01\x00" + bytes([place]) + n.to_bytes(2, "big") + bytes((7 * n + at) % 251 for at in range(n % 60))


def taken(place):
    """What the node sends to a peer: one of them as long as may be."""
    return [b"\x01\x00" + bytes([place, n]) + bytes(1493 if n == 2 else n) for n in range(4)]


def script():
    lines = [f"at {SENDS}"]
    for n in range(4):
        lines += [f"send {who.vmac.hex()} {taken(place)[n].hex()}" for place, who in enumerate(PEERS)]
    return "\n".join([*lines, f"at {FINISHES}", "finish", ""])


def same(found, due, what):
    if found != due:
        raise Failed(f"many direct connections: {what}: {found} in place of {due}")


async def speaks(ws, place):
    for n in range(COUNT):
        await ws.send(Message(bvlc.NPDU, n, payload=given(place, n)).octets())
        if n % 10 == 9:
            await ws.send(Message(bvlc.HEARTBEAT_REQUEST, 1000 + n).octets())
            await ws.send(Message(bvlc.SOLICITATION, 2000 + n).octets())


async def hears(ws, came):
    async for octets in ws:
        came.append(message := bvlc.read(octets))
        same(message.octets(), octets, "a message")
        if message.function == bvlc.DISCONNECT_REQUEST:
            await ws.send(Message(bvlc.DISCONNECT_ACK, message.id).octets())


async def be(place, port, begun):
    """A peer: what came of the node, and the code of its close."""
    came = []
    async with websockets.connect(f"ws://127.0.0.1:{port}/", subprotocols=[PROTOCOL], compression=None, ping_interval=None) as ws:
        await ws.send(bvlc.connect_request(1, PEERS[place]).octets())
        hearing = asyncio.create_task(hears(ws, came))
        await speaks(ws, place)
        if place % 2:
            await asyncio.sleep(max(0, begun + LEAVES / 1000 - time.monotonic()))
            await ws.send(Message(bvlc.DISCONNECT_REQUEST, 3000).octets())
        await hearing
    return came, ws.close_code


def compare_peer(place, came, code):
    def of(function):
        return [message for message in came if message.function == function]

    name = f"at peer {place}, "
    same(code, 1000, name + "the code of its close")
    same(of(bvlc.CONNECT_ACCEPT), [bvlc.connect_accept(1, NODE)], name + "the accept")
    same([message.id for message in of(bvlc.HEARTBEAT_ACK)], [1000 + n for n in range(9, COUNT, 10)], name + "answers to heartbeats")
    same([message.payload for message in of(bvlc.ADVERTISEMENT)], [bytes.fromhex("0001064005D9")] * (COUNT // 10), name + "Advertisements")
    same([message.payload for message in of(bvlc.NPDU)], taken(place), name + "NPDUs")
    same(len(of(bvlc.DISCONNECT_REQUEST)), 1 - place % 2, name + "Disconnect-Requests")
    same(of(bvlc.DISCONNECT_ACK), [Message(bvlc.DISCONNECT_ACK, 3000)] * (place % 2), name + "Disconnect-ACKs")
    same(len(came), 6 + 2 * (COUNT // 10), name + "all that came")


def compare_lines(lines):
    same(lines[-1:], ["finished"], "the last line")
    for place, who in enumerate(PEERS):
        vmac = who.vmac.hex().upper()
        due = [f"direct {vmac} up", *(f"npdu {vmac} unicast {given(place, n).hex().upper()}" for n in range(COUNT)), f"direct {vmac} down"]
        same([line for line in lines if vmac in line.split()[1:2]], due, f"lines of peer {place}")
    same(len(lines), 1 + len(PEERS) * (COUNT + 2), "how many lines there are")


async def meet(folder):
    """Gives back how many NPDUs came, both ways together."""
    port = free_port()
    settings, words = Path(folder) / "many.toml", Path(folder) / "many.script"
    settings.write_text(SETTINGS.format(vmac=NODE.vmac.hex(), uuid=NODE.device.hex(), nobody=free_port(), port=port))
    words.write_text(script())
    node = await asyncio.create_subprocess_exec(PROGRAM, "node", settings, words, stdout=asyncio.subprocess.PIPE, stderr=asyncio.subprocess.PIPE,
                                                limit=1 << 22)
    try:
        said = await node.stderr.readline()
        begun = time.monotonic()
        same(said.decode(), f"bsc: node {NODE.vmac.hex().upper()} accepts ws://127.0.0.1:{port}/ as dc.bsc.bacnet.org\n", "what it said")
        ends = asyncio.create_task(node.communicate())
        met = await asyncio.wait_for(asyncio.gather(*(be(place, port, begun) for place in range(len(PEERS)))), FINISHES / 1000 + PATIENCE)
        told, more = await asyncio.wait_for(ends, PATIENCE)
    except (asyncio.TimeoutError, OSError, websockets.exceptions.WebSocketException) as fault:
        raise Failed(f"many direct connections: {fault!r}") from None
    finally:
        if node.returncode is None:
            node.kill()
            await node.wait()
    same((node.returncode, more), (0, b""), "the status, and what else was said")
    for place, (came, code) in enumerate(met):
        compare_peer(place, came, code)
    compare_lines(told.decode().splitlines())
    return len(PEERS) * (COUNT + 4)
