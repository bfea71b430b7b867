"""Peers whose links a hub or a node ends, and that go on sending."""
import asyncio
import os
import subprocess
import tempfile
import time
from contextlib import contextmanager
from pathlib import Path

import bvlc
from bvlc import Identity, Message
from live import Failed
from nodes import PATIENCE, PROGRAM, Watch, free_port
from raw import BINARY, CLOSE, TEXT, Peer, Refused, frame, frames

DIRECT_HEAD = (b"GET / HTTP/1.1\r\nHost: 127.0.0.1\r\nUpgrade: websocket\r\nConnection: Upgrade\r\n"
               b"Sec-WebSocket-Key: dGhlIHNhbXBsZSBub25jZQ==\r\nSec-WebSocket-Version: 13\r\n"
               b"Sec-WebSocket-Protocol: dc.bsc.bacnet.org\r\n\r\n")

HUB = """[hub]
vmac = "0200000000FF"
uuid = "00112233-4455-6677-8899-aabbccddeeff"
port = {port}
connect_wait_ms = 60000
heartbeat_ms = 60000
"""

NODE = """[node]
vmac = "02000000000A"
uuid = "aaaaaaaa-aaaa-4aaa-8aaa-aaaaaaaaaaaa"
primary = "ws://127.0.0.1:{nobody}/"
direct_port = {port}
direct_uris = "ws://127.0.0.1:{port}/"
"""

OWN = Identity(bytes.fromhex("02000000000A"), b"\xAA" * 16)
HOLDER = Identity(bytes.fromhex("02000000000B"), b"\xBB" * 16)

# Milliseconds a socket lingers at most, and how many do at most at once.
LINGER, PLACES = 1000, 256

BEAT = frame(Message(bvlc.HEARTBEAT_REQUEST, 9).octets())
NAK = (BINARY, bvlc.nak(1, bvlc.CONNECT_REQUEST, bvlc.NODE_DUPLICATE_VMAC).octets())
ACK = (BINARY, Message(bvlc.DISCONNECT_ACK, 2).octets())


def closed(code):
    return CLOSE, code.to_bytes(2, "big")


def somebody(n):
    return Identity(b"\x02\x01" + n.to_bytes(4, "big"), n.to_bytes(16, "big"))


# Processes.

@contextmanager
def program(*words, says):
    """A process of bsc, once it says that it listens. The program may be built first."""
    with tempfile.TemporaryFile("w+") as said, tempfile.TemporaryFile("w+") as told:
        process = subprocess.Popen([PROGRAM, *map(str, words)], stdin=subprocess.DEVNULL, stdout=told, stderr=said, text=True)
        try:
            while os.pread(said.fileno(), 1 << 16, 0).find(says.encode()) < 0:
                if process.poll() is not None:
                    raise Failed(f"it doesn't listen: {os.pread(said.fileno(), 1 << 16, 0).decode()}")
                time.sleep(0.01)
            process.told = lambda: os.pread(told.fileno(), 1 << 16, 0).decode()
            yield process
        finally:
            if process.poll() is None:
                process.kill()
            process.wait()


@contextmanager
def hub(folder, *words):
    port = free_port()
    settings = Path(folder) / f"hub.{port}.toml"
    settings.write_text(HUB.format(port=port))
    with program("hub", settings, *words, says=f" serves ws://127.0.0.1:{port}/") as process:
        yield process, port


@contextmanager
def node(folder, finish):
    """A node without a hub, which finishes after so many milliseconds."""
    port = free_port()
    settings, script = Path(folder) / f"node.{port}.toml", Path(folder) / f"node.{port}.script"
    settings.write_text(NODE.format(port=port, nobody=free_port()))
    script.write_text(f"at {finish}\nfinish\n")
    with program("node", settings, script, says=f" accepts ws://127.0.0.1:{port}/") as process:
        yield process, port


def has(process):
    """Its threads and its descriptors."""
    return len(os.listdir(f"/proc/{process.pid}/task")), len(os.listdir(f"/proc/{process.pid}/fd"))


async def has_again(process, before, seconds=PATIENCE):
    until = time.monotonic() + seconds
    while has(process) != before:
        if time.monotonic() > until:
            raise Failed(f"it has {has(process)} threads and descriptors in place of {before}, {seconds} s after all have gone")
        await asyncio.sleep(0.05)


# Peers.

async def sends(peer, octets):
    """Sends; a reset is a fault."""
    try:
        await asyncio.wait_for(asyncio.get_running_loop().sock_sendall(peer.socket, octets), PATIENCE)
    except ConnectionError as why:
        raise Failed(f"a link broke off under a peer that went on sending: {why!r}") from None


async def sends_on(peer, seconds, each=5, pause=0.01):
    until = time.monotonic() + seconds
    while time.monotonic() < until:
        await sends(peer, BEAT * each)
        await asyncio.sleep(pause)


async def reads(peer, wanted):
    """Reads to the end of the stream; a reset is a fault, as is all but what is wanted."""
    try:
        while octets := await asyncio.wait_for(asyncio.get_running_loop().sock_recv(peer.socket, 1 << 16), PATIENCE):
            peer.came += octets
    except ConnectionError as why:
        raise Failed(f"of {wanted} a peer had read {list(frames(peer.came))} when the link broke off: {why!r}") from None
    if (came := list(frames(peer.came))) != wanted:
        raise Failed(f"in place of {wanted} a peer read {came}")


async def shaken(port, head=None):
    """A peer with a link. One with many handshakes at work may push one out."""
    for _ in range(5):
        peer = Peer(port)
        try:
            await (peer.shake(head) if head else peer.shake())
            return peer
        except (Refused, OSError):
            peer.drop()
    raise Failed("a handshake was refused")


async def joined(port, who):
    peer = Peer(port)
    await peer.join(who)
    return peer


async def duplicate(port, who, beats=50, seconds=0.3, head=None):
    """Asks to connect as somebody else's VMAC, goes on sending, and reads only then."""
    async with await shaken(port, head) as peer:
        await sends(peer, frame(bvlc.connect_request(1, Identity(who.vmac, b"\xDD" * 16)).octets()) + BEAT * beats)
        await sends_on(peer, seconds)
        await reads(peer, [NAK, closed(1000)])


async def all_of(*awaitables):
    for answer in await asyncio.gather(*awaitables, return_exceptions=True):
        if isinstance(answer, BaseException):
            raise answer if isinstance(answer, Failed) else Failed(repr(answer))


# Scenes.

async def duplicates(port):
    """100 at once, and 20 one after the other of which each has sent as much before it reads."""
    await all_of(*(duplicate(port, HOLDER) for _ in range(100)))
    for n in range(20):
        await duplicate(port, HOLDER, beats=50 * (1 + n % 4), seconds=0.01)
    return "120 duplicates"


async def leavers(port):
    """Nodes that ask to be disconnected, and go on sending."""
    async def leaver(n):
        async with await joined(port, somebody(n)) as peer:
            await sends(peer, frame(Message(bvlc.DISCONNECT_REQUEST, 2).octets()) + BEAT * 50)
            await sends_on(peer, 0.3)
            await reads(peer, [ACK, closed(1000)])

    await all_of(*(leaver(n) for n in range(50)))
    return "50 that left"


async def texts(port):
    async def speaker(n):
        async with await joined(port, somebody(100 + n)) as peer:
            await sends(peer, frame(b"words", TEXT) + BEAT * 50)
            await sends_on(peer, 0.3)
            await reads(peer, [closed(1003)])

    await all_of(*(speaker(n) for n in range(20)))
    return "20 that sent a text"


async def repliers(port):
    """Peers that keep to the standard: they reply to the close. The end of the stream is there long before a socket's time is over."""
    for n in range(10):
        async with await shaken(port) as peer:
            await sends(peer, frame(bvlc.connect_request(1, Identity(HOLDER.vmac, b"\xDD" * 16)).octets()))
            begun = time.monotonic()
            while closed(1000) not in frames(peer.came):
                peer.came += await asyncio.wait_for(asyncio.get_running_loop().sock_recv(peer.socket, 1 << 16), PATIENCE)
            await sends(peer, frame((1000).to_bytes(2, "big"), CLOSE))
            await reads(peer, [NAK, closed(1000)])
            if time.monotonic() - begun > LINGER / 2000:
                raise Failed("the stream ended late")


async def stubborn(process, port, before):
    """More than linger at once, which never end: the hub has no more descriptors than it may, and lets each go in its time."""
    peers = [await shaken(port) for _ in range(PLACES + 50)]
    most = [0]

    async def goes_on(peer):
        begun = time.monotonic()
        try:
            await asyncio.get_running_loop().sock_sendall(
                peer.socket, frame(bvlc.connect_request(1, Identity(HOLDER.vmac, b"\xDD" * 16)).octets()))
            while time.monotonic() - begun < PATIENCE:
                await asyncio.get_running_loop().sock_sendall(peer.socket, BEAT * 5)
                await asyncio.sleep(0.02)
        except ConnectionError:
            return time.monotonic() - begun
        raise Failed("a peer that never ends was kept")

    async def looks():
        await asyncio.sleep(0.5)
        most[0] = has(process)[1]

    try:
        took, _ = await asyncio.gather(asyncio.gather(*map(goes_on, peers)), looks())
    finally:
        for peer in peers:
            peer.drop()
    if most[0] > before[1] + PLACES:
        raise Failed(f"{most[0]} descriptors, of which {before[1]} were there before, while {PLACES} may linger")
    return f"{len(peers)} that never ended were let go after {max(took):.1f} s at most"


async def at_hub(folder):
    with hub(folder) as (process, port):
        async with await joined(port, HOLDER) as holder:
            await asyncio.sleep(0.2)
            before = has(process)
            told = [await duplicates(port), await leavers(port), await texts(port)]
            await has_again(process, before)
            await repliers(port)
            told.append(await stubborn(process, port, before))
            await has_again(process, before)
            # Who joined before all this is there as ever.
            await sends(holder, frame(Message(bvlc.DISCONNECT_REQUEST, 2).octets()))
            await reads(holder, [ACK, closed(1000)])
    return told


async def at_hub_that_ends(folder):
    """A hub that ends, behind the last of its links, whose peer goes on sending."""
    with hub(folder, "--sessions", 2) as (process, port):
        async with await joined(port, HOLDER) as holder:
            last = asyncio.create_task(duplicate(port, HOLDER, seconds=0.5))
            await asyncio.sleep(0.1)
            await sends(holder, frame(Message(bvlc.DISCONNECT_REQUEST, 2).octets()) + BEAT * 50)
            await sends_on(holder, 0.3)
            await reads(holder, [ACK, closed(1000)])
            await last
        begun = time.monotonic()
        while process.poll() is None:
            if time.monotonic() - begun > PATIENCE:
                raise Failed("a hub doesn't end behind its last link")
            await asyncio.sleep(0.01)
        if process.returncode or not process.told().startswith("hub counts joined=1 replaced=0 refused=1 "):
            raise Failed(f"a hub ended with status {process.returncode}, and told {process.told()!r}")


async def at_node(folder):
    """A node whose direct connections are refused, and ended when it finishes."""
    with node(folder, 4000) as (process, port):
        begun = time.monotonic()
        await all_of(*(duplicate(port, OWN, head=DIRECT_HEAD) for _ in range(30)))
        async with await shaken(port, DIRECT_HEAD) as peer:
            await sends(peer, frame(bvlc.connect_request(1, HOLDER).octets()))
            while not (came := list(frames(peer.came))):
                peer.came += await asyncio.wait_for(asyncio.get_running_loop().sock_recv(peer.socket, 1 << 16), PATIENCE)
            if bvlc.read(came[0][1]).function != bvlc.CONNECT_ACCEPT:
                raise Failed(f"a node answered {came}")
            peer.came = b""
            # The Disconnect-Request of the node, when it finishes.
            while not (came := list(frames(peer.came))):
                peer.came += await asyncio.wait_for(asyncio.get_running_loop().sock_recv(peer.socket, 1 << 16), PATIENCE)
            asked = bvlc.read(came[0][1])
            if asked.function != bvlc.DISCONNECT_REQUEST:
                raise Failed(f"a node that finishes put {came}")
            await sends(peer, frame(Message(bvlc.DISCONNECT_ACK, asked.id).octets()) + BEAT * 50)
            await sends_on(peer, 0.3)
            await reads(peer, [*came[:1], closed(1000)])
        while process.poll() is None:
            if time.monotonic() - begun > 4 + PATIENCE:
                raise Failed("a node doesn't end")
            await asyncio.sleep(0.01)
        if process.returncode or not process.told().endswith("finished\n"):
            raise Failed(f"a node ended with status {process.returncode}, and told {process.told()!r}")
    return "30 duplicates at a node, and one that it left"


async def scenes(folder):
    told = await at_hub(folder)
    await at_hub_that_ends(folder)
    told.append(await at_node(folder))
    return "; ".join(told)


def all_scenes():
    watch = Watch()
    try:
        with tempfile.TemporaryDirectory() as folder:
            return asyncio.run(scenes(folder)) + "; none lost a message or its close"
    except (Failed, OSError, asyncio.TimeoutError, Refused) as why:
        return watch.judge(repr(why) if not isinstance(why, Failed) else str(why))
    finally:
        watch.is_over = True
