#!/usr/bin/env python3
"""Hostile peers at a hub, and two well-behaved clients meanwhile: hostile.py PORT PID OUTBOX MAX-BVLC

PID is the hub's process. The figures are printed. The end is an error where a client lost a unicast, a hostile peer was
kept, or the process has other threads or descriptors or more memory than it may afterwards.
"""
import asyncio
import os
import random
import resource
import socket
import struct
import sys
import time

from raw import CLOSE, HEAD, WAIT, Peer, Refused, frame, frames
import bvlc
from bvlc import Identity, Message
from clients import PythonClient

PORT, PID, OUTBOX, MAX_BVLC = (int(word) for word in sys.argv[1:])
CONNECT_WAIT = (CLOSE, (1008).to_bytes(2, "big") + b"connect wait")

# The well-behaved clients send so many unicasts each way at least, so many at a time, which an outbox has room for. A hub
# that loses one in 997 by chance is missed but once in 20,000 runs.
LEAST = 5_000
BATCH = 32

faults = []
tallies = {}
number = 0


def fault(words):
    if len(faults) < 20:
        faults.append(words)


def count(what, n=1):
    tallies[what] = tallies.get(what, 0) + n


def somebody():
    """Who connects: another one each time."""
    global number
    number += 1
    return Identity(b"\x02\x00" + number.to_bytes(4, "big"), number.to_bytes(16, "big"))


async def linked(who=None, receives=None):
    """A peer with a link, which has joined as `who`. A hub with many handshakes at work may push one out."""
    for _ in range(5):
        peer = Peer(PORT, receives)
        try:
            await (peer.join(who) if who else peer.shake())
            return peer
        except (Refused, OSError):
            peer.drop()
    raise Refused


# The process.

def process():
    """Threads, descriptors, octets of memory, and the most octets so far."""
    with open(f"/proc/{PID}/status") as file:
        words = dict(line.rstrip("\n").split(":", 1) for line in file)
    memory, most = (1024 * int(words[key].split()[0]) for key in ("VmRSS", "VmHWM"))
    return int(words["Threads"]), len(os.listdir(f"/proc/{PID}/fd")), memory, most


# The well-behaved clients.

class Exchange:
    """Two clients that send each other numbered unicasts."""

    def __init__(self):
        self.sent = 0
        self.slowest = 0.0
        self.over = False

    async def begin(self):
        self.a, self.b = PythonClient([]), PythonClient([])
        self.who = Identity(b"\x0A" * 6, b"\xAA" * 16), Identity(b"\x0E" * 6, b"\xBB" * 16)
        for client, who in zip((self.a, self.b), self.who):
            await client.open(f"ws://127.0.0.1:{PORT}/")
            await client.send(bvlc.connect_request(1, who).octets())
            kind, octets = await client.next()
            if kind != "message" or bvlc.read(octets).function != bvlc.CONNECT_ACCEPT:
                raise Refused(kind, octets)

    async def one_way(self, sender, receiver, origin, destination):
        messages = [bvlc.npdu(n & 0xFFFF, destination, b"\x01\x00" + n.to_bytes(4, "big"))
                    for n in range(self.sent, self.sent + BATCH)]
        begun = time.monotonic()
        for message in messages:
            await sender.send(message.octets())
        for n, message in enumerate(messages, self.sent):
            came = await receiver.next(30)
            if came != ("message", bvlc.passed_on(message, origin).octets()):
                raise ValueError(f"unicast {n} didn't come, but {came}")
        self.slowest = max(self.slowest, time.monotonic() - begun)

    async def go_on(self):
        """Until it is over, and enough were sent. What the clients log isn't kept."""
        a, b = self.who
        while not self.over or self.sent < LEAST:
            await self.one_way(self.a, self.b, a.vmac, b.vmac)
            await self.one_way(self.b, self.a, b.vmac, a.vmac)
            self.sent += BATCH
            self.a.log.clear()
            self.b.log.clear()
            await asyncio.sleep(0 if self.over else 0.03)

    async def leave(self):
        for client in (self.a, self.b):
            await client.send(Message(bvlc.DISCONNECT_REQUEST, 7).octets())
            for wanted in (("message", Message(bvlc.DISCONNECT_ACK, 7).octets()), ("close", (1000, ""))):
                if (came := await client.next()) != wanted:
                    raise ValueError(f"in place of {wanted} came {came}")
            await client.end()


# Those that stay: when the hub lets one go, the next one comes.

async def says_nothing():
    async with Peer(PORT) as peer:
        await peer.connect()
        if await peer.ends() or peer.came:
            fault(f"a socket that says nothing got {peer.came!r}")
        count("sockets that say nothing, let go")


async def says_nothing_on_a_link():
    async with Peer(PORT) as peer:
        await peer.shake()
        if (came := await peer.ends()) != [CONNECT_WAIT]:
            fault(f"a link that says nothing got {came}")
        count("links that say nothing, closed with 1008")


async def dribble(peer, octets):
    for at in range(len(octets)):
        if peer.is_gone() or not await peer.send(octets[at : at + 1]):
            return True
        await asyncio.sleep(0.1)
    return False


async def dribbles_its_handshake():
    async with Peer(PORT) as peer:
        await peer.connect()
        if not await dribble(peer, HEAD):
            fault("a handshake that dribbled was taken")
        count("handshakes that dribble, let go")


async def dribbles_its_frame():
    async with Peer(PORT) as peer:
        await peer.shake()
        await dribble(peer, frame(bytes(300)))
        if list(frames(peer.came)) != [CONNECT_WAIT]:
            fault(f"a frame that dribbled got {peer.came!r}")
        count("frames that dribble, closed with 1008")


async def again_and_again(one):
    while True:
        try:
            await one()
        except Refused:
            count("handshakes pushed out")
        except (OSError, asyncio.TimeoutError) as why:
            fault(f"{one.__name__}: {type(why).__name__} {why}")
            await asyncio.sleep(1)


# Those that come and go.

async def half_a_frame(n):
    whole = frame(bvlc.npdu(1, b"\x02" * 6, bytes(500)).octets())
    async with await linked(somebody() if n % 2 else None) as peer:
        await peer.send(whole[: (1, 2, 4, 8, 100, len(whole) - 1)[n // 2 % 6]])
        end = n // 12 % 3
        if end == 2:
            await peer.ends()
        else:
            await asyncio.sleep(0.05)
            peer.drop(reset=end == 1)
        count("half frames")


async def half_frames():
    await asyncio.gather(*(half_a_frame(n) for n in range(72)))


async def flood():
    """100,000 unicasts at a receiver that doesn't read: what it can read at last is a first part of them, in order."""
    who = somebody()
    async with await linked(who, receives=4096) as receiver, await linked(somebody()) as sender:
        for at in range(0, 100_000, 500):
            octets = b"".join(frame(bvlc.npdu(n & 0xFFFF, who.vmac, n.to_bytes(4, "big") * 25).octets())
                              for n in range(at, at + 500))
            if not await sender.send(octets):
                fault("the sender of the flood was let go")
                return
        await sender.send(frame(Message(bvlc.HEARTBEAT_REQUEST, 9).octets()))
        while not list(frames(sender.came)):
            if not await asyncio.wait_for(sender.read(), 60):
                break
        if [m for _, m in frames(sender.came)] != [Message(bvlc.HEARTBEAT_ACK, 9).octets()]:
            fault(f"the sender of the flood got {sender.came!r}")
        came = [m for operation, m in await receiver.ends() if operation != CLOSE]
        for n, message in enumerate(came):
            if bvlc.read(message).payload != n.to_bytes(4, "big") * 25:
                fault(f"message {n} of the flood isn't the one that was sent")
                break
        count("messages of the flood found by its receiver at last", len(came))


async def is_let_go(what, peer, parts):
    async with peer:
        for part in parts:
            if not await peer.send(part):
                break
        await peer.ends()
        count(what)


async def great_messages():
    ten = bytes(10 << 20)
    for parts in (
        [frame(ten)],
        [frame(ten[: 1 << 16], 2 if at == 0 else 0, last=at == 159) for at in range(160)],
        [frame(b"", length=1 << 62)],
    ):
        await is_let_go("great messages, let go", await linked(somebody()), parts)


async def random_octets():
    for seed in range(40):
        await is_let_go("links with random octets, let go", await linked(), [random.Random(seed).randbytes(1 << 16)])


async def random_messages():
    """Whole frames with random octets, which begin like messages. Their answers are read."""
    for seed in range(10):
        draw = random.Random(seed)
        async with await linked(somebody()) as peer:
            for _ in range(50):
                octets = b"".join(frame(bytes([draw.randrange(14), draw.randrange(16)])
                                        + draw.randbytes(draw.randrange(2, 200))) for _ in range(10))
                if peer.is_gone() or not await peer.send(octets):
                    break
                count("random messages", 10)


def connect_and_go(times):
    for n in range(times):
        gone = socket.create_connection(("127.0.0.1", PORT), WAIT)
        if n % 2:
            gone.setsockopt(socket.SOL_SOCKET, socket.SO_LINGER, struct.pack("ii", 1, 0))
        gone.close()
    Peer.made += times


async def connects():
    """10,000 one after the other: most go at once, every 50th makes its handshake, every 200th joins."""
    for n in range(0, 10_000, 50):
        (await linked(None if n % 200 else somebody())).drop(reset=n % 100 == 0)
        await asyncio.to_thread(connect_and_go, 49)


async def settled(before):
    """The process, once it has as many threads and descriptors as before, or half a minute later."""
    for _ in range(300):
        after = process()
        if after[:2] == before[:2]:
            break
        await asyncio.sleep(0.1)
    return after


async def timed(kind):
    begun = time.monotonic()
    try:
        await asyncio.wait_for(kind(), 100)
    except Exception as why:
        fault(f"{kind.__name__}: {type(why).__name__} {why}")
    print(f"  {kind.__name__}: {time.monotonic() - begun:.1f} s, then {process()[2] >> 10} KiB", flush=True)


async def round_of_all():
    stay = [asyncio.create_task(again_and_again(one)) for n, one in (
        (200, says_nothing), (100, says_nothing_on_a_link), (25, dribbles_its_handshake), (25, dribbles_its_frame),
    ) for _ in range(n)]
    try:
        for kinds in ((half_frames, great_messages, random_octets, random_messages), (flood, connects)):
            await asyncio.gather(*(timed(kind) for kind in kinds))
    finally:
        # A wait that ends as it is cancelled may swallow the cancellation. So it is said until all have ended.
        while stay:
            for task in stay:
                task.cancel()
            stay = list((await asyncio.wait(stay, timeout=1))[1])


async def main():
    soft, hard = resource.getrlimit(resource.RLIMIT_NOFILE)
    resource.setrlimit(resource.RLIMIT_NOFILE, (hard if hard != resource.RLIM_INFINITY else max(soft, 4096), hard))
    exchange = Exchange()
    await exchange.begin()
    going = asyncio.create_task(exchange.go_on())
    await asyncio.sleep(1)
    before = process()
    await round_of_all()
    after = await settled(before)
    exchange.over = True
    try:
        await going
        await exchange.leave()
    except Exception as why:
        fault(f"the well-behaved clients: {type(why).__name__} {why}")
    for what, n in tallies.items():
        print(f"  {n:,} {what}")
    print(f"  {exchange.sent:,} unicasts each way between well-behaved clients, {BATCH} took {exchange.slowest:.3f} s at most")
    allowed = Peer.most * OUTBOX * MAX_BVLC
    print(f"  {Peer.made:,} sockets, {Peer.most} at once at most")
    print(f"  threads {before[0]} before, {after[0]} after; descriptors {before[1]} before, {after[1]} after")
    print(f"  memory in KiB: {before[2] >> 10} before, {after[3] >> 10} at most, "
          f"{after[2] >> 10} after; it may grow by {allowed >> 10}")
    if after[:2] != before[:2]:
        fault("the process has other threads or descriptors than before")
    if after[2] - before[2] > allowed:
        fault("the process has grown by more than it may")
    for words in faults:
        print(f"hostile: {words}", file=sys.stderr)
    return 1 if faults else 0


sys.exit(asyncio.run(main()))
