"""Sockets to a hub whose octets are written by hand, so that they can be wrong (RFC 6455)."""
import asyncio
import os
import socket
import struct
import sys

sys.path.insert(0, os.path.join(os.path.dirname(os.path.abspath(__file__)), "..", "hub"))
import bvlc

TEXT, BINARY, CLOSE = 1, 2, 8

HEAD = (b"GET / HTTP/1.1\r\nHost: 127.0.0.1\r\nUpgrade: websocket\r\nConnection: Upgrade\r\n"
        b"Sec-WebSocket-Key: dGhlIHNhbXBsZSBub25jZQ==\r\nSec-WebSocket-Version: 13\r\n"
        b"Sec-WebSocket-Protocol: hub.bsc.bacnet.org\r\n\r\n")

# How long a peer waits for what has to come, in seconds.
WAIT = 20


def frame(payload, operation=BINARY, last=True, length=None):
    """A frame of a client. Its mask is 0, which leaves the payload as it is. `length` may be another one than it has."""
    n = len(payload) if length is None else length
    first = bytes([0x80 * last + operation])
    if n < 126:
        head = first + bytes([0x80 + n])
    elif n < 65536:
        head = first + b"\xFE" + n.to_bytes(2, "big")
    else:
        head = first + b"\xFF" + n.to_bytes(8, "big")
    return head + bytes(4) + payload


def frames(octets):
    """The whole frames that a server's octets begin with: pairs of operation and payload."""
    at = 0
    while at + 2 <= len(octets):
        operation, n, begin = octets[at] & 15, octets[at + 1], at + 2
        if n >= 126:
            size = 2 if n == 126 else 8
            n, begin = int.from_bytes(octets[begin : begin + size], "big"), begin + size
        if begin + n > len(octets):
            return
        yield operation, octets[begin : begin + n]
        at = begin + n


class Refused(Exception):
    """The hub let a socket go before it was joined."""


class Peer:
    """A socket. `came` has the octets that were read behind the head of the handshake."""

    made = now = most = 0

    def __init__(self, port, receives=None):
        self.port = port
        self.came = b""
        self.open = True
        self.socket = socket.socket()
        if receives is not None:
            self.socket.setsockopt(socket.SOL_SOCKET, socket.SO_RCVBUF, receives)
        self.socket.setblocking(False)
        Peer.made += 1
        Peer.now += 1
        Peer.most = max(Peer.most, Peer.now)

    async def connect(self):
        await asyncio.wait_for(asyncio.get_running_loop().sock_connect(self.socket, ("127.0.0.1", self.port)), WAIT)

    async def send(self, octets):
        """Sends them; False where the hub has let go. It is a TimeoutError where it hasn't, and doesn't take them."""
        try:
            await asyncio.wait_for(asyncio.get_running_loop().sock_sendall(self.socket, octets), WAIT)
            return True
        except ConnectionError:
            return False

    async def read(self):
        """Reads what is there, or waits for it; False where the hub has let go."""
        try:
            octets = await asyncio.get_running_loop().sock_recv(self.socket, 1 << 16)
        except ConnectionError:
            return False
        self.came += octets
        return bool(octets)

    def is_gone(self):
        """Reads what is there; whether the hub has let go."""
        try:
            while octets := self.socket.recv(1 << 16):
                self.came += octets
            return True
        except BlockingIOError:
            return False
        except ConnectionError:
            return True

    async def ends(self):
        """Reads until the hub lets go, and gives the frames that came."""
        async def all():
            while await self.read():
                pass
        await asyncio.wait_for(all(), WAIT)
        return list(frames(self.came))

    async def shake(self, head=HEAD):
        await self.connect()
        if not await self.send(head):
            raise Refused
        while b"\r\n\r\n" not in self.came:
            if not await asyncio.wait_for(self.read(), WAIT):
                raise Refused
        head, _, self.came = self.came.partition(b"\r\n\r\n")
        if not head.startswith(b"HTTP/1.1 101 "):
            raise Refused

    async def join(self, who):
        await self.shake()
        await self.send(frame(bvlc.connect_request(1, who).octets()))
        while not (answers := list(frames(self.came))):
            if not await asyncio.wait_for(self.read(), WAIT):
                raise Refused
        operation, answer = answers[0]
        if operation != BINARY or bvlc.read(answer).function != bvlc.CONNECT_ACCEPT:
            raise Refused
        self.came = b""

    def drop(self, reset=False):
        if self.open:
            self.open = False
            Peer.now -= 1
            if reset:
                self.socket.setsockopt(socket.SOL_SOCKET, socket.SO_LINGER, struct.pack("ii", 1, 0))
            self.socket.close()

    async def __aenter__(self):
        return self

    async def __aexit__(self, *_):
        self.drop()
