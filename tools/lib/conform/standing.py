"""What a node under test meets: a primary hub, a failover hub and a peer for direct connections, by python3-websockets.

Each side counts who dials it, and hands the links on. A link answers by itself what a node asks of its hub and of the peer that
this hub has, so that a node does what it does while it is tested."""
import asyncio
import http
import time

import websockets
from websockets.exceptions import ConnectionClosed

from conform.events import Closing, Coming, Texting
from message import Message

HUB, DIRECT = "hub.bsc.bacnet.org", "dc.bsc.bacnet.org"
LENGTHS = bytes.fromhex("064005D9")
HUB_VMACS = {"primary": bytes.fromhex("0200000000FF"), "failover": bytes.fromhex("0200000000FE")}
HUB_DEVICES = {"primary": bytes(range(16)), "failover": bytes(range(16, 32))}
PEER, PEER_DEVICE = bytes.fromhex("02000000000E"), b"\xEE" * 16
STRANGER = bytes.fromhex("02000000000C")
CLOSING = 1  # seconds for the reply to a close
(NAK, NPDU, RESOLUTION, RESOLUTION_ACK, ADVERTISEMENT, SOLICITATION, CONNECT_REQUEST, CONNECT_ACCEPT, DISCONNECT_REQUEST, DISCONNECT_ACK,
 HEARTBEAT_REQUEST, HEARTBEAT_ACK, _) = range(13)


def spelled(function, id, origin=b"", destination=b"", payload=b""):
    """The octets of a message without options."""
    flags = 8 * bool(origin) + 4 * bool(destination)
    return bytes([function, flags]) + id.to_bytes(2, "big") + origin + destination + payload


class Link:
    """One WebSocket between the node and a side. `came` are its events that nobody has taken yet."""

    def __init__(self, stand, side, ws):
        self.stand, self.side, self.ws = stand, side, ws
        self.at, self.heard = time.monotonic(), time.monotonic()
        self.came, self.arrival = [], asyncio.Event()
        self.closed, self.mute = False, False
        self.request = None  # the node's Connect-Request, or of a link that was dialled to the node its Connect-Accept
        self.accepted = False

    def tell(self, event):
        self.heard = time.monotonic()
        self.came.append(event)
        self.stand.saw(self, event)
        self.arrival.set()

    async def read(self):
        try:
            while True:
                came = await self.ws.recv()
                if isinstance(came, str):
                    self.tell(Texting(self.side, came))
                elif not await self.answered(came):
                    self.tell(Coming(self.side, came))
        except ConnectionClosed:
            self.closed = True
            self.tell(Closing(self.side, self.ws.close_code or 1006, self.ws.close_reason or ""))

    async def answered(self, octets):
        """Whether a link answers by itself: what a node asks its hub, and a peer by way of its hub."""
        message = Message(octets)
        if self.mute or not self.accepted or message.id is None or message.origin:
            return False
        answer = None
        if message.function == HEARTBEAT_REQUEST and not message.destination:
            answer = spelled(HEARTBEAT_ACK, message.id)
        elif message.destination == PEER and message.function == RESOLUTION:
            answer = spelled(RESOLUTION_ACK, message.id, PEER, payload=self.stand.peer_uri.encode())
        elif message.destination == PEER and message.function == SOLICITATION:
            answer = spelled(ADVERTISEMENT, message.id, PEER, payload=bytes([1, 1]) + LENGTHS)
        elif message.function not in (NPDU, SOLICITATION, RESOLUTION):
            return False
        self.stand.saw(self, Coming(self.side, octets))
        if answer:
            await self.send(answer)
        return True

    async def send(self, message):
        self.stand.sent(self, message)
        try:
            await self.ws.send(message)
        except ConnectionClosed:
            pass

    async def next(self, seconds):
        """The next event, or None where none comes in time."""
        until = time.monotonic() + seconds
        while not self.came:
            self.arrival.clear()
            try:
                await asyncio.wait_for(self.arrival.wait(), max(0.0, until - time.monotonic()))
            except asyncio.TimeoutError:
                return None
        return self.came.pop(0)

    async def close(self):
        await self.ws.close()


class Side:
    """A hub, or the peer, at a port."""

    def __init__(self, stand, name, protocol):
        self.stand, self.name, self.protocol = stand, name, protocol
        self.dials, self.links, self.arrival = [], [], asyncio.Event()
        self.refuses = False

    async def look(self, path, headers):
        """Who dials is refused while the side is down."""
        self.dials.append(time.monotonic())
        self.arrival.set()
        if self.refuses:
            return http.HTTPStatus.SERVICE_UNAVAILABLE, [], b""
        return None

    async def serve(self, ws, path=None):
        link = Link(self.stand, self.name, ws)
        self.links.append(link)
        self.arrival.set()
        if self.name == "peer":
            asyncio.create_task(self.stand.be_peer(link))
        await link.read()

    async def next(self, seconds):
        """The next link that nobody has taken yet and that is open, or None."""
        until = time.monotonic() + seconds
        while True:
            while self.links:
                link = self.links.pop(0)
                if not link.closed:
                    return link
            self.arrival.clear()
            try:
                await asyncio.wait_for(self.arrival.wait(), max(0.0, until - time.monotonic()))
            except asyncio.TimeoutError:
                return None

    async def dialled(self, count, seconds):
        """Waits until so many dials came."""
        until = time.monotonic() + seconds
        while len(self.dials) < count and time.monotonic() < until:
            self.arrival.clear()
            try:
                await asyncio.wait_for(self.arrival.wait(), max(0.0, until - time.monotonic()))
            except asyncio.TimeoutError:
                break
        return self.dials[:count]


class Stand:
    """All three sides. `turn` is the case that is played, to which all that happens is told."""

    def __init__(self, host, scheme, peer_uri):
        self.sides = {"primary": Side(self, "primary", HUB), "failover": Side(self, "failover", HUB), "peer": Side(self, "peer", DIRECT)}
        self.host, self.scheme, self.peer_uri = host, scheme, peer_uri
        self.turn = None
        self.servers = []
        self.of_peer = []  # links of the node to the peer, each with what came first
        self.sides["failover"].refuses = True

    async def listen(self, ports, tls):
        for (name, side), port in zip(self.sides.items(), ports):
            server = await websockets.serve(side.serve, self.host, port, subprotocols=[side.protocol], compression=None, ping_interval=None,
                                            max_size=None, ssl=tls, close_timeout=CLOSING, process_request=side.look)
            self.servers.append(server)

    async def leave(self):
        """Ends all connections."""
        for it in self.servers:
            it.close()
        if self.servers:
            await asyncio.wait([asyncio.ensure_future(it.wait_closed()) for it in self.servers], timeout=2 * CLOSING)

    async def be_peer(self, link):
        """Accepts the node that dials the peer, at any time."""
        first = await link.next(10)
        self.of_peer.append((link, first))
        link.request = first
        if isinstance(first, Coming) and first.octets[:1] == bytes([CONNECT_REQUEST]):
            link.accepted = True
            await link.send(spelled(CONNECT_ACCEPT, Message(first.octets).id or 0, payload=PEER + PEER_DEVICE + LENGTHS))

    def saw(self, link, event):
        if self.turn:
            self.turn.saw(link, event)

    def sent(self, link, message):
        if self.turn:
            self.turn.sent(link, message)
