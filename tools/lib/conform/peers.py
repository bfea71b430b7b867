"""Peers of a hub over WebSocket, by Debian's python3-websockets."""
import asyncio
import socket
import ssl
from urllib.parse import urlsplit

import websockets
from websockets.exceptions import ConnectionClosed, InvalidHandshake, InvalidMessage

from conform.events import Closing, Coming, Texting, is_request_to_leave

PROTOCOL = "hub.bsc.bacnet.org"
OPENING = 10  # seconds that a hub has for the handshake
CLOSING = 1  # seconds that it has for the reply to a close
NARROW = 16_384  # octets that wait in the socket of a node that is held
ANSWERS = (0x00, 0x09)  # functions by which a node answers a Disconnect-Request


class NoConnection(Exception):
    """There is no link to the hub. It says why."""


def tls_context(asked):
    """What the words say of TLS: the CA that the hub is looked at by, and the own certificate with its key."""
    try:
        context = ssl.create_default_context(cafile=asked.ca)
        context.check_hostname = False
        if asked.cert:
            context.load_cert_chain(asked.cert, asked.key)
        return context
    except (OSError, ssl.SSLError) as why:
        raise NoConnection(f"the CA, the certificate or the key can't be used: {why}") from None


async def narrow_socket(uri):
    """A socket to the hub that takes few octets while nobody reads them."""
    where = urlsplit(uri)
    port = where.port or (443 if where.scheme == "wss" else 80)
    loop = asyncio.get_running_loop()
    family, kind, protocol, _, address = (await loop.getaddrinfo(where.hostname, port, type=socket.SOCK_STREAM))[0]
    it = socket.socket(family, kind, protocol)
    it.setsockopt(socket.SOL_SOCKET, socket.SO_RCVBUF, NARROW)
    it.setblocking(False)
    await loop.sock_connect(it, address)
    return {"sock": it, **({"server_hostname": where.hostname} if where.scheme == "wss" else {})}


async def opened(uri, tls, narrow=False, protocol=PROTOCOL):
    """A link to the hub. `tls` is None where the URI begins with ws."""
    try:
        more = await narrow_socket(uri) if narrow else {}
        ws = await websockets.connect(uri, subprotocols=[protocol], compression=None, max_size=None, ping_interval=None, ssl=tls,
                                      open_timeout=OPENING, close_timeout=CLOSING, **more)
    except ssl.SSLError as why:
        raise NoConnection(f"TLS was refused: {why}") from None
    except InvalidHandshake as why:
        # With TLS 1.3 a server looks at the certificate behind the handshake, and ends the link.
        if tls and isinstance(why, InvalidMessage):
            raise NoConnection("TLS was refused: the hub ended the link behind the handshake; does it take the own certificate?") from None
        raise NoConnection(f"the hub refused the WebSocket: {why}") from None
    except (OSError, ConnectionClosed, asyncio.TimeoutError) as why:
        raise NoConnection(f"no connection: {why or type(why).__name__}") from None
    if ws.subprotocol != protocol:
        await ws.close()
        raise NoConnection(f"the hub agreed to no sub-protocol {protocol}")
    return ws


class Peer:
    """A name of a script whose WebSocket is open. What comes is handed to `tell`, as events."""

    def __init__(self, name, ws, tell):
        self.name, self.ws, self.tell = name, ws, tell
        self.asked = None  # the Message ID by which the hub asked it to disconnect
        self.closed = False
        self.reading = asyncio.create_task(self.read())

    async def read(self):
        try:
            while True:
                came = await self.ws.recv()
                if isinstance(came, str):
                    self.tell(Texting(self.name, came))
                    continue
                if is_request_to_leave(came):
                    self.asked = int.from_bytes(came[2:4], "big")
                self.tell(Coming(self.name, came))
        except ConnectionClosed:
            self.closed = True
            self.tell(Closing(self.name, self.ws.close_code, self.ws.close_reason or ""))

    def as_asked(self, octets):
        """Octets of a script, in which the hub's Disconnect-Request has the Message ID 1, with that which it had."""
        is_answer = self.asked is not None and len(octets) > 3 and octets[0] in ANSWERS and octets[1] == 0
        if not is_answer:
            return octets
        id = int.from_bytes(octets[2:4], "big") - 1 + self.asked & 0xFFFF
        return octets[:2] + id.to_bytes(2, "big") + octets[4:]

    async def send(self, message):
        """Sends octets, or a text. A hub that has closed meanwhile gets nothing."""
        try:
            await self.ws.send(self.as_asked(message) if isinstance(message, bytes) else message)
        except ConnectionClosed:
            pass

    async def drop(self):
        """Closes the WebSocket, and tells nothing more."""
        self.tell = lambda event: None
        await self.ws.close()
        self.reading.cancel()

    def hold(self):
        """Reads nothing more, from here on until it is freed."""
        self.ws.transport.pause_reading()

    def free(self):
        self.ws.transport.resume_reading()
