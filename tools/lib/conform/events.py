"""What comes to a peer: a message, or the close of its WebSocket."""
from typing import NamedTuple

DISCONNECT_REQUEST = 0x08


class Coming(NamedTuple):
    name: str
    octets: bytes


class Closing(NamedTuple):
    name: str
    code: int
    reason: str


class Texting(NamedTuple):
    """A text message, which is no message of BACnet/SC."""

    name: str
    text: str


def is_request_to_leave(octets):
    """Whether a hub asks a node by this to disconnect: a Disconnect-Request without addresses."""
    return octets[:2] == bytes([DISCONNECT_REQUEST, 0]) and len(octets) == 4


def plain(event):
    """An event without what a hub may choose: the Message ID of its own Disconnect-Request."""
    if isinstance(event, Coming) and is_request_to_leave(event.octets):
        return Coming(event.name, bytes([DISCONNECT_REQUEST, 0, 0, 1]))
    return event
