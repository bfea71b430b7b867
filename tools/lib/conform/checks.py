"""The checks of docs/CHECKS.md, each as the page says it: all that fail of a message, and so the verdict.

This is written from docs/CHECKS.md and docs/FORMAT.md alone, and computes each check by itself, where `bsc` and
bench/plain/check.rs go through them in order. So it also tells where more than one check fails, which is where the order
decides. A check that has no meaning, as that of a payload whose place is unknown, doesn't fail.
"""
from typing import NamedTuple

BROADCAST, RESERVED = b"\xFF" * 6, bytes(6)
PHASES = ("request", "accept", "connected", "disconnecting")
ORDER = ("C1", "C2", "C3", "C4", "C5", "C6", "C7", "C7b", "C8", "C9", "C10", "C10b", "C10c", "C11", "C12", "C13")
CODES = {"C5": 145, "C6": 143, "C7": 147, "C7b": 145, "C8": 145, "C9": 146, "C10": 149, "C10b": 147, "C10c": 150, "C11": 80, "C12": 144}
CODE_NAMES = {
    80: "PARAMETER_OUT_OF_RANGE", 143: "BVLC_FUNCTION_UNKNOWN", 144: "BVLC_PROPRIETARY_FUNCTION_UNKNOWN",
    145: "HEADER_ENCODING_ERROR", 146: "HEADER_NOT_UNDERSTOOD", 147: "MESSAGE_INCOMPLETE", 149: "PAYLOAD_EXPECTED",
    150: "UNEXPECTED_DATA", 151: "NODE_DUPLICATE_VMAC",
}
RESPONSES = (0x00, 0x03, 0x07, 0x09, 0x0B)
OF_CONNECTION = range(0x06, 0x0C)
NEEDS_PAYLOAD = (0x01, 0x04, 0x06, 0x07, 0x0C)
FIXED = {0x01: 1, 0x04: 6, 0x06: 26, 0x07: 26, 0x0C: 3}
HAS_REST = (0x01, 0x03, 0x0C)


class Place(NamedTuple):
    """A place: its kind is hub, node or direct; the node's own VMAC, and the peer's, where there are such."""

    kind: str
    own: bytes = None
    peer: bytes = None

    def word(self):
        """It, as a word of a line of `check`."""
        if self.kind == "hub":
            return "hub"
        own = f"{self.kind}:{self.own.hex().upper()}"
        return own if self.kind == "node" else f"{own}:{self.peer.hex().upper() if self.peer else '-'}"


class Verdict(NamedTuple):
    """`word` is pass, carry, silent or nak. `failing` has all checks that fail, in their order."""

    word: str
    check: str = None
    nak: bytes = None
    failing: tuple = ()

    def line(self):
        """It, as `check` writes it."""
        return " ".join(filter(None, (self.word, self.check, self.nak and self.nak.hex().upper())))


class List(NamedTuple):
    """A list of options: where it ends, and the marker and data of each item."""

    end: int
    items: tuple


def list_at(message, at):
    """The list that begins there, or None where octets of it are missing."""
    items, follows = [], True
    while follows:
        if at >= len(message):
            return None
        marker, data = message[at], None
        at += 1
        if marker & 0x20:
            if at + 2 > len(message):
                return None
            length = int.from_bytes(message[at:at + 2], "big")
            data = message[at + 2:at + 2 + length]
            if len(data) < length:
                return None
            at += 2 + length
        items.append((marker, data))
        follows = bool(marker & 0x80)
    return List(at, tuple(items))


def has_shape(marker, data):
    kind = marker & 0x1F
    if kind == 1:
        return data is None
    if kind == 31:
        return data is not None and len(data) >= 3
    return kind != 0


def is_utf8(octets):
    try:
        octets.decode("utf-8")
    except UnicodeDecodeError:
        return False
    return True


class Parts:
    """Where the parts of a message stand, as far as its octets go. What has no place is None."""

    def __init__(self, message):
        self.function, self.flags, self.id = message[0], message[1], message[2:4]
        at = 4
        self.origin = self.destination = None
        if self.flags & 0x08:
            self.origin, at = message[at:at + 6], at + 6
        if self.flags & 0x04:
            self.destination, at = message[at:at + 6], at + 6
        self.lacks_address = len(message) < at
        self.lists = []
        self.payload = None
        if self.lacks_address:
            return
        for flag in (0x02, 0x01):
            found = list_at(message, at) if self.flags & flag else List(at, ())
            self.lists.append(found)
            if found is None:
                return
            at = found.end
        self.payload = message[at:]

    def lacks_options(self):
        return None in self.lists

    def has_bad_option(self):
        return any(not has_shape(*item) for found in self.lists if found for item in found.items)

    def not_understood(self):
        """The marker of the first destination option that has to be understood and isn't, or None."""
        items = self.lists[0].items if self.lists and self.lists[0] else ()
        return next((marker for marker, _ in items if marker & 0x40 and marker & 0x1F != 1), None)

    def is_carried(self, place):
        return place.kind == "hub" and self.destination is not None

    # The payload.

    def result(self):
        return self.payload[1] if self.function == 0 and len(self.payload) > 1 else None

    def fixed(self):
        if self.function == 0:
            return 7 if self.result() == 1 else 2
        return FIXED.get(self.function, 0)

    def has_rest(self):
        return self.function in HAS_REST or self.result() not in (0, None)

    def is_out_of_range(self):
        return bool(self.what_is_out_of_range())

    def what_is_out_of_range(self):
        """The name of the definition that says so, or none."""
        p = self.payload
        if len(p) < self.fixed():
            return ""
        if self.function == 0 and self.result() > 1:
            return "HasUnknownResult"
        if self.function == 0 and self.result() == 1 and not is_utf8(p[7:]):
            return "HasBadDetails"
        if self.function == 3 and not is_utf8(p):
            return "HasBadUris"
        if self.function == 4 and p[0] > 2:
            return "HasUnknownStatus"
        if self.function == 4 and p[1] > 1:
            return "HasUnknownAccepts"
        if self.function in (6, 7) and p[:6] in (BROADCAST, RESERVED):
            return "HasNoNodesVmac"
        return ""


def has_wrong_addresses(it, place):
    origin, destination = it.origin, it.destination
    if place.kind == "hub":
        return origin is not None
    if place.kind == "node":
        lacks_sender = it.function != 0 and it.function not in OF_CONNECTION and origin is None
        return lacks_sender or destination not in (None, BROADCAST, place.own)
    return origin not in (None, place.peer) or destination not in (None, place.own)


def is_in_place(it, place, phase):
    function = it.function
    if it.is_carried(place):
        return phase == "connected"
    if phase == "request":
        return function == 0x06
    if phase == "accept":
        return function in (0x00, 0x07)
    if phase == "disconnecting":
        return function in (0x00, 0x09)
    if place.kind == "hub":
        return function in (0x08, 0x0A)
    of_link = function in (0x08, 0x0A, 0x0B)
    return function <= 0x05 or of_link and (place.kind == "direct" or it.origin is None)


def failing(message, place, phase, longest):
    """All checks that are made of the message and fail, in their order."""
    found = []

    def look(check, fails):
        if fails:
            found.append(check)

    look("C2", len(message) > longest)
    if len(message) < 4:
        return ("C1", *found)
    it = Parts(message)
    look("C3", it.lacks_address)
    if it.lacks_address:
        return tuple(found)
    look("C4", has_wrong_addresses(it, place))
    look("C5", it.flags & 0xF0)
    if not it.is_carried(place):
        look("C6", it.function > 0x0C)
        look("C7", it.lacks_options())
        look("C7b", it.has_bad_option())
        look("C8", it.flags & 0x01 and it.function not in (0x01, 0x0C))
        look("C9", it.not_understood() is not None)
        p = it.payload
        if p is not None:
            look("C10", not p and it.function in NEEDS_PAYLOAD)
            look("C10b", len(p) < it.fixed() and (p or it.function not in NEEDS_PAYLOAD))
            look("C10c", len(p) > it.fixed() and not it.has_rest() and it.function <= 0x0C)
            look("C11", it.is_out_of_range())
        look("C12", it.function == 0x0C)
    look("C13", not is_in_place(it, place, phase))
    return tuple(found)


def nak_of(it, place, check):
    to = it.origin if place.kind == "node" and it.origin is not None else b""
    marker = it.not_understood() if check == "C9" else 0
    return (bytes((0, 4 if to else 0)) + it.id + to + bytes((it.function, 1, marker)) + b"\x00\x07"
            + CODES[check].to_bytes(2, "big"))


def judged(message, place, phase, longest):
    """The verdict on a message."""
    fails = failing(message, place, phase, longest)
    if not fails:
        return Verdict("carry" if Parts(message).is_carried(place) else "pass")
    first = fails[0]
    if first in CODES:
        it = Parts(message)
        if it.destination != BROADCAST and it.function not in RESPONSES:
            return Verdict("nak", first, nak_of(it, place, first), fails)
    return Verdict("silent", first, None, fails)
