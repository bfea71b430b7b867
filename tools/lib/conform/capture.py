"""Messages as a capture in the format pcapng, which Wireshark reads by its dissector of BACnet/SC with no settings.

A packet is a message in the form in which Wireshark exports what one of its dissectors is handed (link type 252): tags that
name the dissector, the two ends and their ports, and then the octets. The ends are addresses that are made up, 10.0.0.1 for
the first of the names and so on; the capture has the names for them.
"""
from typing import NamedTuple

LINK = 252  # LINKTYPE_WIRESHARK_UPPER_PDU
DISSECTOR = b"bscvlc"
TAG_DISSECTOR, TAG_FROM, TAG_TO, TAG_PORTS, TAG_FROM_PORT, TAG_TO_PORT = 12, 20, 21, 24, 25, 26
OF_TCP = 2
HUB_PORT, NODE_PORT = 47808, 49152
SECTION, INTERFACE, NAMES, PACKET = 0x0A0D0D0A, 1, 4, 6
COMMENT, TOLD_BY, NAME_OF_INTERFACE = 1, 4, 2
MAGIC = 0x1A2B3C4D
LONGEST = 262_144


class Packet(NamedTuple):
    """A message on its way from one name to another, at a time in microseconds."""

    at: int
    start: str
    end: str
    octets: bytes
    comment: str = ""


def padded(octets):
    return octets + bytes(-len(octets) % 4)


def little(number, width):
    return number.to_bytes(width, "little")


def tag(number, value):
    value = padded(value)
    return number.to_bytes(2, "big") + len(value).to_bytes(2, "big") + value


def option(number, value):
    return little(number, 2) + little(len(value), 2) + padded(value)


def options(*pairs):
    found = b"".join(option(*it) for it in pairs if it[1])
    return found + option(0, b"") if found else b""


def block(kind, body):
    size = little(len(body) + 12, 4)
    return little(kind, 4) + size + body + size


def address(number):
    """The made-up address of the name with this number, from 0."""
    return bytes((10, *(number + 1).to_bytes(3, "big")))


def exported(packet, numbers):
    """The octets of a packet: its tags, and the message."""
    ends = [numbers[it] for it in (packet.start, packet.end)]
    ports = [HUB_PORT if it == 0 else NODE_PORT for it in ends]
    return (tag(TAG_DISSECTOR, DISSECTOR) + tag(TAG_FROM, address(ends[0])) + tag(TAG_TO, address(ends[1])) + tag(TAG_PORTS, OF_TCP.to_bytes(4, "big"))
            + tag(TAG_FROM_PORT, ports[0].to_bytes(4, "big")) + tag(TAG_TO_PORT, ports[1].to_bytes(4, "big")) + bytes(4) + packet.octets)


def written(names, packets, told_by):
    """The capture, in pieces. `names` begins with that of the hub; a message of no octets can't be shown and is left out."""
    numbers = {name: number for number, name in enumerate(names)}
    yield block(SECTION, little(MAGIC, 4) + little(1, 2) + little(0, 2) + b"\xFF" * 8 + options((TOLD_BY, told_by.encode())))
    yield block(INTERFACE, little(LINK, 2) + bytes(2) + little(LONGEST, 4) + options((NAME_OF_INTERFACE, b"BACnet/SC")))
    records = b"".join(option(1, address(number) + name.encode() + b"\0") for name, number in numbers.items())
    yield block(NAMES, records + option(0, b""))
    for it in packets:
        if not it.octets:
            continue
        octets = exported(it, numbers)
        head = bytes(4) + little(it.at >> 32, 4) + little(it.at & 0xFFFFFFFF, 4) + little(len(octets), 4) * 2
        yield block(PACKET, head + padded(octets) + options((COMMENT, it.comment.encode())))
