"""Messages of BACnet/SC as octets and back (ANSI/ASHRAE 135-2020, Annex AB.2), written apart from bsc."""
from dataclasses import dataclass

(RESULT, NPDU, RESOLUTION, RESOLUTION_ACK, ADVERTISEMENT, SOLICITATION, CONNECT_REQUEST, CONNECT_ACCEPT,
 DISCONNECT_REQUEST, DISCONNECT_ACK, HEARTBEAT_REQUEST, HEARTBEAT_ACK, PROPRIETARY) = range(13)

BROADCAST = b"\xFF" * 6
COMMUNICATION = 7
NODE_DUPLICATE_VMAC = 151


@dataclass(frozen=True)
class Message:
    """A message; of header options it has the octets alone, which `read` finds the end of."""

    function: int
    id: int
    origin: bytes = b""
    destination: bytes = b""
    destination_options: bytes = b""
    data_options: bytes = b""
    payload: bytes = b""

    def octets(self):
        flags = 8 * bool(self.origin) + 4 * bool(self.destination)
        flags += 2 * bool(self.destination_options) + bool(self.data_options)
        head = bytes([self.function, flags]) + self.id.to_bytes(2, "big") + self.origin + self.destination
        return head + self.destination_options + self.data_options + self.payload


@dataclass(frozen=True)
class Identity:
    """Who connects: a VMAC, a device, and the longest message and NPDU that it takes."""

    vmac: bytes
    device: bytes
    max_bvlc: int = 1600
    max_npdu: int = 1497

    def octets(self):
        return self.vmac + self.device + self.max_bvlc.to_bytes(2, "big") + self.max_npdu.to_bytes(2, "big")


def options_end(octets, at):
    """Where the list of header options that begins at `at` ends."""
    while True:
        marker = octets[at]
        at += 1
        if marker & 0x20:
            at += 2 + int.from_bytes(octets[at : at + 2], "big")
        if not marker & 0x80:
            return at


def read(octets):
    """The message that whole octets spell."""
    function, flags, at = octets[0], octets[1], 4
    parts = []
    for bit in (8, 4):
        end = at + 6 if flags & bit else at
        parts.append(octets[at:end])
        at = end
    for bit in (2, 1):
        end = options_end(octets, at) if flags & bit else at
        parts.append(octets[at:end])
        at = end
    return Message(function, int.from_bytes(octets[2:4], "big"), *parts, octets[at:])


def connect_request(id, who):
    return Message(CONNECT_REQUEST, id, payload=who.octets())


def connect_accept(id, who):
    return Message(CONNECT_ACCEPT, id, payload=who.octets())


def npdu(id, destination, octets, data_options=b""):
    """An Encapsulated-NPDU to a VMAC, or to all, as a node hands it to its hub."""
    return Message(NPDU, id, destination=destination, data_options=data_options, payload=octets)


def passed_on(message, sender):
    """The same as a hub passes it on: to one node without its Destination, to all with it."""
    kept = message.destination if message.destination == BROADCAST else b""
    return Message(message.function, message.id, sender, kept, message.destination_options,
                   message.data_options, message.payload)


def nak(id, function, code, marker=0):
    payload = bytes([function, 1, marker]) + COMMUNICATION.to_bytes(2, "big") + code.to_bytes(2, "big")
    return Message(RESULT, id, payload=payload)
