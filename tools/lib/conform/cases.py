"""The cases of the vectors: messages at places, by families, each with the check that is meant to decide.

A family is a generator of cases. `vectors` puts them into files and asks the program. What a case is meant to come to is
said here, by docs/CHECKS.md; conform/checks.py computes it from that page too, and the program has to say the same.
"""
from typing import NamedTuple

from conform.checks import BROADCAST, CODES, PHASES, RESERVED, RESPONSES, Place
from message import function_name

A, B, D, OTHER = (bytes.fromhex(it) for it in ("02000000000A", "02000000000B", "02000000000D", "02000000000C"))
HUB, NODE, DIRECT, STRANGER = Place("hub"), Place("node", B), Place("direct", B, A), Place("direct", B)
PLACES = (HUB, NODE, DIRECT, STRANGER)
LONGEST = 1600
DEVICE = bytes.fromhex("AA" * 16)
IDENTITY = A + DEVICE + bytes.fromhex("064005D9")
ADVERTISEMENT = bytes.fromhex("0100064005D9")
NPDU = bytes.fromhex("0120FFFF00FF1008")
NAK = bytes.fromhex("0A010000070091")
PAYLOADS = {
    0x00: bytes.fromhex("0A00"), 0x01: NPDU, 0x02: b"", 0x03: b"wss://a.example/", 0x04: ADVERTISEMENT, 0x05: b"",
    0x06: IDENTITY, 0x07: IDENTITY, 0x08: b"", 0x09: b"", 0x0A: b"", 0x0B: b"", 0x0C: bytes.fromhex("01040501"),
}
SECURE_PATH, KNOWN_NOT, PROPRIETARY_ITEM = b"\x41", b"\x42", bytes.fromhex("3F000400FF07AA")
PLACE_WORDS = {HUB: "At a hub port", NODE: "On a node's hub connection", DIRECT: "On a direct connection", STRANGER: "On a direct connection whose peer isn't known"}
PLACE_NAMES = {HUB: "hub", NODE: "node", DIRECT: "direct", STRANGER: "unknown-peer"}
PHASE_WORDS = {"request": "that awaits a Connect-Request", "accept": "that awaits a Connect-Accept", "connected": "that is connected",
               "disconnecting": "that awaits a Disconnect-ACK"}


class Case(NamedTuple):
    """A message at a place. `meant` is the check that decides, or pass or carry; `family` is the file that it stands in."""

    family: str
    name: str
    place: Place
    phase: str
    longest: int
    octets: bytes
    meant: str
    says: str


def needs_origin(function):
    return not (function == 0x00 or 0x06 <= function <= 0x0B)


def message(place, function, payload=b"", options=b"", flags=0, id=7, origin=None, to=None):
    """A message as it may come at this place: a node gets from its hub the Originating address that the function needs."""
    if origin is None and place.kind == "node" and needs_origin(function):
        origin = A
    flags |= (0x08 if origin else 0) | (0x04 if to else 0)
    return bytes((function, flags)) + id.to_bytes(2, "big") + (origin or b"") + (to or b"") + options + payload


def whole(place, function, **more):
    """The same with the payload that the function has."""
    return message(place, function, PAYLOADS.get(function, b""), **more)


def in_place(place, phase):
    """A function that may come there."""
    return {"request": 0x06, "accept": 0x07, "disconnecting": 0x09}.get(phase, 0x0A)


def everywhere():
    return ((place, phase) for place in PLACES for phase in PHASES)


def number_of(function):
    return f"{function:02X}"


# The checks, each at every place and in every phase: once with a NAK and once with silence, where that can be.

def short():
    for place, phase in everywhere():
        for size in range(4):
            octets = message(place, in_place(place, phase), origin=b"")[:size]
            yield Case("C1", f"{size}-octets", place, phase, LONGEST, octets, "C1", f"it has {size or 'no'} octet{'' if size == 1 else 's'}, and the shortest message has 4")


def too_long():
    for place, phase in everywhere():
        octets = whole(place, in_place(place, phase))
        yield Case("C2", "by-one", place, phase, len(octets) - 1, octets, "C2", "it has one octet more than is taken there")
        long = message(place, 0x01, bytes([1]) * (LONGEST - 3 if place is not NODE else LONGEST - 9))
        yield Case("C2", "npdu", place, phase, LONGEST, long, "C2", "it is an NPDU of 1,601 octets with its envelope, and 1,600 are taken")
        nak = message(place, 0x0D, bytes(60))
        yield Case("C2", "unknown-function", place, phase, 63, nak, "C2", "it is too long and has an unknown function: no NAK answers")


def cut_addresses():
    for place, phase in everywhere():
        for flags, name, kept in ((0x08, "originating", 5), (0x04, "destination", 5), (0x08, "originating-none", 0), (0x04, "destination-none", 0), (0x0C, "both", 11)):
            octets = bytes((0x01, flags, 0, 7)) + (A + BROADCAST)[:kept]
            yield Case("C3", name, place, phase, LONGEST, octets, "C3", f"{6 * bin(flags).count('1')} octets of addresses are announced and {kept} are there")


def wrong_addresses():
    for place, phase in everywhere():
        function = in_place(place, phase)
        if place is HUB:
            yield Case("C4", "originating", place, phase, LONGEST, whole(place, function, origin=A), "C4", "it has an Originating address, which a node gives its hub never")
            yield Case("C4", "both", place, phase, LONGEST, whole(place, 0x01, origin=A, to=B), "C4", "it has an Originating address and a Destination")
            continue
        if place is NODE:
            yield Case("C4", "no-originating", place, phase, LONGEST, bytes.fromhex("010000070100"), "C4", "it is an NPDU without an Originating address")
            yield Case("C4", "other-destination", place, phase, LONGEST, whole(place, 0x01, to=OTHER), "C4", "its Destination is another node")
            yield Case("C4", "other-destination-link", place, phase, LONGEST, whole(place, function, to=OTHER), "C4", "it is of the connection itself, and its Destination is another node")
            continue
        yield Case("C4", "other-originating", place, phase, LONGEST, whole(place, function, origin=OTHER), "C4", "its Originating address isn't that of the peer")
        yield Case("C4", "other-destination", place, phase, LONGEST, whole(place, function, to=OTHER), "C4", "its Destination isn't the node's own VMAC")
        yield Case("C4", "broadcast", place, phase, LONGEST, whole(place, 0x01, to=BROADCAST), "C4", "its Destination is the broadcast, which a direct connection has not")
        if place is STRANGER:
            yield Case("C4", "originating", place, phase, LONGEST, whole(place, function, origin=A), "C4", "it has an Originating address while the peer isn't known")


def reserved_flags():
    for place, phase in everywhere():
        for flag in (0x10, 0x20, 0x40, 0x80, 0xF0):
            yield Case("C5", f"{flag:02X}-nak", place, phase, LONGEST, whole(place, 0x0A, flags=flag), "C5", f"a Heartbeat-Request has the reserved flags {flag:02X}")
        yield Case("C5", "response", place, phase, LONGEST, whole(place, 0x0B, flags=0x10), "C5", "a Heartbeat-ACK has the reserved flag 10, and a response gets no NAK")
        if place in (HUB, NODE):
            yield Case("C5", "broadcast", place, phase, LONGEST, whole(place, 0x01, flags=0x10, to=BROADCAST), "C5", "a broadcast has the reserved flag 10, and a broadcast gets no NAK")
        if place is not STRANGER:
            yield Case("C5", "unicast", place, phase, LONGEST, whole(place, 0x01, flags=0x10, to=B), "C5", "a unicast with a Destination has the reserved flag 10")


def unknown_functions():
    for place, phase in everywhere():
        for function in (0x0D, 0x80, 0xFF):
            yield Case("C6", number_of(function), place, phase, LONGEST, message(place, function), "C6", f"the function is {number_of(function)}, and the last that is known is 0C")
        if place is NODE:
            yield Case("C6", "broadcast", place, phase, LONGEST, message(place, 0x0D, to=BROADCAST), "C6", "a broadcast has the function 0D, and a broadcast gets no NAK")


CUT_LISTS = (
    ("none", b"", "no octet of it is there"), ("second", b"\xC1", "its first item announces a second, which isn't there"),
    ("length", b"\x22\x00", "one octet of the length of an item is missing"), ("length-both", b"\x22", "both octets of the length of an item are missing"),
    ("data", bytes.fromhex("22000201"), "an octet of the data of an item is missing"),
)


def cut_options():
    for place, phase in everywhere():
        for name, options, words in CUT_LISTS:
            yield Case("C7", f"destination-{name}", place, phase, LONGEST, message(place, 0x0C, b"", options, 0x02), "C7", f"a list of destination options is announced, and {words}")
        yield Case("C7", "data-none", place, phase, LONGEST, message(place, 0x01, b"", b"", 0x01), "C7", "a list of data options is announced, and no octet of it is there")
        yield Case("C7", "data-behind", place, phase, LONGEST, message(place, 0x01, b"", b"\x41\xC1", 0x03), "C7", "the data options behind the destination options are cut")
        yield Case("C7", "response", place, phase, LONGEST, message(place, 0x0B, b"", b"", 0x02), "C7", "the destination options of a Heartbeat-ACK are cut, and a response gets no NAK")


BAD_ITEMS = (
    ("type-0", b"\x00", "an option of type 0"), ("type-0-data", bytes.fromhex("20000101"), "an option of type 0 with data"),
    ("secure-path-data", bytes.fromhex("610000"), "a Secure Path with data"), ("proprietary-none", b"\x1F", "a Proprietary option without data"),
    ("proprietary-short", bytes.fromhex("3F000200FF"), "a Proprietary option with two octets of data, and three is the least"),
)


def bad_options():
    for place, phase in everywhere():
        for name, options, words in BAD_ITEMS:
            yield Case("C7b", f"destination-{name}", place, phase, LONGEST, whole(place, 0x0A, options=options, flags=0x02), "C7b", f"the destination options are {words}")
        yield Case("C7b", "data-type-0", place, phase, LONGEST, whole(place, 0x01, options=b"\x00", flags=0x01), "C7b", "the data options are an option of type 0")
        yield Case("C7b", "second", place, phase, LONGEST, whole(place, 0x0A, options=b"\xC1\x00", flags=0x02), "C7b", "the second destination option is of type 0")
        yield Case("C7b", "response", place, phase, LONGEST, whole(place, 0x0B, options=b"\x00", flags=0x02), "C7b", "a Heartbeat-ACK has a destination option of type 0, and a response gets no NAK")


def misplaced_data_options():
    for place, phase in everywhere():
        for function in (0x00, *range(0x02, 0x0C)):
            words = "and a response gets no NAK" if function in RESPONSES else "and only 01 and 0C have data options"
            yield Case("C8", number_of(function), place, phase, LONGEST, whole(place, function, options=SECURE_PATH, flags=0x01), "C8",
                       f"data options are on function {number_of(function)}, {words}")


NOT_UNDERSTOOD = (
    ("type-2", b"\x42", "of type 2"), ("type-30", b"\x5E", "of type 30"), ("proprietary", bytes.fromhex("7F0003010405"), "a Proprietary one"),
    ("data", bytes.fromhex("620001AA"), "of type 2 with data"), ("second", b"\xC1\x42", "of type 2 behind a Secure Path"),
    ("first", b"\xC2\x41", "of type 2 before a Secure Path: the marker in the NAK has bit 7 as it came"),
    ("first-of-two", b"\xC3\x42", "of type 3 before one of type 2: the NAK has the marker of the first"),
)


def options_not_understood():
    for place, phase in everywhere():
        for name, options, words in NOT_UNDERSTOOD:
            yield Case("C9", name, place, phase, LONGEST, whole(place, 0x0A, options=options, flags=0x02), "C9", f"a destination option has to be understood and isn't known: {words}")
        yield Case("C9", "response", place, phase, LONGEST, whole(place, 0x0B, options=KNOWN_NOT, flags=0x02), "C9", "a Heartbeat-ACK has an option that isn't understood, and a response gets no NAK")
        if place is NODE:
            yield Case("C9", "broadcast", place, phase, LONGEST, whole(place, 0x01, options=KNOWN_NOT, flags=0x02, to=BROADCAST), "C9",
                       "a broadcast has an option that isn't understood, and a broadcast gets no NAK")


def no_payload():
    for place, phase in everywhere():
        for function in (0x01, 0x04, 0x06, 0x07, 0x0C):
            words = ", and a response gets no NAK" if function in RESPONSES else ""
            yield Case("C10", number_of(function), place, phase, LONGEST, message(place, function), "C10", f"{function_name(function)} has no octet of payload{words}")


def short_payload():
    for place, phase in everywhere():
        for function, size in ((0x04, 1), (0x04, 5), (0x06, 1), (0x06, 25), (0x0C, 1), (0x0C, 2), (0x07, 25), (0x00, 0), (0x00, 1)):
            words = ", and a response gets no NAK" if function in RESPONSES else ""
            count = "no octet" if not size else f"{size} octet{'' if size == 1 else 's'}"
            yield Case("C10b", f"{number_of(function)}-{size}", place, phase, LONGEST, message(place, function, PAYLOADS[function][:size]), "C10b",
                       f"the payload of {function_name(function)} has {count}, which is less than its fixed part{words}")
        yield Case("C10b", "nak-6", place, phase, LONGEST, message(place, 0x00, NAK[:6]), "C10b", "a NAK has 6 octets of payload, and 7 is the least; a response gets no NAK")


def long_payload():
    for place, phase in everywhere():
        for function in (0x02, 0x04, 0x05, 0x06, 0x07, 0x08, 0x09, 0x0A, 0x0B, 0x00):
            words = ", and a response gets no NAK" if function in RESPONSES else ""
            yield Case("C10c", number_of(function), place, phase, LONGEST, message(place, function, PAYLOADS[function] + b"\xAA"), "C10c",
                       f"an octet follows the payload of {function_name(function)}{words}")


OUT_OF_RANGE = (
    (0x04, "hub-status", bytes.fromhex("0300064005D9"), "the hub status is 3"), (0x04, "hub-status-255", bytes.fromhex("FF00064005D9"), "the hub status is 255"),
    (0x04, "accepts", bytes.fromhex("0102064005D9"), "accepts direct connections is 2"), (0x06, "reserved", RESERVED + IDENTITY[6:], "the VMAC that asks is the reserved one"),
    (0x06, "broadcast", BROADCAST + IDENTITY[6:], "the VMAC that asks is the broadcast"), (0x07, "reserved", RESERVED + IDENTITY[6:], "the VMAC that accepts is the reserved one, and a response gets no NAK"),
    (0x07, "broadcast", BROADCAST + IDENTITY[6:], "the VMAC that accepts is the broadcast, and a response gets no NAK"),
    (0x00, "result", bytes.fromhex("0A02"), "the result code is 2, and a response gets no NAK"), (0x00, "result-rest", bytes.fromhex("0AFF0102"), "the result code is 255, whatever follows, and a response gets no NAK"),
    (0x00, "details", NAK + b"\xFF", "the details of a NAK aren't UTF-8, and a response gets no NAK"), (0x03, "uris", b"ws://\xC3", "the URIs aren't UTF-8, and a response gets no NAK"),
)


def out_of_range():
    for place, phase in everywhere():
        for function, name, payload, words in OUT_OF_RANGE:
            yield Case("C11", f"{number_of(function)}-{name}", place, phase, LONGEST, message(place, function, payload), "C11", words)


def proprietary():
    for place, phase in everywhere():
        yield Case("C12", "nak", place, phase, LONGEST, whole(place, 0x0C), "C12", "a Proprietary-Message, of which none is known")
        yield Case("C12", "least", place, phase, LONGEST, message(place, 0x0C, bytes(3)), "C12", "a Proprietary-Message of its fixed part alone")
        yield Case("C12", "data-options", place, phase, LONGEST, whole(place, 0x0C, options=PROPRIETARY_ITEM, flags=0x01), "C12", "a Proprietary-Message with data options")
        if place is NODE:
            yield Case("C12", "broadcast", place, phase, LONGEST, whole(place, 0x0C, to=BROADCAST), "C12", "a broadcast of a Proprietary-Message, and a broadcast gets no NAK")


# Functions: each at every place and in every phase.

def is_due(place, phase, function):
    """Whether the function is in place, by the table of docs/CHECKS.md."""
    if phase != "connected":
        return function in {"request": (0x06,), "accept": (0x00, 0x07), "disconnecting": (0x00, 0x09)}[phase]
    return function in {"hub": (0x08, 0x0A)}.get(place.kind, (*range(0x06), 0x08, 0x0A, 0x0B))


def functions():
    for place, phase in everywhere():
        for function in range(0x0C):
            due = is_due(place, phase, function)
            yield Case("functions", number_of(function), place, phase, LONGEST, whole(place, function), "pass" if due else "C13",
                       f"{function_name(function)} {'is in place' if due else 'is out of place'}")
        if place is NODE:
            for function in (0x08, 0x0A, 0x0B):
                due = phase == "disconnecting" and function == 0x09
                yield Case("functions", f"{number_of(function)}-originating", place, phase, LONGEST, whole(place, function, origin=A), "pass" if due else "C13",
                           f"{function_name(function)} has an Originating address, and what a hub says of the connection it says in no other's name")
        if place is HUB:
            for function in (*range(0x0E), 0xFF):
                for to, name in ((B, "unicast"), (BROADCAST, "broadcast")):
                    yield Case("carried", f"{number_of(function)}-{name}", place, phase, LONGEST, whole(place, function, to=to), "carry" if phase == "connected" else "C13",
                               f"a {name} of {function_name(function)} is {'for others: it is carried on, whatever its function' if phase == 'connected' else 'for others, and the connection is not made'}")


def payloads():
    """What a payload may be."""
    result = bytes.fromhex("0A010000070091")
    forms = (
        (0x00, "ack", bytes.fromhex("0A00"), "an ACK"), (0x00, "nak", result, "a NAK without details"), (0x00, "nak-marker", bytes.fromhex("0A014200070092"), "a NAK with a header marker"),
        (0x00, "nak-details", result + b"no", "a NAK with details"), (0x00, "nak-other-class", bytes.fromhex("0A0100FFFFFFFF"), "a NAK of another class"),
        (0x00, "nak-unknown-function", bytes.fromhex("FF01000007008F"), "a NAK for an unknown function"),
        (0x00, "nak-two-octets", result + "\u00e9".encode(), "a NAK whose details have a letter of two octets"), (0x00, "nak-zero", result + b"\0", "a NAK whose details are an octet 00"),
        (0x01, "one-octet", b"\x01", "an NPDU of one octet"), (0x01, "longest", bytes([1]) * 1497, "an NPDU of 1,497 octets"),
        (0x03, "none", b"", "no URIs"), (0x03, "one", b"ws://a/", "one URI"), (0x03, "two", b"ws://a/ wss://b/", "two URIs"), (0x03, "text", b"not a URI", "text that is no URI, which isn't looked at"),
        (0x03, "three-octets", "\u20ac".encode(), "UTF-8 of three octets"), (0x03, "four-octets", "\U0010FFFF".encode(), "the last character of Unicode"),
        (0x04, "none", bytes.fromhex("000000000000"), "no hub, no direct connections, lengths of 0"), (0x04, "failover", bytes.fromhex("0201FFFFFFFF"), "the failover hub, with direct connections and the greatest lengths"),
    )
    for place in (NODE, DIRECT, STRANGER):
        for function, name, payload, words in forms:
            yield Case("payloads", f"{number_of(function)}-{name}", place, "connected", LONGEST, message(place, function, payload), "pass", words)
    broken = (("overlong", b"\xC0\xAF", "an overlong form"), ("surrogate", b"\xED\xA0\x80", "a surrogate"), ("beyond", b"\xF4\x90\x80\x80", "beyond the last character"),
              ("cut", b"\xE2\x82", "a character that is cut"), ("lone", b"\x80", "a lone octet of a longer character"), ("five", b"\xF8\x88\x80\x80\x80", "a form of five octets"),
              ("overlong-three", b"\xE0\x80\xAF", "an overlong form of three octets"), ("overlong-four", b"\xF0\x80\x80\xAF", "an overlong form of four octets"))
    for name, octets, words in broken:
        yield Case("payloads", f"03-{name}", DIRECT, "connected", LONGEST, message(DIRECT, 0x03, b"a" + octets), "C11", f"the URIs have {words}, which is no UTF-8")
        yield Case("payloads", f"00-{name}", NODE, "connected", LONGEST, message(NODE, 0x00, NAK + octets), "C11", f"the details of a NAK have {words}, which is no UTF-8")
    for vmac, name in ((bytes.fromhex("000000000001"), "first"), (bytes.fromhex("FFFFFFFFFFFE"), "last")):
        yield Case("payloads", f"06-vmac-{name}", HUB, "request", LONGEST, message(HUB, 0x06, vmac + IDENTITY[6:]), "pass", f"the {name} VMAC that names a node asks to join")
        yield Case("payloads", f"07-vmac-{name}", NODE, "accept", LONGEST, message(NODE, 0x07, vmac + IDENTITY[6:]), "pass", f"the {name} VMAC that names a node accepts")
    for id, name in ((0, "id-0"), (1, "id-1"), (0x7FFF, "id-7FFF"), (0xFFFF, "id-FFFF")):
        for place in (HUB, NODE, DIRECT):
            yield Case("payloads", f"0A-{name}", place, "connected", LONGEST, message(place, 0x0A, id=id), "pass", f"the Message ID is {id}")
            yield Case("payloads", f"0A-nak-{name}", place, "connected", LONGEST, message(place, 0x0A, b"\xAA", id=id), "C10c", f"an octet too many, and the Message ID is {id}: the NAK has it")


OPTION_FORMS = (
    ("secure-path", b"\x01", "a Secure Path"), ("secure-path-must", b"\x41", "a Secure Path that has to be understood"), ("unknown", b"\x02", "an unknown option that need not be understood"),
    ("unknown-no-octets", bytes.fromhex("220000"), "an unknown option with data of no octets"), ("unknown-data", bytes.fromhex("3E0003AABBCC"), "an option of type 30 with data"),
    ("proprietary", bytes.fromhex("3F0003010405"), "a Proprietary option of its least length"), ("proprietary-more", PROPRIETARY_ITEM, "a Proprietary option with an octet of its own"),
    ("two", b"\xC1\x01", "two options"), ("three", bytes.fromhex("C1BF000301040502"), "three options"), ("256", bytes.fromhex("220100") + bytes(256), "an option with 256 octets of data"),
)


def options():
    """Each function in each form of options."""
    for place in (NODE, DIRECT):
        for function in range(0x06):
            for name, octets, words in OPTION_FORMS:
                yield Case("options", f"{number_of(function)}-destination-{name}", place, "connected", LONGEST, whole(place, function, options=octets, flags=0x02), "pass",
                           f"{function_name(function)} has as destination options {words}")
    for place in (NODE, DIRECT):
        for name, octets, words in OPTION_FORMS:
            yield Case("options", f"01-data-{name}", place, "connected", LONGEST, whole(place, 0x01, options=octets, flags=0x01), "pass", f"an NPDU has as data options {words}")
            yield Case("options", f"01-both-{name}", place, "connected", LONGEST, whole(place, 0x01, options=SECURE_PATH + octets, flags=0x03), "pass",
                       f"an NPDU has a Secure Path as destination option and as data options {words}")
        yield Case("options", "01-data-must", place, "connected", LONGEST, whole(place, 0x01, options=KNOWN_NOT, flags=0x01), "pass",
                   "a data option that isn't known has to be understood, which is for who takes the NPDU")
    for place in (HUB, NODE, DIRECT):
        for function, phase in ((0x06, "request"), (0x07, "accept"), (0x09, "disconnecting"), (0x08, "connected"), (0x0A, "connected")):
            for name, octets, words in OPTION_FORMS[:4]:
                yield Case("options", f"{number_of(function)}-destination-{name}", place, phase, LONGEST, whole(place, function, options=octets, flags=0x02), "pass",
                           f"{function_name(function)} has as destination options {words}")


def boundaries():
    """Lengths."""
    for place in (HUB, NODE, DIRECT):
        for phase in PHASES:
            for size, meant in ((3, "C1"), (4, None)):
                octets = bytes((in_place(place, phase), 0, 0, 7))[:size]
                functions_without = in_place(place, phase) in (0x09, 0x0A)
                yield Case("boundaries", f"{size}-octets", place, phase, LONGEST, octets, meant or ("pass" if functions_without else "C10"), f"it has {size} octets")
        for size, meant in ((9, "C3"), (10, None)):
            octets = (bytes((0x0A, 0x08, 0, 7)) + A)[:size] if place is not HUB else (bytes((0x0A, 0x04, 0, 7)) + B)[:size]
            due = {HUB: "carry", NODE: "C13", DIRECT: "pass"}[place]
            yield Case("boundaries", f"{size}-octets", place, "connected", LONGEST, octets, meant or due, f"an address of six octets is announced, and it has {size} octets")
        for size, meant in ((15, "C3"), (16, None)):
            octets = (bytes((0x02, 0x0C, 0, 7)) + A + B)[:size]
            due = "C4" if place is HUB else "pass"
            yield Case("boundaries", f"{size}-octets", place, "connected", LONGEST, octets, meant or due, f"both addresses are announced, and it has {size} octets")
        for longest in (64, 1600, 2000, 65535):
            for more, name in ((-1, "max-minus-1"), (0, "max"), (1, "max-plus-1")):
                if longest == 65535 and place is not NODE:
                    continue
                to = B if place is HUB else None
                head = len(message(place, 0x01, to=to))
                octets = message(place, 0x01, bytes([1]) * (longest + more - head), to=to)
                due = "carry" if place is HUB else "pass"
                yield Case("boundaries", f"{longest}-{name}", place, "connected", longest, octets, "C2" if more > 0 else due,
                           f"it has {longest + more:,} octets, and {longest:,} are taken")
        for longest in (0, 3, 4):
            octets = bytes((0x0A, 0, 0, 7))
            yield Case("boundaries", f"taken-{longest}", place, "connected", longest, octets, "C2" if longest < 4 else "pass", f"it has 4 octets, and {longest} are taken")
        yield Case("boundaries", "short-before-long", place, "connected", 0, bytes(3), "C1", "it has 3 octets and none are taken: too short comes first")
    for size, meant in ((25, "C10b"), (26, "pass"), (27, "C10c")):
        for place, phase, function in ((HUB, "request", 0x06), (DIRECT, "request", 0x06), (NODE, "accept", 0x07), (DIRECT, "accept", 0x07)):
            octets = message(place, function, (IDENTITY + b"\0")[:size])
            yield Case("boundaries", f"{number_of(function)}-{size}", place, phase, LONGEST, octets, meant, f"the payload of {function_name(function)} has {size} octets, and its fixed part 26")
    for size, meant in ((5, "C10b"), (6, "pass"), (7, "C10c")):
        for place in (NODE, DIRECT):
            yield Case("boundaries", f"04-{size}", place, "connected", LONGEST, message(place, 0x04, (ADVERTISEMENT + b"\0")[:size]), meant, f"the payload of an Advertisement has {size} octets, and its fixed part 6")
    for size, meant in ((6, "C10b"), (7, "pass"), (8, "pass")):
        for place in (NODE, DIRECT):
            yield Case("boundaries", f"00-nak-{size}", place, "connected", LONGEST, message(place, 0x00, (NAK + b"x")[:size]), meant, f"the payload of a NAK has {size} octets, and its fixed part 7")


# Which check comes first, where more than one fails.

def orders():
    rows = (
        (HUB, "connected", 3, "01 04 00", "C1", "C13", "too short"),
        (HUB, "connected", 5, "01 04 0002 0200", "C2", "C3", "too long and with a cut address"),
        (NODE, "connected", 8, "0D 18 0002 0200000000", "C2", "C3", "too long, with a cut address and a reserved flag"),
        (HUB, "connected", 1600, "01 18 0002 0200000000", "C3", "C5", "with a cut address and a reserved flag"),
        (HUB, "connected", 1600, "01 18 0002 02000000000A", "C4", "C5", "with an Originating address and a reserved flag"),
        (NODE, "connected", 1600, "0D 10 0002", "C4", "C5", "without an Originating address and with a reserved flag"),
        (HUB, "connected", 1600, "0D 10 0002", "C5", "C6", "with a reserved flag and an unknown function"),
        (HUB, "request", 1600, "01 14 0002 02000000000B 0100", "C5", "C13", "a unicast with a reserved flag before the connection is made"),
        (HUB, "connected", 1600, "0D 02 0002", "C6", "C7", "of an unknown function and with cut options"),
        (NODE, "connected", 1600, "0E 0B 0002 02000000000A 00 41", "C6", "C7b", "of an unknown function and with an option of type 0"),
        (HUB, "connected", 1600, "01 03 0001 00 C1", "C7", "C7b", "with a destination option of type 0 and cut data options"),
        (NODE, "connected", 1600, "01 0B 0001 02000000000A 42 C1", "C7", "C9", "with an option that isn't understood and cut data options"),
        (NODE, "connected", 1600, "01 0A 0001 02000000000A 42", "C9", "C10", "with an option that isn't understood and no payload"),
        (HUB, "connected", 1600, "0A 03 0001 C2 00 41 AA", "C7b", "C8", "with an option of type 0, and data options on a Heartbeat-Request"),
        (NODE, "connected", 1600, "01 0A 0001 02000000000A C2 00 01", "C7b", "C9", "with an option that isn't understood before one of type 0"),
        (HUB, "connected", 1600, "06 01 0001 41", "C8", "C10", "a Connect-Request with data options and no payload"),
        (HUB, "connected", 1600, "0A 03 0001 42 41", "C8", "C9", "with data options on a Heartbeat-Request and an option that isn't understood"),
        (HUB, "connected", 1600, "0A 01 0001 41 AA", "C8", "C10c", "with data options on a Heartbeat-Request and an octet too many"),
        (HUB, "connected", 1600, "0A 02 0001 42 AA", "C9", "C10c", "with an option that isn't understood and an octet too many"),
        (HUB, "request", 1600, "06 02 0001 42 00", "C9", "C10b", "a Connect-Request with an option that isn't understood and a short payload"),
        (NODE, "connected", 1600, "0C 0A 0001 02000000000A 42 0104 05", "C9", "C12", "a Proprietary-Message with an option that isn't understood"),
        (NODE, "connected", 1600, "0C 08 0001 02000000000A", "C10", "C12", "a Proprietary-Message without payload"),
        (NODE, "connected", 1600, "0C 08 0001 02000000000A 0104", "C10b", "C12", "a Proprietary-Message with a short payload"),
        (NODE, "connected", 1600, "04 08 0001 02000000000A 03 00 0640 05D9 AA", "C10c", "C11", "an Advertisement with an unknown hub status and an octet too many"),
        (NODE, "connected", 1600, "06 00 0001 000000000000" + "AA" * 16 + "0640 05D9 AA", "C10c", "C11", "a Connect-Request of the reserved VMAC with an octet too many"),
        (NODE, "connected", 1600, "06 00 0001 000000000000" + "AA" * 16 + "0640 05D9", "C11", "C13", "a Connect-Request of the reserved VMAC out of place"),
        (HUB, "request", 1600, "04 00 0001 03 00 0640 05D9", "C11", "C13", "an Advertisement with an unknown hub status before joining"),
        (HUB, "request", 1600, "0C 00 0001 0104 05", "C12", "C13", "a Proprietary-Message before joining"),
        (DIRECT, "disconnecting", 1600, "0A 00 0001 AA", "C10c", "C13", "a Heartbeat-Request with an octet too many where a Disconnect-ACK is awaited"),
        (DIRECT, "request", 1600, "01 00 0001", "C10", "C13", "an NPDU without octets before the connection is made"),
        (NODE, "connected", 1600, "0A 0A 0001 02000000000A 42", "C9", "C13", "a Heartbeat-Request in another's name with an option that isn't understood"),
    )
    for number, (place, phase, longest, digits, first, other, words) in enumerate(rows, 1):
        yield Case("orders", f"{number:02}-{first}-before-{other}", place, phase, longest, bytes.fromhex(digits.replace(" ", "")), first, f"a message {words}: {first} comes before {other}")


def answers():
    """Where a NAK goes."""
    for place, origin, to, name, words in (
            (NODE, A, None, "originating", "its sender is named, so the NAK has a Destination"), (NODE, A, B, "both", "its sender and this node are named, so the NAK has the sender as Destination"),
            (DIRECT, A, None, "originating", "a NAK to a peer has no Destination"), (DIRECT, A, B, "both", "a NAK to a peer has no Destination, though both addresses came"),
            (DIRECT, None, B, "destination", "a NAK to a peer has no Destination"), (HUB, None, None, "none", "a hub's own NAK has no Destination")):
        for function, options, flags, payload, check in ((0x01, b"\x42", 0x02, NPDU, "C9"), (0x01, b"\x00", 0x02, NPDU, "C7b"), (0x04, b"", 0, b"\x00" * 5, "C10b"), (0x0C, b"", 0, bytes(3), "C12")):
            octets = message(place, function, payload, options, flags, origin=origin, to=to)
            yield Case("answers", f"{number_of(function)}-{check}-{name}", place, "connected", LONGEST, octets, check, f"{function_name(function)} fails {check}: {words}")
    for phase in PHASES:
        octets = message(NODE, 0x0A, b"\xAA")
        yield Case("answers", "0A-C10c-hub", NODE, phase, LONGEST, octets, "C10c", "the hub itself is the sender, so the NAK has no Destination")
    for vmac, name in ((RESERVED, "reserved"), (BROADCAST, "broadcast")):
        octets = message(NODE, 0x0C, bytes(3), origin=vmac)
        yield Case("answers", f"0C-{name}-originating", NODE, "connected", LONGEST, octets, "C12", f"the Originating address is the {name} VMAC, and the NAK has it as Destination all the same")


FAMILIES = (short, too_long, cut_addresses, wrong_addresses, reserved_flags, unknown_functions, cut_options, bad_options, misplaced_data_options,
            options_not_understood, no_payload, short_payload, long_payload, out_of_range, proprietary, functions, payloads, options, boundaries,
            orders, answers)


def all_cases():
    return [it for family in FAMILIES for it in family()]
