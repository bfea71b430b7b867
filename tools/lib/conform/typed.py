"""A message as a person types it: its octets in hexadecimal, or what it is with its fields by their names."""
import re
import shlex

from message import (
    ADVERTISEMENT, BROADCAST, CONNECT_ACCEPT, CONNECT_REQUEST, ERROR_CODES, FUNCTIONS, NPDU, PROPRIETARY, RESOLUTION_ACK, RESULT, octets_in,
)

WHO_IS = "0120FFFF00FF1008"  # what an NPDU is, where nothing else is said
ORIGIN, DESTINATION, DESTINATION_OPTIONS, DATA_OPTIONS = 0x08, 0x04, 0x02, 0x01
NAK = 1
OF_ALL = ("id", "from", "to", "destination-options", "data-options", "flags", "payload", "behind")
FUNCTION_OF = {it.lower(): number for number, it in enumerate(FUNCTIONS)}
# Words for a message, each with its function, and fields that it stands for.
SHORT = {
    "result": (RESULT, {}), "ack": (RESULT, {"result": "0"}), "nak": (RESULT, {"result": "1"}),
    "npdu": (NPDU, {}), "unicast": (NPDU, {}), "broadcast": (NPDU, {"to": "all"}),
    "proprietary": (PROPRIETARY, {}),
}
NEEDS = {"unicast": ("to",), "message": ("function",)}


class BadLine(Exception):
    """A line that is no message. It says why."""


def digits(name, value, width=None):
    """Octets in hexadecimal. A VMAC and a UUID may have hyphens or colons between them."""
    octets = octets_in(re.sub(r"[:\s-]", "", value))
    if octets is None:
        raise BadLine(f"{name} is written in hexadecimal, two digits an octet")
    if width is not None and len(octets) != width:
        raise BadLine(f"{name} has {width} octets, and here are {len(octets)}; other lengths are typed as a whole message in hexadecimal")
    return octets


def number_in(name, value, width):
    """A number, in decimal or behind 0x, as octets."""
    try:
        return int(value, 0).to_bytes(width, "big")
    except (ValueError, OverflowError):
        raise BadLine(f"{name} is a number from 0 to {256 ** width - 1}") from None


def function_in(name, value):
    return bytes([FUNCTION_OF[value.lower()]]) if value.lower() in FUNCTION_OF else number_in(name, value, 1)


def error_code_in(name, value):
    numbers = {it: number for number, it in ERROR_CODES.items()}
    return number_in(name, str(numbers.get(value.upper(), value)), 2)


def vmac_in(name, value):
    return BROADCAST if value == "all" else digits(name, value, 6)


def text_in(name, value):
    return value.encode("utf-8")


def of_width(width):
    return lambda name, value: digits(name, value, width)


def of_number(width):
    return lambda name, value: number_in(name, value, width)


CONNECTING = (("vmac", vmac_in, None), ("uuid", of_width(16), None), ("max-bvlc", of_number(2), "1600"), ("max-npdu", of_number(2), "1497"))
# The fields of each payload, with how each is read, and what it is where nothing is said.
PAYLOADS = {
    RESULT: (("of", function_in, None), ("result", of_number(1), "0")),
    NPDU: (("npdu", digits, WHO_IS),),
    RESOLUTION_ACK: (("uris", text_in, ""),),
    ADVERTISEMENT: (
        ("hub-status", of_number(1), "1"), ("accepts-direct", of_number(1), "0"), ("max-bvlc", of_number(2), "1600"), ("max-npdu", of_number(2), "1497"),
    ),
    CONNECT_REQUEST: CONNECTING,
    CONNECT_ACCEPT: CONNECTING,
    PROPRIETARY: (("vendor", of_number(2), "0"), ("vendor-function", of_number(1), "0"), ("data", digits, "")),
}
OF_NAK = (("marker", of_width(1), "00"), ("error-class", of_number(2), "7"), ("error-code", error_code_in, None), ("details", text_in, ""))


def fields_of(function, said):
    """The fields that a payload of this function has."""
    is_nak = function == RESULT and number_in("result", said.get("result", "0"), 1)[0] == NAK
    return PAYLOADS.get(function, ()) + (OF_NAK if is_nak else ())


class Typist:
    """Reads lines, with what a message has where its line doesn't say it: the own VMAC and device, and the next Message ID."""

    def __init__(self, vmac, device):
        self.own = {"vmac": vmac, "uuid": device}
        self.next = 1

    def octets(self, line):
        """The octets of a message that a line spells."""
        plain = octets_in(line.split())
        if plain is None and re.fullmatch(r"[0-9A-Fa-f\s]+", line):
            raise BadLine("an octet has two hexadecimal digits, and here is an odd number of them")
        return plain if plain is not None else self.named(line)

    def named(self, line):
        try:
            word, *pairs = shlex.split(line)
        except ValueError as why:
            raise BadLine(f"the line can't be read: {why}") from None
        word = word.lower()
        said = dict(self.pair(it) for it in pairs)
        if word == "message":
            function, presets = None, {}
        elif word in SHORT:
            function, presets = SHORT[word]
        elif word in FUNCTION_OF:
            function, presets = FUNCTION_OF[word], {}
        else:
            raise BadLine(f"{word} is no message; help lists them")
        said = {**presets, **said}
        for name in NEEDS.get(word, ()):
            if name not in said:
                raise BadLine(f"{word} needs {name}=")
        if function is None:
            function = function_in("function", said.pop("function"))[0]
        return self.written(function, said)

    @staticmethod
    def pair(word):
        name, sign, value = word.partition("=")
        if not sign:
            raise BadLine(f"{word} is no field: fields are written NAME=VALUE")
        return name.lower(), value

    def written(self, function, said):
        fields = fields_of(function, said)
        names = [it[0] for it in fields]
        odd = next((it for it in said if it not in OF_ALL and it not in names), None)
        if odd:
            raise BadLine(f"there is no field {odd} here; there are: {', '.join([*OF_ALL, *names])}")
        origin, destination = (vmac_in(it, said[it]) if it in said else b"" for it in ("from", "to"))
        options = [digits(it, said.get(it, "")) for it in ("destination-options", "data-options")]
        flags = sum(bit for bit, it in zip((ORIGIN, DESTINATION, DESTINATION_OPTIONS, DATA_OPTIONS), (origin, destination, *options)) if it)
        if "flags" in said:
            flags = digits("flags", said["flags"], 1)[0]
        payload = digits("payload", said["payload"]) if "payload" in said else self.payload(fields, said)
        id = self.id(said.get("id"))
        return bytes([function, flags]) + id + origin + destination + b"".join(options) + payload + digits("behind", said.get("behind", ""))

    def payload(self, fields, said):
        octets = b""
        for name, read, otherwise in fields:
            value = said.get(name, self.own.get(name, otherwise))
            if value is None:
                raise BadLine(f"{name}= is missing")
            octets += read(name, value)
        return octets

    def id(self, said):
        """The Message ID, which counts up from the one before."""
        octets = number_in("id", said if said is not None else str(self.next), 2)
        self.next = (int.from_bytes(octets, "big") + 1) % 0x10000
        return octets


def listed():
    """A line for each message, with its fields."""
    for word, (function, presets) in SHORT.items():
        if word not in ("result", "npdu"):
            yield word, [it for it in [*NEEDS.get(word, ()), *(it[0] for it in fields_of(function, presets))] if it not in presets]
    for word, function in FUNCTION_OF.items():
        if function not in (RESULT, NPDU, PROPRIETARY):
            yield word, [it[0] for it in fields_of(function, {})]
    yield "message", ["function"]
