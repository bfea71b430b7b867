"""A message of BACnet/SC field by field, whatever its octets. docs/FORMAT.md has the layout."""
import re
from pathlib import Path
from typing import NamedTuple

FUNCTIONS = (
    "BVLC-Result", "Encapsulated-NPDU", "Address-Resolution", "Address-Resolution-ACK", "Advertisement",
    "Advertisement-Solicitation", "Connect-Request", "Connect-Accept", "Disconnect-Request", "Disconnect-ACK",
    "Heartbeat-Request", "Heartbeat-ACK", "Proprietary-Message",
)
(RESULT, NPDU, _, RESOLUTION_ACK, ADVERTISEMENT, _, CONNECT_REQUEST, CONNECT_ACCEPT,
 DISCONNECT_REQUEST, DISCONNECT_ACK, _, _, PROPRIETARY) = range(13)
FLAGS = ((0x08, "Originating address"), (0x04, "Destination"), (0x02, "destination options"), (0x01, "data options"))
BROADCAST = b"\xFF" * 6
OPTION_TYPES = {0: "type 0, which no option has", 1: "Secure Path", 31: "Proprietary"}
HUB_STATUS = ("no hub", "the primary hub", "the failover hub")
ERROR_CLASSES = {7: "COMMUNICATION"}
ERROR_CODES = {
    80: "PARAMETER_OUT_OF_RANGE", 143: "BVLC_FUNCTION_UNKNOWN", 144: "BVLC_PROPRIETARY_FUNCTION_UNKNOWN",
    145: "HEADER_ENCODING_ERROR", 146: "HEADER_NOT_UNDERSTOOD", 147: "MESSAGE_INCOMPLETE", 149: "PAYLOAD_EXPECTED",
    150: "UNEXPECTED_DATA", 151: "NODE_DUPLICATE_VMAC",
}
BEHIND = "behind the payload"
NO_VALUE = "out of range"
NO_TEXT = "no UTF-8"


class Field(NamedTuple):
    """Octets that stand together, what they are called, and what they say."""

    octets: bytes
    name: str
    words: str


class Missing(Exception):
    """Octets of a field aren't there."""


def digits_of(octets):
    return octets.hex().upper()


def number(octets):
    return int.from_bytes(octets, "big")


def count(n, thing):
    return f"{n:,} {thing}" if n == 1 else f"{n:,} {thing}s"


def function_name(function):
    return FUNCTIONS[function] if function < len(FUNCTIONS) else f"function {function:02X}, unknown"


def named(table, octets, otherwise="unknown"):
    """A number with its name, by a table of names."""
    return f"{number(octets)}, {table.get(number(octets), otherwise)}"


def words_of_flags(octets):
    words = [name for bit, name in FLAGS if octets[0] & bit]
    if octets[0] & 0xF0:
        words.append("reserved bits")
    return ", ".join(words) or "no address, no options"


def words_of_vmac(octets):
    return {BROADCAST: "the broadcast: all nodes", bytes(6): "reserved: no node"}.get(octets, "a node")


def words_of_marker(octets):
    marker = octets[0]
    words = [OPTION_TYPES.get(marker & 0x1F, f"type {marker & 0x1F}")]
    words += [name for bit, name in ((0x40, "must understand"), (0x20, "with data"), (0x80, "another follows")) if marker & bit]
    return ", ".join(words)


def words_of_text(octets):
    try:
        text = octets.decode("utf-8")
    except UnicodeDecodeError:
        return NO_TEXT
    return f'"{text}"' if text.isprintable() else f"text of {count(len(text), 'character')}"


def words_of_length(octets):
    return count(number(octets), "octet")


def words_of_size(octets):
    return count(len(octets), "octet")


class Message:
    """What octets say, read from the front. `fields` has all of them, each once and in order. `missing` names the field
    of which octets aren't there, where there is one: that is the last."""

    def __init__(self, octets):
        self.octets = octets
        self.fields = []
        self.missing = ""
        self.function = self.flags = self.id = None
        self.origin = self.destination = b""
        self.payload = b""
        self.at = 0
        try:
            self.read_envelope()
            if self.flags & 0x02:
                self.read_options("destination option")
            if self.flags & 0x01:
                self.read_options("data option")
            self.payload = self.octets[self.at:]
            self.read_payload()
        except Missing as fault:
            self.missing = str(fault)
        self.take_rest(BEHIND, words_of_size)

    def is_whole(self):
        """Whether no octets are missing and none too many."""
        return not self.missing and self.fields[-1].name != BEHIND

    def is_in_range(self):
        """Whether each value with a name has one, and each text is UTF-8."""
        return all(it.words not in (NO_VALUE, NO_TEXT) for it in self.fields)

    def field(self, name):
        """The octets of the first field of this name, or none."""
        return next((it.octets for it in self.fields if it.name == name), b"")

    def take(self, name, width, words=lambda octets: ""):
        octets = self.octets[self.at : self.at + width]
        self.at += len(octets)
        if len(octets) < width:
            self.fields.append(Field(octets, name, f"missing: {count(width - len(octets), 'octet')}"))
            raise Missing(name)
        self.fields.append(Field(octets, name, words(octets)))
        return octets

    def take_rest(self, name, words):
        if self.at < len(self.octets):
            self.take(name, len(self.octets) - self.at, words)

    def read_envelope(self):
        self.function = self.take("function", 1, lambda it: function_name(it[0]))[0]
        self.flags = self.take("control flags", 1, words_of_flags)[0]
        self.id = number(self.take("Message ID", 2, lambda it: str(number(it))))
        if self.flags & 0x08:
            self.origin = self.take("Originating address", 6, words_of_vmac)
        if self.flags & 0x04:
            self.destination = self.take("Destination", 6, words_of_vmac)

    def read_options(self, name):
        follows = True
        while follows:
            marker = self.take(name, 1, words_of_marker)[0]
            if marker & 0x20:
                length = number(self.take("its length", 2, words_of_length))
                if length:
                    self.take("its data", length, words_of_size)
            follows = bool(marker & 0x80)

    def read_payload(self):
        if self.function == RESULT:
            self.read_result()
        elif self.function == NPDU:
            self.take("NPDU", max(1, len(self.octets) - self.at), words_of_size)
        elif self.function == RESOLUTION_ACK:
            self.take_rest("URIs", words_of_text)
        elif self.function == ADVERTISEMENT:
            self.take("hub status", 1, lambda it: HUB_STATUS[it[0]] if it[0] < 3 else NO_VALUE)
            self.take("accepts direct", 1, lambda it: ("no", "yes")[it[0]] if it[0] < 2 else NO_VALUE)
            self.read_lengths()
        elif self.function in (CONNECT_REQUEST, CONNECT_ACCEPT):
            self.take("VMAC", 6, words_of_vmac)
            self.take("Device UUID", 16)
            self.read_lengths()
        elif self.function == PROPRIETARY:
            self.take("vendor", 2, lambda it: str(number(it)))
            self.take("vendor's function", 1, lambda it: str(it[0]))
            self.take_rest("data", words_of_size)
        elif self.function >= len(FUNCTIONS):
            self.take_rest("payload", words_of_size)

    def read_result(self):
        self.take("function answered", 1, lambda it: function_name(it[0]))
        code = self.take("result code", 1, lambda it: ("ACK", "NAK")[it[0]] if it[0] < 2 else NO_VALUE)[0]
        if code == 1:
            self.take("header marker", 1, lambda it: words_of_marker(it) if it[0] else "no option is at fault")
            self.take("error class", 2, lambda it: named(ERROR_CLASSES, it))
            self.take("error code", 2, lambda it: named(ERROR_CODES, it))
            self.take_rest("details", words_of_text)
        elif code > 1:
            self.take_rest("details", words_of_size)

    def read_lengths(self):
        self.take("max. BVLC length", 2, words_of_length)
        self.take("max. NPDU length", 2, words_of_length)


def name_of(message):
    """What a message is and its ID, in a few words."""
    if message.id is None:
        return f"{count(len(message.octets), 'octet')}, no message"
    return f"{function_name(message.function)}, ID {message.id}"


def told_of(message):
    """Its addresses, and of some functions what else tells most, in a few words."""
    words = []
    if message.origin:
        words.append(f"from {digits_of(message.origin)}")
    if message.destination:
        words.append("to all" if message.destination == BROADCAST else f"to {digits_of(message.destination)}")
    told = [" ".join(words)] if words else []
    if message.missing:
        told.append(f"cut: {message.missing}")
    elif message.function == RESULT:
        result = "NAK" if message.field("result code") == b"\1" else "ACK"
        told.append(f"{result} for {function_name(message.payload[0])}")
        if message.field("error code"):
            code = number(message.field("error code"))
            told.append(ERROR_CODES.get(code, f"error code {code}"))
    elif message.function == NPDU:
        told.append(f"NPDU of {count(len(message.payload), 'octet')}")
    elif message.function in (CONNECT_REQUEST, CONNECT_ACCEPT):
        device = digits_of(message.field("Device UUID"))
        told.append(f"VMAC {digits_of(message.field('VMAC'))}, device {device[:4]}..{device[-4:]}")
    elif message.fields[-1].name == BEHIND:
        told.append(f"{message.fields[-1].words} {BEHIND}")
    return ", ".join(told)


def octets_in(words):
    """The octets that hexadecimal digits spell, over any number of words, or None where they spell none."""
    digits = "".join(words)
    return bytes.fromhex(digits) if re.fullmatch(r"([0-9A-Fa-f]{2})*", digits) else None


def words_of_checks():
    """What each check is about, in the words of the table in docs/CHECKS.md."""
    page = Path(__file__).resolve().parents[2] / "docs/CHECKS.md"
    if not page.is_file():
        return {}
    return dict(re.findall(r"^\| (C\d+b?c?) \| ([^|]*?) \|", page.read_text(encoding="utf-8"), re.M))
