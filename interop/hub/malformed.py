"""Malformed messages at the hub port of a node that has joined, worked by hand from docs/CHECKS.md.

A row of NAKS is the octets, the check that fails, the error code of the NAK, and its header marker where that isn't 00.
The octets of SILENT fail a check too, and no NAK answers.
"""
import bvlc

PARAMETER_OUT_OF_RANGE = 80
BVLC_FUNCTION_UNKNOWN = 143
BVLC_PROPRIETARY_FUNCTION_UNKNOWN = 144
HEADER_ENCODING_ERROR = 145
HEADER_NOT_UNDERSTOOD = 146
MESSAGE_INCOMPLETE = 147
PAYLOAD_EXPECTED = 149
UNEXPECTED_DATA = 150

NAKS = [
    # a reserved flag: each of the four bits, also in a message for another node
    ("0A80 0101", "C5", HEADER_ENCODING_ERROR, 0),
    ("0840 0102", "C5", HEADER_ENCODING_ERROR, 0),
    ("0A20 0103", "C5", HEADER_ENCODING_ERROR, 0),
    ("0114 0104 02000000000B 0100", "C5", HEADER_ENCODING_ERROR, 0),
    # an unknown function
    ("0D00 0105", "C6", BVLC_FUNCTION_UNKNOWN, 0),
    ("FF00 0106 AABB", "C6", BVLC_FUNCTION_UNKNOWN, 0),
    # a list of options without its octets: a marker, a length, data, and the second list
    ("0A02 0107", "C7", MESSAGE_INCOMPLETE, 0),
    ("0A02 0108 22 00", "C7", MESSAGE_INCOMPLETE, 0),
    ("0A02 0109 22 0003 AABB", "C7", MESSAGE_INCOMPLETE, 0),
    ("0C03 010A 02", "C7", MESSAGE_INCOMPLETE, 0),
    # an option of type 0, Secure Path with data, Proprietary without enough of them
    ("0A02 010B 00", "C7b", HEADER_ENCODING_ERROR, 0),
    ("0A02 010C 61 0000", "C7b", HEADER_ENCODING_ERROR, 0),
    ("0A02 010D 3F 0002 00FF", "C7b", HEADER_ENCODING_ERROR, 0),
    # data options where they aren't taken
    ("0801 010E 41", "C8", HEADER_ENCODING_ERROR, 0),
    # an option that has to be understood and isn't: the NAK has the marker of the first
    ("0A02 010F C1 C2 43", "C9", HEADER_NOT_UNDERSTOOD, 0xC2),
    # a payload that isn't there, too short, too long, out of range, or of a vendor
    ("0100 0110", "C10", PAYLOAD_EXPECTED, 0),
    ("0600 0111 02000000000A", "C10b", MESSAGE_INCOMPLETE, 0),
    ("0A00 0112 AA", "C10c", UNEXPECTED_DATA, 0),
    ("0400 0113 03 00 0640 05D9", "C11", PARAMETER_OUT_OF_RANGE, 0),
    ("0C00 0114 0104 05 AA", "C12", BVLC_PROPRIETARY_FUNCTION_UNKNOWN, 0),
]

SILENT = [
    ("0100 02", "C1"),
    ("0104 0202 0200000000", "C3"),
    ("0108 0203 02000000000A 0100", "C4"),
    ("0114 0204 FFFFFFFFFFFF 0100", "C5"),
    ("0B00 0205 00", "C10c"),
    ("0700 0206 02000000000A AAAAAAAAAAAAAAAAAAAAAAAAAAAAAAAA 0640 05D9", "C13"),
]


def naks():
    """The octets of each row, the check, and the octets of the NAK."""
    for digits, check, code, marker in NAKS:
        octets = bytes.fromhex(digits)
        id = int.from_bytes(octets[2:4], "big")
        yield octets, check, bvlc.nak(id, octets[0], code, marker).octets()


def check_lines():
    """The lines for `bsc check`, each with the line that is to come."""
    for octets, check, answer in naks():
        yield f"hub connected 1600 {octets.hex()}", f"nak {check} {answer.hex().upper()}"
    for digits, check in SILENT:
        yield f"hub connected 1600 {digits}", f"silent {check}"


if __name__ == "__main__":
    import sys

    column = {"asked": 0, "wanted": 1}[sys.argv[1]]
    for line in check_lines():
        print(line[column])
