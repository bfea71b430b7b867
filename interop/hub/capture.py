"""What was met as a capture: capture.py LOG DUMP WANTED

It writes the messages of a log of meet.py into DUMP, for text2pcap, and into WANTED a line for each with the fields that
a dissector is to find: function, control flags, Message ID, Originating address, Destination, NPDU. What was malformed on
purpose is left out.
"""
import sys

import bvlc
import malformed

log, dump, wanted = (open(name, mode) for name, mode in zip(sys.argv[1:], "rww"))
left_out = {octets for octets, _, _ in malformed.naks()} | {bytes.fromhex(digits) for digits, _ in malformed.SILENT}


for line in log:
    way, digits = line.split()
    if way == "scene" or bytes.fromhex(digits) in left_out:
        continue
    octets = bytes.fromhex(digits)
    message = bvlc.read(octets)
    function = f"0x{message.function:02x}"
    if message.function == bvlc.RESULT:
        # The dissector has the function that is answered in a field of the same name.
        function += f",0x{message.payload[0]:02x}"
    npdu = message.payload.hex() if message.function == bvlc.NPDU else ""
    print(way, "000000", octets.hex(" "), file=dump)
    print(function, f"0x{octets[1]:02x}", message.id, message.origin.hex(), message.destination.hex(), npdu, sep="|", file=wanted)
