#!/usr/bin/env python3
"""Asks a BACnet/SC network who is there, over a node that runs beside this program.

    python3 examples/sidecar/sidecar.py SETTINGS VMAC

It runs `bsc node SETTINGS -`. Whenever the node has got a hub, it broadcasts a Who-Is, and asks the node VMAC at which addresses
that accepts direct connections. It prints each answer. Enter asks again; the end of the input (Ctrl-D) ends the node in order.
"""
import os
import queue
import subprocess
import sys
import threading

BSC = os.environ.get("BSC") or ("./bsc" if os.path.exists("./bsc") else "bsc")

WHO_IS = (
    "01"  # NPDU: version 1
    "20"  # control: a destination follows, no reply is expected
    "FFFF 00"  # all networks, and no address: each device there
    "FF"  # the hop count
    "10 08"  # APDU: unconfirmed request, Who-Is without a range
)
# The tags of the four values of an I-Am: object identifier, unsigned, enumerated, unsigned.
I_AM_TAGS = [12, 2, 9, 2]


def apdu_of(npdu):
    """What stands behind the header of an NPDU."""
    control, at = npdu[1], 2
    for bit in 0x20, 0x08:  # a destination, a source
        if control & bit:
            at += 3 + npdu[at + 2]  # network (2 octets), length of the address (1), address
    if control & 0x20:
        at += 1  # the hop count
    return b"" if control & 0x80 else npdu[at:]  # a message of the network layer has no APDU


def values_of(tagged):
    """The values of an APDU, each with its application tag, as numbers."""
    values = []
    while tagged:
        size = tagged[0] & 7  # of the octets behind the tag
        values.append((tagged[0] >> 4, int.from_bytes(tagged[1 : 1 + size], "big")))
        tagged = tagged[1 + size :]
    return values


def who_it_is(npdu):
    """What an I-Am says, or None of another NPDU."""
    try:
        apdu = apdu_of(npdu)
    except IndexError:  # it is cut short
        return None
    values = values_of(apdu[2:])
    if apdu[:2] != b"\x10\x00" or [tag for tag, _ in values] != I_AM_TAGS:
        return None
    device, longest, segmentation, vendor = (value for _, value in values)
    return f"device {device & 0x3FFFFF}, longest APDU {longest}, segmentation {segmentation}, vendor {vendor}"


def put_lines(stream, events):
    """Puts each line of the node, and then None."""
    for line in stream:
        events.put(line.rstrip("\n"))
    events.put(None)


def put_wishes(events):
    """Puts "ask" for what the user enters, and "end" at the end."""
    while os.read(0, 4096):
        events.put("ask")
    events.put("end")


def main(settings, third):
    node = subprocess.Popen([BSC, "node", settings, "-"], stdin=subprocess.PIPE, stdout=subprocess.PIPE, text=True, bufsize=1)
    events = queue.Queue()
    threading.Thread(target=put_lines, args=(node.stdout, events), daemon=True).start()
    threading.Thread(target=put_wishes, args=(events,), daemon=True).start()
    while (event := events.get()) is not None:
        word, *rest = event.split()
        if word == "end":
            node.stdin.close()  # for the node that is the line finish
        elif word == "uris":
            text = bytes.fromhex("".join(rest[1:])).decode(errors="replace")
            print(f"{rest[0]} accepts direct connections at {text or 'no address'}", flush=True)
        elif word == "npdu":
            vmac, _, octets = rest
            says = who_it_is(bytes.fromhex(octets))
            if says:
                print(f"{vmac} is {says}", flush=True)
        elif word != "ask":
            print(event, flush=True)
        if (word == "ask" or word == "hub" and rest != ["none"]) and not node.stdin.closed:
            try:
                node.stdin.write(f"send FFFFFFFFFFFF {WHO_IS}\nresolve {third}\n")
            except BrokenPipeError:  # the node has ended: None comes next
                pass
    return node.wait()


if __name__ == "__main__":
    if len(sys.argv) != 3:
        sys.exit(__doc__.strip())
    try:
        sys.exit(main(*sys.argv[1:]))
    except KeyboardInterrupt:
        sys.exit(130)
