#!/usr/bin/env python3
"""Answers each Who-Is by an I-Am, over a node that runs beside it: answer.py SETTINGS NUMBER. NUMBER is that of the device."""
import os
import re
import signal
import subprocess
import sys

BSC = os.environ.get("BSC") or ("./bsc" if os.path.exists("./bsc") else "bsc")
SETTINGS, NUMBER = sys.argv[1], int(sys.argv[2])
# NPDU: version 01; control 00: nothing follows, or 20: a destination, here a network without an address, and a hop count.
# APDU: unconfirmed request 10, Who-Is 08; then maybe the least and the greatest number that is meant, of 1 to 3 octets each.
WHO_IS = re.compile(r"npdu (\w{12}) \w+ 01(?:0[0-3]|2[0-3]\w{4}00\w\w)1008(?:(09..|0A.{4}|0B.{6})(19..|1A.{4}|1B.{6}))?")
# APDU: I-Am 00; C4: device (8 in 10 bits) and number; 22: it takes 05C4 octets; 91: segmentation none (3); 21: vendor 0.
I_AM = f"0100 1000 C4{8 << 22 | NUMBER:08X} 2205C4 9103 2100"

signal.signal(signal.SIGINT, signal.SIG_DFL)
node = subprocess.Popen([BSC, "node", SETTINGS, "-"], stdin=subprocess.PIPE, stdout=subprocess.PIPE, text=True, bufsize=1)
for line in node.stdout:
    print(line, end="", flush=True)
    asked = WHO_IS.fullmatch(line.rstrip("\n"))
    if asked:
        vmac, least, greatest = asked.groups()
        if not least or int(least[2:], 16) <= NUMBER <= int(greatest[2:], 16):
            node.stdin.write(f"send {vmac} {I_AM}\n")
sys.exit(node.wait())
