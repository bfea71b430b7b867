"""Refuses memory to a hub that serves, or to a node at a hub: tools/refuse-memory calls it, and says what a run may come to.

    refusing.py hub|node PROGRAM LIBRARY FOLDER

LIBRARY refuses the allocation whose number is in REFUSE, and tells that it did on descriptor 9. The folder is for files."""
import contextlib
import os
import socket
import subprocess
import sys
import time
from concurrent.futures import ThreadPoolExecutor
from itertools import count
from pathlib import Path

AT_ONCE = 4  # runs
LONGEST = 30  # seconds of a run
SESSIONS = 3
VISITS = 8  # at most, until the hub has had its sessions
HEAD = (b"GET / HTTP/1.1\r\nHost: 127.0.0.1\r\nUpgrade: websocket\r\nConnection: Upgrade\r\n"
        b"Sec-WebSocket-Key: dGhlIHNhbXBsZSBub25jZQ==\r\nSec-WebSocket-Version: 13\r\n"
        b"Sec-WebSocket-Protocol: hub.bsc.bacnet.org\r\n\r\n")
ACCEPTED = bytes.fromhex("821E07000001")
CLOSE = bytes.fromhex("88820000000003E8")
HUB = """[hub]
vmac = "0200000000FF"
uuid = "00112233-4455-6677-8899-aabbccddeeff"
port = {port}
"""
NODE = """[node]
vmac = "{vmac}"
uuid = "{uuid:032x}"
primary = "ws://127.0.0.1:{port}/"
least_reconnect_ms = 100
"""
SCRIPT = "at 3000\nsend {vmac} 0100\nat 4000\nfinish\n"
TEXT = "hub primary\nnpdu {vmac} unicast 0100\nhub none\nfinished\n"
COUNTS = "hub counts joined={joined} replaced=0 refused=0 unicasts=0 broadcasts=0 appended=0 dropped=0 full=0 missed=0\n"


class Run:
    """A run of the program with the allocation of a number refused; 0 refuses none."""

    def __init__(self, number, library, folder, words):
        self.out, self.err, self.told = (folder / f"{number}.{name}" for name in ("out", "err", "told"))
        refusing = [f"REFUSE={number}", f"LD_PRELOAD={library}"] if number else []
        with open(self.out, "wb") as out, open(self.err, "wb") as err:
            self.process = subprocess.Popen(
                ["bash", "-c", 'exec 9> "$1"; shift; exec env "$@"', "-", self.told, *refusing, *words],
                stdin=subprocess.DEVNULL, stdout=out, stderr=err)

    def ends_within(self, seconds):
        """Whether the run has ended by then."""
        with contextlib.suppress(subprocess.TimeoutExpired):
            self.process.wait(seconds)
        return self.process.returncode is not None

    def serves(self):
        """Whether it is a hub that has bound its port; it is awaited until it has, or has ended."""
        for _ in range(100 * LONGEST):
            if b" serves ws://" in self.err.read_bytes():
                return True
            if self.ends_within(0.01):
                return b" serves ws://" in self.err.read_bytes()
        return False

    def was_refused(self):
        """Whether an allocation was refused."""
        return self.told.stat().st_size > 0

    def text(self):
        """What it wrote."""
        return self.out.read_text(errors="backslashreplace")


def free_port():
    """A port that nobody has."""
    with socket.socket() as it:
        it.bind(("127.0.0.1", 0))
        return it.getsockname()[1]


def visit(port, device):
    """Whether a client of this device that connects was taken in; it closes its WebSocket then, and waits for the end."""
    connect = b"\x06\0\0\x01" + bytes([2, 0, 0, 0, 0, device]) + bytes(16 * [device]) + bytes.fromhex("064005D9")
    came = b""
    with contextlib.suppress(OSError), socket.create_connection(("127.0.0.1", port), LONGEST) as it:
        it.settimeout(LONGEST)
        it.sendall(HEAD)
        # What is sent behind what comes.
        steps = [(b"\r\n\r\n", b"\x82\x9E" + bytes(4) + connect), (ACCEPTED, CLOSE)]
        while octets := it.recv(4096):
            came += octets
            while steps and steps[0][0] in came:
                it.sendall(steps.pop(0)[1])
    return ACCEPTED in came


def is_cut_well(text, whole):
    """Whether a text is a first part of the whole one, and then a first part of its last line where memory ran out."""
    last = "fault memory\n"
    return any(whole.startswith(text[: len(text) - n]) for n in range(len(last) + 1) if text.endswith(last[:n]))


def hub(number, program, library, folder):
    """Serves some sessions with an allocation refused. Whether it was refused, whether the run went on, and what is wrong."""
    port = free_port()
    settings = folder / f"{number}.toml"
    settings.write_text(HUB.format(port=port))
    run = Run(number, library, folder, [program, "hub", settings, "--sessions", str(SESSIONS)])
    served, joined = run.serves(), 0
    for device in range(1, 1 + VISITS):
        if not served or run.ends_within(0):
            break
        joined += visit(port, device)
    if not run.ends_within(LONGEST):
        run.process.kill()
        run.process.wait()
        return run.was_refused(), False, "it doesn't end"
    status, text = run.process.returncode, run.text()
    if status == 0:
        # A device that joined may not have been told so.
        counts = [COUNTS.format(joined=it) for it in range(joined, 1 + joined + run.was_refused())]
        is_so = text.removeprefix("unstarted 1\n") in counts and joined >= SESSIONS - run.was_refused()
    elif status == 6:
        is_so = run.was_refused() and not served and text == "fault link\n"
    else:
        is_so = run.was_refused() and status == 7 and is_cut_well(text, "")
    return run.was_refused(), status == 0, None if is_so else f"status {status}, {joined} joined, {text!r}"


def node(number, program, library, folder, port):
    """Runs a node at a hub with an allocation refused: the same three."""
    vmac = f"0200{number:08X}"
    settings, script = folder / f"{number}.toml", folder / f"{number}.script"
    settings.write_text(NODE.format(vmac=vmac, uuid=number + 1, port=port))
    script.write_text(SCRIPT.format(vmac=vmac))
    run = Run(number, library, folder, [program, "node", settings, script])
    if not run.ends_within(LONGEST):
        run.process.kill()
        run.process.wait()
        return run.was_refused(), False, "it doesn't end"
    status, text, whole = run.process.returncode, run.text(), TEXT.format(vmac=vmac)
    is_so = text == whole if status == 0 else run.was_refused() and status == 7 and is_cut_well(text, whole)
    return run.was_refused(), status == 0, None if is_so else f"status {status}, {text!r}"


def go_through(one):
    """Runs with the first allocation refused, the second, and so on, until a run needs no more of them. Tells what comes of it."""
    refused, went_on, failed = 0, 0, 0
    with ThreadPoolExecutor(AT_ONCE) as pool:
        for first in count(1, AT_ONCE):
            numbers = range(first, first + AT_ONCE)
            came = list(pool.map(one, numbers))
            for number, (was_refused, goes_on, fault) in zip(numbers, came):
                refused += was_refused
                went_on += was_refused and goes_on
                if fault:
                    failed += 1
                    print(f"allocation {number} is {'' if was_refused else 'not '}refused: {fault}")
            if not all(was_refused for was_refused, _, _ in came):
                break
    print(f"after {went_on} of them a run went on, to status 0 and the whole text")
    print(f"{refused} allocations were refused, each in a run of its own; wrong statuses and texts: {failed}")
    return 1 if failed or not refused else 0


def main():
    kind, program, library, folder = sys.argv[1], *(Path(it).resolve() for it in sys.argv[2:5])
    if kind == "hub":
        return go_through(lambda number: hub(number, program, library, folder))
    port = free_port()
    settings = folder / "0.toml"
    settings.write_text(HUB.format(port=port))
    serving = Run(0, library, folder, [program, "hub", settings])
    try:
        if not serving.serves():
            print("the hub of the nodes doesn't serve")
            return 1
        return go_through(lambda number: node(number, program, library, folder, port))
    finally:
        serving.process.kill()
        serving.process.wait()


if __name__ == "__main__":
    sys.exit(main())
