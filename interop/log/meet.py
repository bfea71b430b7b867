"""Nodes by python3-websockets at a hub with a log: the lines that it writes on standard error are compared with what was done."""
import asyncio
import os
import re
import resource
import socket
import subprocess
import sys
import tempfile
import time
from datetime import datetime, timedelta, timezone
from pathlib import Path

sys.path.insert(0, "interop/hub")
import bvlc  # noqa: E402
import websockets.exceptions  # noqa: E402
import websockets.legacy.client  # noqa: E402
from bvlc import Identity, Message  # noqa: E402
from clients import PythonClient  # noqa: E402

PAGE = Path("docs/OPERATING.md")

# Another program than ./bsc may be named, as one that was built elsewhere.
PROGRAM = os.environ.get("BSC", "./bsc").split()

SETTINGS = """[hub]
vmac = "0200000000FF"
uuid = "00112233-4455-6677-8899-aabbccddeeff"
port = {port}
max_bvlc = 1600
max_npdu = 1497
rows = 2
connect_wait_ms = 1000
"""

POLICY = """
[[policy.member]]
device = "aaaaaaaa-aaaa-aaaa-aaaa-aaaaaaaaaaaa"
vmac = "02000000000A"
group = "all"

[[policy.rule]]
do = "allow"
from = "*"
to = "*"
"""

# A connection has left some time after its link was closed, in seconds.
GONE = 0.5

A = Identity(bytes.fromhex("02000000000A"), b"\xAA" * 16)
B = Identity(bytes.fromhex("02000000000B"), b"\xBB" * 16)
C = Identity(bytes.fromhex("0200000000CD"), bytes(range(16)))

LINE = re.compile(r"(\d{4}-\d\d-\d\dT\d\d:\d\d:\d\d\.\d{3}Z) hub (joined|takeover|nak|refused|denied|ended|unserved|turned) link (\d+|-) "
                  r"connection (\d+|-) vmac ([0-9A-F]{12}|-) device ([0-9a-f]{8}(?:-[0-9a-f]{4}){3}-[0-9a-f]{12}|-) "
                  r"received (\d+) sent (\d+) cause (\S.*)")


class Failed(Exception):
    pass


def same(found, wanted, what):
    if found != wanted:
        raise Failed(f"{what}: {found!r} in place of {wanted!r}")


class Hub:
    """A hub that serves so many links."""

    def __init__(self, work, links, settings, log, journal=None, descriptors=None):
        with socket.socket() as free:
            free.bind(("127.0.0.1", 0))
            self.port = free.getsockname()[1]
        path, self.said = work / f"hub.{self.port}.toml", work / f"said.{self.port}"
        path.write_text(settings.format(port=self.port))
        words = [*PROGRAM, "hub", str(path), "--sessions", str(links)]
        if journal:
            words += ["--journal", str(work / journal)]
        limit = None
        if descriptors:
            def limit():
                resource.setrlimit(resource.RLIMIT_NOFILE, (descriptors, descriptors))
        with open(self.said, "w") as said:
            self.process = subprocess.Popen(words, stdout=subprocess.PIPE, stderr=said, text=True, preexec_fn=limit,
                                            env={**os.environ, "BSC_LOG": log})
        self.begun = datetime.now(timezone.utc)
        while f" serves ws://127.0.0.1:{self.port}/" not in self.said.read_text():
            if self.process.poll() is not None:
                raise Failed(f"the hub doesn't serve: {self.said.read_text()}")
            time.sleep(0.02)

    def end(self):
        """What it wrote on standard output, and the lines of its log, without their times, which are looked at."""
        told, _ = self.process.communicate(timeout=20)
        same(self.process.returncode, 0, "the status")
        first, *lines = self.said.read_text().splitlines()
        same(first, f"bsc: hub 0200000000FF serves ws://127.0.0.1:{self.port}/ as hub.bsc.bacnet.org", "the first line")
        rows = []
        for line in lines:
            # How the hub is doing is told each minute: check-status looks at these lines.
            if "Z status links_total=" in line:
                continue
            found = LINE.fullmatch(line)
            if not found:
                raise Failed(f"a line of another form: {line}")
            at = datetime.strptime(found[1], "%Y-%m-%dT%H:%M:%S.%fZ").replace(tzinfo=timezone.utc)
            if not self.begun - timedelta(seconds=1) <= at <= datetime.now(timezone.utc) + timedelta(seconds=1):
                raise Failed(f"a line of another time: {line}")
            rows.append(" ".join(found.groups()[1:]))
        return told, rows


class Node(PythonClient):
    def __init__(self, hub):
        super().__init__([])
        self.uri = f"ws://127.0.0.1:{hub.port}/"

    async def opened(self):
        await self.open(self.uri)
        return self

    async def asked(self, who):
        await self.opened()
        await self.send(bvlc.connect_request(1, who).octets())
        return self

    async def joined(self, who):
        await self.asked(who)
        await self.hears(bvlc.CONNECT_ACCEPT)
        return self

    async def hears(self, function):
        kind, found = await self.next()
        same((kind, found[0] if kind == "message" else found), ("message", function), "what came")

    async def closes(self, code, reason=""):
        same(await self.next(), ("close", (code, reason)), "the close")
        await self.end()


async def nodes_come_and_go(hub):
    a = await Node(hub).joined(A)
    await a.send(Message(bvlc.HEARTBEAT_REQUEST, 2).octets())
    await a.hears(bvlc.HEARTBEAT_ACK)
    # A's VMAC is held.
    duplicate = await Node(hub).asked(Identity(A.vmac, B.device))
    await duplicate.hears(bvlc.RESULT)
    await duplicate.closes(1000)
    # A comes again, by its device.
    again = await Node(hub).joined(A)
    await a.hears(bvlc.DISCONNECT_REQUEST)
    await a.send(Message(bvlc.DISCONNECT_ACK, 1).octets())
    await a.closes(1000)
    await asyncio.sleep(GONE)
    # The table has two rows.
    b = await Node(hub).joined(B)
    await (await Node(hub).asked(C)).closes(1008, "table full")
    await again.send(Message(bvlc.DISCONNECT_REQUEST, 3).octets())
    await again.hears(bvlc.DISCONNECT_ACK)
    await again.closes(1000)
    await b.end()
    await asyncio.sleep(GONE)
    # C breaks off.
    c = await Node(hub).joined(C)
    await c.drop()
    text = await Node(hub).opened()
    await text.send_text("no message")
    await text.closes(1003)
    # A Connect-Request without its last octet.
    short = await Node(hub).opened()
    await short.send(bvlc.connect_request(1, B).octets()[:-1])
    await short.hears(bvlc.RESULT)
    await short.closes(1008, "connect wait")
    await (await Node(hub).opened()).closes(1008, "connect wait")


A_TOLD = "02000000000A aaaaaaaa-aaaa-aaaa-aaaa-aaaaaaaaaaaa"
B_TOLD = "02000000000B bbbbbbbb-bbbb-bbbb-bbbb-bbbbbbbbbbbb"
C_TOLD = "0200000000CD 00010203-0405-0607-0809-0a0b0c0d0e0f"

# What becomes of the links above, in the order of the links: what is done, link, connection, VMAC, device, counts, cause.
ROWS = [
    f"joined 1 1 {A_TOLD} 1 0 -",
    f"ended 1 1 {A_TOLD} 3 3 replaced",
    "nak 2 - 02000000000A bbbbbbbb-bbbb-bbbb-bbbb-bbbbbbbbbbbb 1 1 class 7 code 151 marker 0 NODE_DUPLICATE_VMAC",
    "refused 2 - 02000000000A bbbbbbbb-bbbb-bbbb-bbbb-bbbbbbbbbbbb 1 1 duplicate vmac",
    f"joined 3 2 {A_TOLD} 1 0 -",
    f"takeover 3 2 {A_TOLD} 1 0 took over connection 1",
    f"ended 3 2 {A_TOLD} 2 2 peer left",
    f"joined 4 3 {B_TOLD} 1 0 -",
    f"ended 4 3 {B_TOLD} 1 1 peer closed",
    f"refused 5 - {C_TOLD} 1 0 table full",
    f"joined 6 4 {C_TOLD} 1 0 -",
    f"ended 6 4 {C_TOLD} 1 1 link fault",
    "ended 7 - - - 0 0 text message",
    "nak 8 - - - 1 1 class 7 code 147 marker 0 MESSAGE_INCOMPLETE of C7 or C10b",
    "ended 8 - - - 1 1 connect wait",
    "ended 9 - - - 0 0 connect wait",
]


async def a_policy_denies(hub):
    a = await Node(hub).joined(A)
    await (await Node(hub).asked(B)).closes(1008, "policy")
    await a.end()


DENIED = [
    f"joined 1 1 {A_TOLD} 1 0 -",
    f"ended 1 1 {A_TOLD} 1 1 peer closed",
    f"denied 2 - {B_TOLD} 1 0 policy",
]


# A request for a WebSocket, without its end.
HEAD = (b"GET / HTTP/1.1\r\nHost: 127.0.0.1\r\nUpgrade: websocket\r\nConnection: Upgrade\r\nSec-WebSocket-Version: 13\r\n"
        b"Sec-WebSocket-Key: dGhlIHNhbXBsZSBub25jZQ==\r\n")

# So many handshakes are at work at most.
PLACES = 256


def stranger(hub, octets=b""):
    """A stream on which these octets were sent, and nothing more is."""
    stream = socket.create_connection(("127.0.0.1", hub.port), timeout=10)
    stream.sendall(octets)
    return stream


def ended(stream):
    """What comes on a stream until the hub ends it."""
    came = b""
    with stream:
        try:
            while octets := stream.recv(4096):
                came += octets
        except ConnectionResetError:
            pass
    return came


async def strangers_are_turned_away(hub):
    try:
        await websockets.legacy.client.connect(Node(hub).uri, subprotocols=["dc.bsc.bacnet.org"])
        raise Failed("a stream without the sub-protocol has a link")
    except websockets.exceptions.InvalidStatusCode as why:
        same(why.status_code, 400, "the status")
    same(ended(stranger(hub, HEAD + b"X: " + b"x" * 17_000)), b"", "what comes behind a long head")
    same(ended(stranger(hub, b"hello\r\n\r\n")), b"", "what comes behind no request")
    same(ended(stranger(hub)), b"", "what comes on a silent stream")
    silent = [stranger(hub, HEAD) for _ in range(PLACES + 1)]
    for stream in silent:
        same(ended(stream), b"", "what comes on a silent stream")
    await (await Node(hub).joined(A)).end()


async def strangers_take_all_descriptors(hub):
    silent = [stranger(hub) for _ in range(2 * DESCRIPTORS)]
    for stream in silent:
        ended(stream)
    await (await Node(hub).joined(A)).end()


# A hub with so few descriptors takes fewer streams than come.
DESCRIPTORS = 32

# How many streams are turned away for each cause.
TURNED = {"no sub-protocol": 1, "head too long": 1, "no handshake": 1, "handshakes full": 1, "too late": PLACES + 1}


def turned(rows):
    """How many streams the rows tell as turned away, by cause, and how many lines that takes."""
    count, lines = {}, {}
    for row in rows:
        if row.startswith("turned "):
            found = re.fullmatch(r"turned - - - - 0 0 (.*?)(?:, left out (\d+))?", row)
            if not found:
                raise Failed(f"a line of another form: {row}")
            count[found[1]] = count.get(found[1], 0) + int(found[2] or 1)
            lines[found[1]] = lines.get(found[1], 0) + 1
    return count, lines


def look_at_strangers(work):
    """Each stream that is turned away is told of, with its cause, by ten lines a second and a count."""
    for log in ("1", ""):
        hub = Hub(work, 1, SETTINGS, log)
        asyncio.run(strangers_are_turned_away(hub))
        _, rows = hub.end()
        if log != "1":
            same(rows, [], "the lines without a log")
            continue
        count, lines = turned(rows)
        same(count, TURNED, "the streams that were turned away")
        # Those of the full table are late in two seconds at most, behind the one that was late before.
        if lines["too late"] > 1 + 2 * 11:
            raise Failed(f"{lines['too late']} lines say that a stream was late")
    hub = Hub(work, 1, SETTINGS, "1", descriptors=DESCRIPTORS)
    asyncio.run(strangers_take_all_descriptors(hub))
    count, _ = turned(hub.end()[1])
    same(sorted(count), ["no descriptor", "too late"], "the causes where there are few descriptors")
    same(count["too late"], 2 * DESCRIPTORS, "the streams that were late")


def by_link(rows):
    """The rows of each link in their order, link by link."""
    return sorted(rows, key=lambda row: int(row.split()[1]))


def look_at_page():
    """Each word and each cause that was met stands in the page, and its examples have the form of lines."""
    section = PAGE.read_text(encoding="utf-8").split("\n### The log\n")[1].split("\n## ")[0].split("\n### ")[0]
    for row in ROWS + DENIED + [f"turned - - - - 0 0 {cause}" for cause in [*TURNED, "no descriptor"]]:
        event, *_, cause = row.split(" ", 7)
        cause = re.sub(r"^class \d+ code \d+ marker \d+ .*", "class C code C marker M", cause)
        for word in (event, re.sub(r" \d+$", " C", cause)):
            if f"`{word}`" not in section:
                raise Failed(f"{PAGE} doesn't have `{word}`")
    for line in re.findall(r"^20\d\d-.*$", section, re.M):
        if not LINE.fullmatch(line):
            raise Failed(f"{PAGE} has a line of another form: {line}")


def main():
    told_of = {}
    with tempfile.TemporaryDirectory() as folder:
        work = Path(folder)
        for log, journal in (("1", None), ("1", "journal"), ("0", None)):
            hub = Hub(work, 9, SETTINGS, log, journal)
            asyncio.run(nodes_come_and_go(hub))
            told, rows = hub.end()
            same(by_link(rows), ROWS if log == "1" else [], "the lines")
            told_of[log, journal] = told
        same(set(told_of.values()), {told_of["1", None]}, "standard output")
        for log in ("1", ""):
            hub = Hub(work, 2, SETTINGS + POLICY, log)
            asyncio.run(a_policy_denies(hub))
            told, rows = hub.end()
            same(by_link(rows), DENIED if log == "1" else [], "the lines of a hub with a policy")
        look_at_strangers(work)
    look_at_page()
    return f"{2 * len(ROWS) + len(DENIED)} lines of 20 links are as they are due, and {sum(TURNED.values())} streams that were turned away"


try:
    print(f"check-log: {main()}")
except Failed as why:
    sys.exit(f"check-log: {why}")
