"""A hub of bsc as a process, with its journals, and guests at it: clients by other libraries that keep what they sent and saw."""
import asyncio
import os
import resource
import shutil
import signal
import subprocess
import time
from contextlib import asynccontextmanager
from pathlib import Path

from websockets.exceptions import ConnectionClosed

import bvlc
from bvlc import Identity, Message
from clients import LIBRARIES
from entries import entries_of
from live import Failed
from nodes import PROGRAM, free_port

# How long a guest waits for what has to come, and how long a hub may take until it serves and until it has ended, in seconds. A
# program that isn't proved carries run-time checks: it may be given SLOW times as long.
PATIENCE = 30 * int(os.environ.get("SLOW", "1"))

OWN = Identity(bytes.fromhex("0200000000FF"), bytes.fromhex("00112233445566778899AABBCCDDEEFF"))

SETTINGS = """[hub]
vmac = "0200000000FF"
uuid = "00112233-4455-6677-8899-aabbccddeeff"
port = {port}
max_bvlc = {max_bvlc}
rows = 64
outbox = {outbox}
{waits}"""


# Without a log: what a hub says on standard error is compared.
ENVIRONMENT = {name: value for name, value in os.environ.items() if name != "BSC_LOG"}


def same(found, wanted, what):
    if found != wanted:
        def show(x):
            text = x.hex().upper() if isinstance(x, bytes) else repr(x)
            return text if len(text) < 300 else f"{text[:300]}.."
        raise Failed(f"{what}: {show(found)} in place of {show(wanted)}")


def run(*words, given=b"", seconds=PATIENCE):
    """Runs the program to its end: its status, and what it wrote to both of its streams."""
    try:
        done = subprocess.run([PROGRAM, *map(str, words)], input=given, capture_output=True, timeout=seconds)
    except subprocess.TimeoutExpired:
        raise Failed(f"{' '.join(map(str, words))} didn't end within {seconds} s") from None
    return done.returncode, done.stdout.decode(), done.stderr.decode()


def audit(octets, seconds=10 * PATIENCE):
    """The status of an audit of journals, and its line."""
    status, told, _ = run("audit", given=octets, seconds=seconds)
    return status, told.rstrip("\n")


class Hub:
    """A hub that serves. `prepare` is done in its process before the program begins."""

    def __init__(self, folder, *words, prefix=None, more="", max_bvlc=1600, outbox=64, waits=None, prepare=None):
        self.folder, self.prefix, self.outbox = Path(folder), prefix, outbox
        self.port = free_port()
        settings = self.folder / f"hub.{self.port}.toml"
        lines = "".join(f"{key} = {value}\n" for key, value in (waits or {"connect_wait_ms": 60000}).items())
        settings.write_text(SETTINGS.format(port=self.port, max_bvlc=max_bvlc, outbox=outbox, waits=lines) + more)
        words = ["hub", settings, *words, *(["--journal", prefix] if prefix else [])]
        self.identity = Identity(OWN.vmac, OWN.device, max_bvlc, OWN.max_npdu)
        self.uri = f"ws://127.0.0.1:{self.port}/"
        self.told_file, self.said_file = (self.folder / f"{name}.{self.port}" for name in ("told", "said"))
        with self.told_file.open("wb") as told, self.said_file.open("wb") as said:
            self.process = subprocess.Popen([PROGRAM, *map(str, words)], stdin=subprocess.DEVNULL, stdout=told, stderr=said,
                                            env=ENVIRONMENT, restore_signals=prepare is None, preexec_fn=prepare)

    def told(self):
        return self.told_file.read_text()

    def said(self):
        return self.said_file.read_text()

    def serves(self):
        return f" serves {self.uri} " in self.said()

    async def begun(self):
        until = time.monotonic() + PATIENCE
        while not self.serves():
            if self.process.poll() is not None or time.monotonic() > until:
                raise Failed(f"a hub doesn't serve; it has status {self.process.poll()} and said {self.said()!r}")
            await asyncio.sleep(0.01)

    async def ended(self, seconds=PATIENCE):
        """The status with which it ends by itself."""
        until = time.monotonic() + seconds
        while self.process.poll() is None:
            if time.monotonic() > until:
                raise Failed(f"a hub didn't end within {seconds} s")
            await asyncio.sleep(0.01)
        return self.process.returncode

    def kill(self):
        if self.process.poll() is None:
            self.process.kill()
        self.process.wait()

    def journals(self):
        """The files of its journals, by their numbers."""
        behind = len(self.prefix.name) + 1
        files = {int(it.name[behind:]): it for it in self.prefix.parent.glob(f"{self.prefix.name}.*") if it.name[behind:].isdigit()}
        return dict(sorted(files.items()))

    def journal(self, number):
        files = self.journals()
        if number not in files:
            raise Failed(f"there is no journal {number}")
        return files[number].read_bytes()

    def all_journals(self):
        """All of them, one after another. One that lost the end of its last line gets it back."""
        parts = [it.read_bytes() for it in self.journals().values()]
        return b"".join(it if it.endswith(b"\n") or not it else it + b"\n" for it in parts)

    def entries(self, number):
        return entries_of(self.journal(number))


class Guest:
    """A client at a hub. It keeps the messages that it gave the hub to carry, the frames of others that came, how many of its
    messages the hub had answered for sure, and how its link ended."""

    def __init__(self, hub, library, who):
        self.hub, self.who = hub, who
        self.client = LIBRARIES[library]([])
        self.sent, self.frames, self.answered, self.id = [], [], 0, 0
        self.end = None

    async def open(self):
        same(await self.client.open(self.hub.uri), "hub.bsc.bacnet.org", "the sub-protocol")

    async def give(self, message):
        """Gives the hub a message to carry."""
        self.sent.append(message.octets())
        await self.client.send(message.octets())

    async def ask(self, message):
        await self.client.send(message.octets())

    async def next(self, seconds=PATIENCE):
        """What comes next that isn't a frame of another: a message of the hub itself, or the close. Frames are kept."""
        while True:
            try:
                kind, found = await self.client.next(seconds)
            except asyncio.TimeoutError:
                raise Failed(f"nothing came within {seconds} s, where something was due") from None
            if kind == "close":
                self.end = found
            elif kind != "message":
                raise Failed(f"a {kind} came: {found!r}")
            elif bvlc.read(found).origin:
                self.frames.append(found)
                continue
            return kind, found

    async def comes(self, message, what):
        same(await self.next(), ("message", message.octets()), what)

    async def closes(self, code, reason, what):
        same(await self.next(), ("close", (code, reason)), what)
        await self.client.end()

    async def beat(self, times=1):
        """Heartbeats, each answered before the next. Behind two of them all has come that waited here before, up to sixteen
        frames; and the messages that were given before are answered."""
        for _ in range(times):
            self.id = (self.id + 1) & 0xFFFF
            given = len(self.sent)
            await self.ask(Message(bvlc.HEARTBEAT_REQUEST, self.id))
            await self.comes(Message(bvlc.HEARTBEAT_ACK, self.id), "a Heartbeat-ACK")
            self.answered = given

    async def has(self, many):
        """Waits until so many frames have come, and nothing else."""
        while len(self.frames) < many:
            try:
                kind, found = await self.client.next(PATIENCE)
            except asyncio.TimeoutError:
                raise Failed(f"{len(self.frames)} frames came in place of {many}") from None
            if kind != "message" or not bvlc.read(found).origin:
                raise Failed(f"in place of a frame came {kind} {found!r}")
            self.frames.append(found)

    async def leaves(self):
        await self.ask(Message(bvlc.DISCONNECT_REQUEST, 0x7FFF))
        await self.comes(Message(bvlc.DISCONNECT_ACK, 0x7FFF), "the Disconnect-ACK")
        await self.closes(1000, "", "the close behind the Disconnect-ACK")

    async def is_asked_to_leave(self, what):
        """By the hub: it answers, and is closed."""
        await self.comes(Message(bvlc.DISCONNECT_REQUEST, 1), what)
        await self.ask(Message(bvlc.DISCONNECT_ACK, 1))
        await self.closes(1000, "", f"the close behind {what}")

    async def drain(self):
        """Takes what has come by now and until the link has ended, however it does."""
        while self.end is None:
            kind, found = await self.client.next(PATIENCE)
            if kind == "close":
                self.end = found
            elif kind == "message" and bvlc.read(found).origin:
                self.frames.append(found)


class House:
    """A hub and its guests, in the order in which their links came: the first has caller 1 at the hub."""

    def __init__(self, hub):
        self.hub, self.guests = hub, []

    async def opened(self, library, who):
        guest = Guest(self.hub, library, who)
        self.guests.append(guest)
        await guest.open()
        return guest

    async def joined(self, library, who):
        guest = await self.opened(library, who)
        await guest.ask(bvlc.connect_request(0x11, who))
        await guest.comes(bvlc.connect_accept(0x11, self.hub.identity), "the Connect-Accept")
        return guest

    async def refused(self, library, who, *, answer=None, close=(1000, "")):
        """One that asks to join, and has this answer, if any, and this close."""
        guest = await self.opened(library, who)
        await guest.ask(bvlc.connect_request(0x22, who))
        if answer:
            await guest.comes(answer, "the answer to a Connect-Request")
        await guest.closes(*close, "the close behind a Connect-Request that isn't taken")
        return guest

    def number_of(self, guest):
        return self.guests.index(guest) + 1

    async def clear(self):
        for guest in self.guests:
            await guest.client.drop()


@asynccontextmanager
async def house(folder, *words, **how):
    """A hub that serves, which is killed at the end where it hasn't ended."""
    hub = Hub(folder, *words, **how)
    rooms = House(hub)
    try:
        await hub.begun()
        yield rooms
    finally:
        hub.kill()
        await rooms.clear()


def may_not_grow(octets):
    """To be done in a hub's process: no file of it gets longer, and a write that would make one so fails."""
    def prepare():
        signal.signal(signal.SIGXFSZ, signal.SIG_IGN)
        resource.setrlimit(resource.RLIMIT_FSIZE, (octets, octets))
    return prepare


def builds():
    """Whether the program runs. Where it isn't built yet, that comes first: it may take longer than any patience."""
    return subprocess.run([PROGRAM, "check"], stdin=subprocess.DEVNULL).returncode == 0


def has_libraries():
    """Why there is nobody to meet, if so."""
    if not shutil.which("node"):
        return "node is not installed"
    library = "require('./interop/websocket/messages.js').library()"
    root = Path(__file__).resolve().parents[2]
    if subprocess.run(["node", "-e", library], cwd=root, stderr=subprocess.DEVNULL).returncode != 0:
        return "node-ws is not installed"
    return None


# What a link that breaks off under a client may raise there.
BROKEN = (ConnectionClosed, ConnectionError, OSError)
