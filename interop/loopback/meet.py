"""A hub of `./bsc hub` that two clients meet whose octets are written out here, and then one that two nodes of `./bsc node` meet."""
import asyncio
import re
import subprocess
import tempfile
import time
from pathlib import Path

from live import Failed
from nodes import PATIENCE, PROGRAM, Program, Watch, free_port
from raw import Peer, Refused

HUB = """[hub]
vmac = "0200000000FF"
uuid = "68686868-6868-6868-6868-686868686868"
port = {port}
max_bvlc = 1600
"""

NODE = """[node]
vmac = "02000000000{last}"
uuid = "0000000000000000000000000000000{last}"
primary = "ws://127.0.0.1:{hub}/"
direct_port = {own}
direct_uris = "ws://127.0.0.1:{own}/"
"""

# The frames of two connects, without a mask but for zeros, and that of the accept.
CONNECT_A = b"\x82\x9E\0\0\0\0\x06\0\0\x01\x02\0\0\0\0\x0Aaaaaaaaaaaaaaaaa\x06\x40\x05\xD9"
CONNECT_B = b"\x82\x9E\0\0\0\0\x06\0\0\x01\x02\0\0\0\0\x0Bbbbbbbbbbbbbbbbb\x06\x40\x05\xD9"
ACCEPT = b"\x82\x1E\x07\0\0\x01\x02\0\0\0\0\xFFhhhhhhhhhhhhhhhh\x06\x40\x05\xD9"

# A unicast of A to B with this number, that unicast as it comes, and a close with its answer.
UNICAST = b"\x82\x92\0\0\0\0\x01\x04\0%c\x02\0\0\0\0\x0B\x01\x20\xFF\xFF\0\xFF\x10\x08"
CARRIED = b"\x82\x12\x01\x08\0%c\x02\0\0\0\0\x0A\x01\x20\xFF\xFF\0\xFF\x10\x08"
CLOSE, CLOSED = b"\x88\x82\0\0\0\0\x03\xE8", b"\x88\x02\x03\xE8"

# Seconds from one unicast to the next, and within which each has to come. A session that nobody wakes looks for frames once a
# second, so that of these one would come later.
EACH, WITHIN, UNICASTS = 0.15, 0.5, 10

# What the nodes do. A asks B where it takes direct connections, and opens one; then each sends the other an NPDU.
A_DOES = "at 1000\nresolve 02000000000B\nat 2000\ndirect 02000000000B\nat 3500\nsend 02000000000B 0100\nat 5000\nfinish\n"
B_DOES = "at 3500\nsend 02000000000A 0200\nat 6000\nfinish\n"

# What they write. B's URI is told by its octets.
A_WRITES = ["hub primary", "uris 02000000000B {uri}", "direct 02000000000B up", "npdu 02000000000B unicast 0200",
            "direct 02000000000B down", "hub none", "finished"]
B_WRITES = ["hub primary", "direct 02000000000A up", "npdu 02000000000A unicast 0100", "direct 02000000000A down", "hub none", "finished"]


def in_order(lines):
    """A node that finishes closes its links at once, and they end in either order: the two lines before the last are sorted."""
    return lines[:-3] + sorted(lines[-3:-1]) + lines[-1:]


def same(found, due, what):
    if found != due:
        raise Failed(f"{what}: {found} in place of {due}")


class Lines(Program):
    """A process of bsc and what it told."""

    def __init__(self, *words):
        self.told = []
        super().__init__(*words)

    def take(self, line):
        self.told.append(line)

    def ends(self, told, what):
        """Waits for its end, with status 0 and with these lines alone."""
        try:
            self.process.wait(PATIENCE)
        except subprocess.TimeoutExpired:
            raise Failed(f"{what} doesn't end; it told {self.told}, and said {self.said}") from None
        for reader in self.readers:
            reader.join()
        same((self.process.returncode, in_order(self.told)), (0, in_order(told)), f"the status of {what}, which said {self.said}, and what it told")


def hub_at(folder, port):
    """A hub of two links that listens. The program may be built first."""
    settings = Path(folder) / f"hub.{port}.toml"
    settings.write_text(HUB.format(port=port))
    hub = Lines("hub", settings, "--sessions", 2)
    while not any(f" serves ws://127.0.0.1:{port}/" in line for line in hub.said):
        if not hub.runs():
            hub.kill()
            raise Failed(f"a hub doesn't serve: {hub.told + hub.said}")
        time.sleep(0.01)
    return hub


def counts(unicasts):
    """The line of a hub where two joined and so many unicasts were put into an outbox, and nothing else came."""
    return f"hub counts joined=2 replaced=0 refused=0 unicasts={unicasts} broadcasts=0 appended={unicasts} dropped=0 full=0 missed=0"


async def comes(peer, due, what):
    """Reads until as many octets are there as are due, and looks that they are these."""
    while len(peer.came) < len(due):
        if not await asyncio.wait_for(peer.read(), PATIENCE):
            raise Failed(f"the hub let {what} go, behind {peer.came}")
    same(peer.came, due, f"what came at {what}")
    peer.came = b""


async def joined(port, connect, what):
    peer = Peer(port)
    await peer.shake()
    await peer.send(connect)
    await comes(peer, ACCEPT, what)
    return peer


async def clients(port):
    """What A sends comes to B, octet by octet, under the sender's address, and long before B's session would look by itself."""
    a, b = await joined(port, CONNECT_A, "A"), await joined(port, CONNECT_B, "B")
    longest = 0
    for number in range(UNICASTS):
        await asyncio.sleep(EACH)
        begun = time.monotonic()
        await a.send(UNICAST % number)
        await comes(b, CARRIED % number, "B")
        longest = max(longest, time.monotonic() - begun)
    for peer, what in (a, "A"), (b, "B"):
        await peer.send(CLOSE)
        await comes(peer, CLOSED, what)
        peer.drop()
    return longest


def at_clients(folder):
    port = free_port()
    hub = hub_at(folder, port)
    try:
        longest = asyncio.run(clients(port))
        hub.ends([counts(UNICASTS)], "a hub with two clients")
    finally:
        hub.kill()
    if longest > WITHIN:
        raise Failed(f"a unicast came {longest:.2f} s behind its sending: nobody woke the session that it was for")


def at_nodes(folder):
    """Of the messages of two nodes the hub carried the question and its answer alone."""
    port = free_port()
    hub, nodes = hub_at(folder, port), []
    try:
        for last, does in ("A", A_DOES), ("B", B_DOES):
            own = free_port()
            settings, script = Path(folder) / f"{last}.toml", Path(folder) / f"{last}.script"
            settings.write_text(NODE.format(last=last, hub=port, own=own))
            script.write_text(does)
            nodes.append(Lines("node", settings, script))
        uri = f"ws://127.0.0.1:{own}/".encode().hex().upper()
        nodes[0].ends([line.format(uri=uri) for line in A_WRITES], "node A")
        nodes[1].ends(B_WRITES, "node B")
        hub.ends([counts(2)], "a hub with two nodes")
    finally:
        for process in [hub, *nodes]:
            process.kill()


def all_scenes():
    watch = Watch()
    try:
        with tempfile.TemporaryDirectory() as folder:
            at_clients(folder)
            at_nodes(folder)
        return f"{UNICASTS} unicasts came as they were due, octet by octet; two nodes met each other at a hub"
    except (Failed, OSError, asyncio.TimeoutError, Refused) as why:
        return watch.judge(repr(why) if not isinstance(why, Failed) else str(why))
    finally:
        watch.is_over = True
