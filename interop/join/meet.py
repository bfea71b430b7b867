#!/usr/bin/env python3
"""Peers that can't join a hub, each for another cause of the table in docs/RUN.md: meet.py [NAME..]

A scene makes a cause happen. What its peer sees and what the hub's log says have to be the cells of the row that names the cause, and
each row has to happen. `bsc node` meets the same hubs and has to write what the page says. With names, only the scenes that have one
of these words in theirs are played, and a line tells each.
"""
import itertools
import os
import re
import resource
import socket
import ssl
import subprocess
import sys
import tempfile
import threading
import time
from concurrent.futures import ThreadPoolExecutor
from dataclasses import dataclass
from pathlib import Path

sys.dont_write_bytecode = True
ROOT = Path(__file__).resolve().parents[2]
sys.path[:0] = [str(ROOT / it) for it in ("bench/live", "interop/hub", "interop/hostile", "interop/tls")]
import bvlc  # noqa: E402
from bvlc import Identity  # noqa: E402
from live import PROGRAM, Failed, TooBusy  # noqa: E402
from made import BEFORE_HUB, BESIDE_NODE, Certificates, lacks_tls, stunnel  # noqa: E402
from nodes import HOLD_UP, Watch, free_port  # noqa: E402
from raw import BINARY, CLOSE, HEAD, frame, frames  # noqa: E402

PAGE = "docs/RUN.md"

# Seconds: how long something may take that has to come. A hub that has taken a stream ends its handshake after one: who hears nothing
# for so much longer has no answer. Behind its last line a log is silent for so long, or it goes on for so long. A node's script ends
# it after so long.
PATIENCE, NO_ANSWER, SILENT, GOES_ON, NODE = 20, 3, 0.5, 2, 1.5

# So many scenes are played at once.
AT_ONCE = 8

# So many handshakes are at work at most.
PLACES = 256

HUB = """[hub]
vmac = "0200000000FF"
uuid = "00112233-4455-6677-8899-aabbccddeeff"
port = {port}
connect_wait_ms = {wait}
{more}
"""

NODE_SETTINGS = """[node]
vmac = "{vmac}"
uuid = "cccccccc-cccc-cccc-cccc-cccccccccccc"
primary = "{uri}"
least_reconnect_ms = 100
"""

A = Identity(bytes.fromhex("02000000000A"), b"\xAA" * 16)
B = Identity(bytes.fromhex("02000000000B"), b"\xBB" * 16)
OWN_VMAC = bytes.fromhex("0200000000FF")

LINE = re.compile(r"\d{4}-\d\d-\d\dT\d\d:\d\d:\d\d\.\d{3}Z hub ([a-z]+) link (\d+|-) connection (?:\d+|-) vmac (?:[0-9A-F]{12}|-) "
                  r"device (?:[0-9a-f-]{36}|-) received \d+ sent \d+ cause (\S.*)")


# ---- the page

@dataclass(frozen=True)
class Row:
    sees: str
    says: tuple
    cause: str


def section():
    found = re.search(r"^## \d+\. A node cannot join\n(.*?)(?=^## )", (ROOT / PAGE).read_text(encoding="utf-8"), re.S | re.M)
    if not found:
        raise Failed(f"{PAGE} has no such section")
    return found[1]


def rows_of_page():
    """The rows of its table. Of what the log says they have the words in code, or none where it says no line."""
    rows = []
    head, *table = re.search(r"^\| The node sees \| The log says \| Cause \|.*\n(?:\|.*\n)*", section(), re.M)[0].splitlines()
    for line in table[1:]:
        sees, says, cause, _ = (cell.strip() for cell in line.strip("|").split(" | "))
        spans = tuple(re.findall(r"`([^`]+)`", says))
        if bool(spans) == (says == "no line"):
            raise Failed(f"{PAGE}: what does the log say: {says!r}")
        rows.append(Row(sees, spans, cause))
    return rows


# ---- processes

class Process:
    def __init__(self, *words, **how):
        self.told, self.said = [], []
        self.process = subprocess.Popen(list(map(str, words)), stdin=subprocess.DEVNULL, stdout=subprocess.PIPE, stderr=subprocess.PIPE,
                                        text=True, **how)
        pairs = (self.process.stdout, self.told), (self.process.stderr, self.said)
        self.readers = [threading.Thread(target=self.read, args=pair, daemon=True) for pair in pairs]
        for reader in self.readers:
            reader.start()

    def read(self, stream, lines):
        for line in stream:
            lines.append(line.rstrip("\n"))

    def join(self):
        for reader in self.readers:
            reader.join(PATIENCE)

    def kill(self):
        if self.process.poll() is None:
            self.process.kill()
        self.process.wait()
        self.join()


class Hub(Process):
    """A hub with a log, which serves."""

    def __init__(self, folder, *words, more="", wait=500):
        self.port = free_port()
        self.uri = f"ws://127.0.0.1:{self.port}/"
        settings = folder / f"hub.{self.port}.toml"
        settings.write_text(HUB.format(port=self.port, more=more, wait=wait))
        # A signal that would end the hub where a file of it may not grow is one that Python ignores, and so does the hub.
        super().__init__(PROGRAM, "hub", settings, *words, env={**os.environ, "BSC_LOG": "1"}, restore_signals=False)
        until = time.monotonic() + PATIENCE
        while not any(f" serves {self.uri} " in line for line in self.said):
            if self.process.poll() is not None or time.monotonic() > until:
                self.kill()
                raise Failed(f"a hub doesn't serve: {self.said}")
            time.sleep(0.01)
        self.mark = len(self.said)

    def settle(self):
        """Waits until the log is silent, or has gone on for a while."""
        many, silent, last = len(self.said), time.monotonic() + SILENT, time.monotonic() + GOES_ON
        while time.monotonic() < min(silent, last) and self.process.poll() is None:
            if len(self.said) > many:
                many, silent = len(self.said), time.monotonic() + SILENT
            time.sleep(0.02)
        if self.process.poll() is not None:
            self.join()

    def forget(self):
        """What the log says by now is no part of what it says of a cause."""
        self.settle()
        self.mark = len(self.said)

    def says(self, link=None):
        """What the log says since, of a link or of all: of each line what happened and why, each pair once. Who joined has no cause."""
        self.settle()
        pairs = []
        for line in self.said[self.mark:]:
            # Beside what happens it says each minute how the hub is doing: check-status looks at these lines.
            if line.startswith("bsc: ") or "Z status links_total=" in line:
                continue
            if not (found := LINE.fullmatch(line)):
                raise Failed(f"a line of another form: {line}")
            pair = words_of(found[1], found[3].partition(", left out ")[0])
            if pair not in pairs and found[1] != "joined" and link in (None, found[2]):
                pairs.append(pair)
        return tuple(itertools.chain(*pairs))

    def ends(self):
        """Waits for its end."""
        try:
            self.process.wait(PATIENCE)
        except subprocess.TimeoutExpired:
            raise Failed(f"a hub doesn't end: {self.said}") from None
        self.join()


def words_of(event, cause):
    """The words of the page for a line."""
    if event != "nak":
        return event, cause
    code = re.fullmatch(r"class 7 code (\d+) marker \d+ \w+( of C\d.*)?", cause)
    if not code or bool(code[2]) == (code[1] == "151"):
        raise Failed(f"a NAK of another form: {cause}")
    return ("nak",) if code[2] else ("nak", f"code {code[1]}")


# ---- peers

class Seen(Exception):
    """What ends a peer's try, in the words of the page."""


class Peer:
    """A socket of a peer, over TLS where it has a context."""

    def __init__(self, port, context=None, host="hub.example"):
        self.octets, self.tls = b"", context
        try:
            self.socket = socket.create_connection(("127.0.0.1", port), timeout=NO_ANSWER)
        except ConnectionRefusedError:
            raise Seen("connection refused") from None
        if context:
            try:
                self.socket = context.wrap_socket(self.socket, server_hostname=host)
            except OSError as why:
                self.socket.close()
                raise Seen("no answer" if isinstance(why, TimeoutError) else "TLS is refused") from None

    def __enter__(self):
        return self

    def __exit__(self, *_):
        self.socket.close()

    def read(self):
        """Reads what comes next; nothing where the stream has ended."""
        try:
            octets = self.socket.recv(1 << 16)
        except ConnectionError:
            octets = b""
        self.octets += octets
        return octets

    def send(self, octets):
        try:
            self.socket.sendall(octets)
        except ConnectionError:
            pass  # what came before the end is read

    def shake(self, head=HEAD):
        """Sends the head of a handshake, and has the link."""
        try:
            self.send(head)
            while b"\r\n\r\n" not in self.octets:
                if not self.read():
                    raise Seen("TLS is refused" if self.tls else "an end within an answer" if self.octets else "an end without an answer")
        except TimeoutError:
            raise Seen("no answer") from None
        except ssl.SSLError:
            raise Seen("TLS is refused") from None
        head, _, self.octets = self.octets.partition(b"\r\n\r\n")
        status = head.split()[1].decode()
        if status != "101":
            raise Seen(f"HTTP status {status}")
        return self

    def ask(self, who):
        self.send(frame(bvlc.connect_request(1, who).octets()))
        return self

    def next(self):
        """The next frame."""
        while not (all := list(frames(self.octets))):
            try:
                if not self.read():
                    raise Seen("an end without a close")
            except TimeoutError:
                raise Seen("no answer") from None
        operation, octets = all[0]
        self.octets = self.octets[len(frame(octets)) - 4:]
        return operation, octets

    def hear(self, function):
        """Waits for a message of the hub."""
        operation, octets = self.next()
        if operation != BINARY or octets[0] != function:
            raise Failed(f"in place of a message of function {function:02X} came {octets.hex()}")
        return self

    def end(self):
        """What it sees until the end, or until it has joined."""
        seen = []
        try:
            while True:
                operation, octets = self.next()
                if operation == CLOSE:
                    reason = octets[2:].decode()
                    seen.append(f"{int.from_bytes(octets[:2], 'big')}" + (f" `{reason}`" if reason else ""))
                    self.send(frame(octets, CLOSE))
                    break
                seen.append(told_of(bvlc.read(octets)))
                if seen[-1] == "Connect-Accept":
                    break
        except Seen as why:
            seen.append(str(why))
        return ", then ".join(seen)


def told_of(message):
    if message.function == bvlc.CONNECT_ACCEPT:
        return "Connect-Accept"
    if message.function == bvlc.RESULT and message.payload[:2] == bytes([bvlc.CONNECT_REQUEST, 1]):
        code = int.from_bytes(message.payload[5:7], "big")
        return f"NAK {code}" if code == bvlc.NODE_DUPLICATE_VMAC else "a NAK"
    return message.octets().hex()


def sees(port, *messages, head=HEAD, **how):
    """What a peer sees that sends this head and these messages."""
    try:
        with Peer(port, **how) as peer:
            peer.shake(head)
            for octets in messages:
                peer.send(frame(octets))
            return peer.end()
    except Seen as why:
        return str(why)


def request(who):
    return bvlc.connect_request(1, who).octets()


def joined(hub, who):
    """A peer that has joined, and stays until it is dropped."""
    peer = Peer(hub.port).shake().ask(who)
    peer.hear(bvlc.CONNECT_ACCEPT)
    hub.forget()
    return peer


# ---- scenes

@dataclass
class Stage:
    """What a scene has: a folder, processes that end with it, and what came of it so far."""

    folder: Path

    def __post_init__(self):
        self.processes, self.met, self.nodes = [], [], 0

    def close(self):
        for process in reversed(self.processes):
            process.kill()

    def start(self, process):
        self.processes.append(process)
        return process

    def hub(self, *words, **how):
        return self.start(Hub(self.folder, *words, **how))

    def meets(self, seen, said):
        self.met.append((seen, said))

    def stunnel(self, name, text, *changes):
        """Starts one with a file of the page, in which words of its own stand for the addresses and the certificates."""
        for old, new in (*changes, ("/etc/bsc/", f"{self.folder}/")):
            if old not in text:
                raise Failed(f"{name} has no {old!r}")
            text = text.replace(old, new)
        settings = self.folder / f"{name}.{len(self.processes)}.conf"
        settings.write_text(text)
        return self.start(Process(stunnel(), settings))

    def proxy(self, hub):
        """A port of TLS before a hub, as the page puts it there."""
        made, port = Certificates(self.folder, Failed), free_port()
        made.make_ca("ca")
        made.make_ca("other")
        for name, ca in ("hub", "ca"), ("node", "ca"), ("stranger", "other"):
            made.make(name, "DNS:hub.example", ca)
        process = self.stunnel("before", BEFORE_HUB.read_text(), ("0.0.0.0:47900", f"127.0.0.1:{port}"), ("127.0.0.1:47808", f"127.0.0.1:{hub.port}"))
        await_port(port, process)
        hub.forget()
        return port

    def beside(self, port, *changes):
        """A port of a node's own stunnel, which reaches that port of TLS."""
        own = free_port()
        process = self.stunnel("beside", BESIDE_NODE.read_text(), ("hub.example:47900", f"127.0.0.1:{port}"),
                               ("127.0.0.1:47808", f"127.0.0.1:{own}"), *changes)
        await_port(own, process)
        return own

    def node(self, uri, vmac=B.vmac):
        """What a node writes that has this hub, from its start to its end."""
        self.nodes += 1
        settings, script = (self.folder / f"node.{self.nodes}.{it}" for it in ("toml", "script"))
        settings.write_text(NODE_SETTINGS.format(uri=uri, vmac=vmac.hex().upper()))
        script.write_text(f"at {int(1000 * NODE)}\nfinish\n")
        node = self.start(Process(PROGRAM, "node", settings, script))
        try:
            status = node.process.wait(PATIENCE)
        except subprocess.TimeoutExpired:
            raise Failed(f"a node doesn't end: {node.told} {node.said}") from None
        node.join()
        if status or node.said:
            raise Failed(f"a node ended with status {status} and said {node.said}")
        return node.told

    def node_writes_nothing(self, hub_or_uri):
        """A node that can't join says so by no line. The log says the same of it as of a peer."""
        uri = getattr(hub_or_uri, "uri", hub_or_uri)
        if (told := self.node(uri)) != ["finished"]:
            raise Failed(f"a node at {uri} wrote {told}")


def await_port(port, process):
    until = time.monotonic() + PATIENCE
    while True:
        try:
            socket.create_connection(("127.0.0.1", port)).close()
            return
        except OSError:
            if process.process.poll() is not None or time.monotonic() > until:
                raise Failed(f"stunnel doesn't listen: {process.said}") from None
        time.sleep(0.02)


def context_of(folder, name="node", ca="ca", **changes):
    context = ssl.create_default_context(cafile=folder / f"{ca}.crt")
    if name:
        context.load_cert_chain(folder / f"{name}.crt", folder / f"{name}.key")
    for key, value in changes.items():
        setattr(context, key, value)
    return context


SCENES, TLS = [], set()


def scene(cause, needs_tls=False):
    """A scene of the row whose cause has these words."""
    def kept(play):
        SCENES.append((cause, play))
        if needs_tls:
            TLS.add(play)
        return play
    return kept


@scene("nothing listens at this address and port")
def nobody_listens(stage):
    port = free_port()
    stage.meets(sees(port), ())
    stage.node_writes_nothing(f"ws://127.0.0.1:{port}/")


@scene("a certificate is not of the CA or names another host, or a side has no TLS 1.3", True)
def tls_refused(stage):
    hub = stage.hub()
    port = stage.proxy(hub)
    contexts = [context_of(stage.folder, None), context_of(stage.folder, "stranger"), context_of(stage.folder, ca="other"),
                context_of(stage.folder, maximum_version=ssl.TLSVersion.TLSv1_2)]
    for context in contexts:
        stage.meets(sees(port, request(A), context=context), hub.says())
    stage.meets(sees(port, request(A), context=context_of(stage.folder), host="other.example"), hub.says())
    for changes in [("CAfile = /etc/bsc/ca.crt", "CAfile = /etc/bsc/other.crt")], [("checkHost = hub.example", "checkHost = other.example")]:
        own = stage.beside(port, *changes)
        stage.node_writes_nothing(f"ws://127.0.0.1:{own}/")
        stage.meets("TLS is refused", hub.says())
    # Nothing else is amiss.
    if (seen := sees(port, request(A), context=context_of(stage.folder))) != "Connect-Accept":
        raise Failed(f"a peer with a certificate of the CA sees {seen}")
    own = stage.beside(port)
    if (told := stage.node(f"ws://127.0.0.1:{own}/")) != ["hub primary", "hub none", "finished"]:
        raise Failed(f"a node behind its own stunnel wrote {told}")


@scene("the node speaks TLS to the hub's own port")
def tls_to_the_hub(stage):
    hub = stage.hub()
    stage.meets(sees(hub.port, context=ssl.create_default_context()), hub.says())


@scene("the node speaks `ws://` to the proxy's port", True)
def ws_to_the_proxy(stage):
    hub = stage.hub()
    port = stage.proxy(hub)
    stage.meets(sees(port, request(A)), hub.says())
    stage.node_writes_nothing(f"ws://127.0.0.1:{port}/")
    stage.meets(sees(port, request(A)), hub.says())


@scene("has taken the last link of `--sessions`")
def sessions_over(stage):
    hub = stage.hub("--sessions", 1)
    with joined(hub, A):
        stage.meets(sees(hub.port, request(B)), hub.says())
        stage.node_writes_nothing(hub)
        stage.meets(sees(hub.port, request(B)), hub.says())


@scene("the hub is stopping")
def hub_stopping(stage):
    file = stage.folder / "stop"
    hub = stage.hub("--stop-file", file)
    # Who doesn't answer holds the stop up.
    with joined(hub, A) as peer:
        file.touch()
        peer.hear(bvlc.DISCONNECT_REQUEST)
        stage.meets(sees(hub.port, request(B)), hub.says())


@scene("the hub has no file descriptor left")
def no_descriptor(stage):
    hub = stage.hub()
    taken = {int(it.name) for it in Path(f"/proc/{hub.process.pid}/fd").iterdir()}
    lowest = min(set(range(len(taken) + 1)) - taken)
    limit = resource.prlimit(hub.process.pid, resource.RLIMIT_NOFILE)
    resource.prlimit(hub.process.pid, resource.RLIMIT_NOFILE, (lowest, limit[1]))
    stage.meets(sees(hub.port, request(A)), hub.says())
    stage.node_writes_nothing(hub)
    resource.prlimit(hub.process.pid, resource.RLIMIT_NOFILE, limit)
    if (seen := sees(hub.port, request(A))) != "Connect-Accept":
        raise Failed(f"with its descriptors again a peer sees {seen}")


@scene("the node does not offer `hub.bsc.bacnet.org`")
def other_protocol(stage):
    hub = stage.hub()
    stage.meets(sees(hub.port, head=HEAD.replace(b"hub.bsc.bacnet.org", b"dc.bsc.bacnet.org")), hub.says())


@scene("the WebSocket handshake took longer than 1,000 ms")
def too_late(stage):
    hub = stage.hub()
    stage.meets(sees(hub.port, head=HEAD[:40]), hub.says())


@scene("the head of the request is longer than 16,384 octets")
def long_head(stage):
    hub = stage.hub()
    stage.meets(sees(hub.port, head=HEAD[:-2] + b"X-Long: " + 17_000 * b"x" + b"\r\n\r\n"), hub.says())


@scene("256 handshakes were open, and this was the oldest")
def handshakes_full(stage):
    hub = stage.hub()
    peers = []
    try:
        for _ in range(PLACES + 1):
            peers.append(Peer(hub.port))
            peers[-1].send(HEAD[:40])
        try:
            peers[0].shake(b"")
        except Seen as why:
            seen = str(why)
    finally:
        for peer in peers:
            peer.socket.close()
    # All others are late, or their peers have gone.
    stage.meets(seen, hub.says()[:2])


@scene("no Connect-Request came within `connect_wait_ms`")
def connect_wait(stage):
    hub = stage.hub()
    stage.meets(sees(hub.port), hub.says())


@scene("the Connect-Request is malformed")
def malformed(stage):
    for octets in request(A)[:-1], request(Identity(bytes(6), A.device)), request(A) + b"\0":
        hub = stage.hub()
        stage.meets(sees(hub.port, octets), hub.says())


@scene("another device, or the hub itself, has its VMAC")
def duplicate_vmac(stage):
    hub = stage.hub()
    with joined(hub, A):
        for vmac in A.vmac, OWN_VMAC:
            hub.forget()
            stage.meets(sees(hub.port, request(Identity(vmac, B.device))), hub.says())
            nak, drawn, *told = stage.node(hub.uri, vmac)
            if nak != "nak hub 06 151" or not re.fullmatch("vmac [0-9A-F]{12}", drawn) or told != ["hub primary", "hub none", "finished"]:
                raise Failed(f"a node that was refused wrote {[nak, drawn, *told]}")


@scene("no member has this device with this VMAC")
def policy(stage):
    member = f'\n[[policy.member]]\ndevice = "{A.device.hex()}"\nvmac = "{A.vmac.hex()}"\ngroup = "all"\n'
    hub = stage.hub(more=member)
    for who in B, Identity(B.vmac, A.device), Identity(A.vmac, B.device):
        stage.meets(sees(hub.port, request(who)), hub.says())
    stage.node_writes_nothing(hub)
    stage.meets(sees(hub.port, request(B)), hub.says())


@scene("`rows` connections exist")
def table_full(stage):
    hub = stage.hub(more="rows = 1")
    with joined(hub, A):
        stage.meets(sees(hub.port, request(B)), hub.says())
        stage.node_writes_nothing(hub)
        stage.meets(sees(hub.port, request(B)), hub.says())


@scene("the hub stopped after the link was open")
def stopped(stage):
    file = stage.folder / "stop"
    hub = stage.hub("--stop-file", file, wait=1000 * PATIENCE)
    with joined(hub, A) as peer, Peer(hub.port) as late:
        late.shake()
        file.touch()
        peer.hear(bvlc.DISCONNECT_REQUEST)
        seen = late.ask(B).end()
    # A hub that takes no more links writes lines that wait at its end.
    hub.ends()
    stage.meets(seen, hub.says("2"))


@scene("its journal's file exists")
def unserved(stage):
    (stage.folder / "journal.1").touch()
    hub = stage.hub("--journal", stage.folder / "journal")
    seen = sees(hub.port, request(A))
    hub.ends()
    stage.meets(seen, hub.says())


@scene("its journal line could not be written")
def journal_fault(stage):
    hub = stage.hub("--journal", stage.folder / "journal")
    resource.prlimit(hub.process.pid, resource.RLIMIT_FSIZE, (0, 0))
    stage.meets(sees(hub.port, request(A)), hub.says())
    stage.node_writes_nothing(hub)
    stage.meets(sees(hub.port, request(A)), hub.says())


@scene("or the file not created")
def journal_unmade(stage):
    folder = stage.folder / "journals"
    folder.mkdir()
    hub = stage.hub("--journal", folder / "journal")
    folder.rename(stage.folder / "elsewhere")
    stage.meets(sees(hub.port, request(A)), hub.says())
    stage.node_writes_nothing(hub)
    stage.meets(sees(hub.port, request(A)), hub.says())


# ---- beside the table

def no_cause(stage):
    """What the page says is no cause: any path and host. A node writes nothing about a host that it doesn't dial."""
    hub = stage.hub()
    head = HEAD.replace(b"GET / ", b"GET /some/path?and=more ").replace(b"Host: 127.0.0.1", b"Host: any.example")
    if (seen := sees(hub.port, request(A), head=head)) != "Connect-Accept":
        raise Failed(f"with another path and host a peer sees {seen}")
    if (told := stage.node(f"{hub.uri}some/path")) != ["hub primary", "hub none", "finished"]:
        raise Failed(f"a node that dials a path wrote {told}")
    hub.forget()
    for uri in f"ws://hub.example:{hub.port}/", f"ws://[::1]:{hub.port}/":
        stage.node_writes_nothing(uri)
    if said := hub.says():
        raise Failed(f"of a node that dials another host the log says {said}")
    for words in "`nak hub 06 CODE`", "`vmac VMAC`", "any path":
        if words not in section():
            raise Failed(f"{PAGE} doesn't say {words}")


def row_of(rows, cause):
    found = [row for row in rows if cause in row.cause]
    if len(found) != 1:
        raise Failed(f"{PAGE} has {len(found)} rows with the cause {cause!r}")
    return found[0]


def play(rows, cause, act):
    """Plays a scene; gives the row that happened."""
    row = row_of(rows, cause) if cause else None
    with tempfile.TemporaryDirectory() as folder:
        stage = Stage(Path(folder))
        try:
            act(stage)
        except Seen as why:
            raise Failed(f"{act.__name__}: a peer that should join sees {why}") from None
        except (Failed, OSError, ValueError) as why:
            raise Failed(f"{act.__name__}: {why}") from None
        finally:
            stage.close()
        for seen, said in stage.met:
            if row and (seen, said) != (row.sees, row.says):
                raise Failed(f"{act.__name__}: the peer sees {seen!r}, and the log says {said}; {PAGE} has {row.sees!r} and {row.says}")
    return row, stage


def tried(rows, cause, act):
    """Plays a scene; gives what went otherwise, if anything did."""
    try:
        return play(rows, cause, act), None
    except Failed as why:
        return None, why


def main(names):
    if subprocess.run([PROGRAM, "check"], stdin=subprocess.DEVNULL).returncode:
        raise Failed("there is no program")
    begun, rows, acts = time.monotonic(), rows_of_page(), [*SCENES, (None, no_cause)]
    for cause, _ in SCENES:
        row_of(rows, cause)
    if names:
        acts = [(cause, act) for cause, act in acts if any(name in act.__name__ for name in names)]
    lacking = lacks_tls() if any(act in TLS for _, act in acts) else None
    if lacking:
        print(f"check-join: what needs TLS is skipped, {lacking}", flush=True)
        acts = [(cause, act) for cause, act in acts if act not in TLS]
    with ThreadPoolExecutor(AT_ONCE) as pool:
        results = list(pool.map(lambda act: tried(rows, *act), acts))
    # What went otherwise is played once more, alone: a busy machine may have been the cause.
    for place, (act, (_, why)) in enumerate(zip(acts, results)):
        if why:
            watch = Watch()
            results[place] = again = tried(rows, *act)
            watch.is_over = True
            if again[1]:
                if watch.longest > HOLD_UP:
                    watch.judge(str(again[1]))
                raise again[1]
    if names:
        for stage in (stage for (_, stage), _ in results):
            print(f"check-join: {stage.met}")
    happened = {row for (row, _), _ in results if row}
    if not names and not lacking and (missing := [row.cause for row in rows if row not in happened]):
        raise Failed(f"no scene has the cause of these rows of {PAGE}: {missing}")
    peers, nodes = sum(len(stage.met) for (_, stage), _ in results), sum(stage.nodes for (_, stage), _ in results)
    return (f"{len(happened)} of the {len(rows)} rows of the page happened as they stand there, to {peers} peers; {nodes} nodes wrote what the page "
            f"says; {time.monotonic() - begun:.0f} s")


try:
    print(f"check-join: {main(sys.argv[1:])}")
except TooBusy as why:
    print(f"check-join: not all of it could be met, the machine is too busy: {why}")
except Failed as why:
    sys.exit(f"check-join: {why}")
