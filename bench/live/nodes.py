"""Nodes of bsc at hubs of bsc, all of them processes. The nodes send each other numbered NPDUs by scripts of times while
their hubs are killed and started again, and all that each node writes is compared with what the others sent.

Nobody tells when a node has sent a message. So of each it is known that it was sent no earlier than the script says,
counted from the start of the process, and, on a machine that isn't busy, at most SLACK later than the script says, counted
from the first line that the node wrote. A *calm* is the time from when all nodes have written that they use one hub until
a hub is killed or started. What was sent in a calm has to come, once and in order; what was sent between two may be lost.
"""
import os
import random
import socket
import subprocess
import threading
import time
from bisect import bisect_left
from dataclasses import dataclass, field
from pathlib import Path

from live import ROOT, Failed, TooBusy

PROGRAM = os.environ.get("BSC", str(ROOT / "bsc"))
EVERYONE = "FFFFFFFFFFFF"

# Longest NPDU that a node takes if its settings don't say otherwise.
LONGEST_NPDU = 1497

# Seconds: how long something may take that has to come about; how much later than its time a line of a script may be
# carried out; for how long a program may be held up. Where it was held up longer, the machine is too busy to tell.
PATIENCE, SLACK, HOLD_UP = 20, 1, 0.3

HUB = """[hub]
vmac = "{vmac}"
uuid = "{uuid}"
port = {port}
max_bvlc = 1600
rows = 64
outbox = 1024
"""

NODE = """[node]
vmac = "{vmac}"
uuid = "{uuid}"
primary = "ws://127.0.0.1:{primary}/"
failover = "ws://127.0.0.1:{failover}/"
least_reconnect_ms = 300
greatest_reconnect_ms = 1000
"""


given_ports = set()


def free_port():
    """A port that nobody has, and that the system gives to nobody who dials: so it stays free while a hub is killed."""
    for port in random.sample(range(20000, 30000), 100):
        with socket.socket() as s:
            try:
                s.bind(("127.0.0.1", port))
            except OSError:
                continue
        if port not in given_ports:
            given_ports.add(port)
            return port
    raise Failed("no port is free")


def wait_until(is_so, what, seconds=PATIENCE):
    until = time.monotonic() + seconds
    while not is_so():
        if time.monotonic() > until:
            raise Failed(f"{what()} within {seconds} s")
        time.sleep(0.01)


class Watch(threading.Thread):
    """Sleeps for a moment over and over, and notes for how long it was held up at most."""

    def __init__(self):
        super().__init__(daemon=True)
        self.longest, self.is_over = 0, False
        self.start()

    def run(self):
        while not self.is_over:
            begun = time.monotonic()
            time.sleep(0.02)
            self.longest = max(self.longest, time.monotonic() - begun - 0.02)

    def judge(self, why):
        """What depends on time goes wrong of itself where the machine is too busy."""
        if self.longest > HOLD_UP:
            raise TooBusy(f"{why}; it held up a program for {self.longest:.1f} s")
        raise Failed(why)


class Program:
    """A process of bsc, with a thread for each of its streams that takes the lines as they come."""

    def __init__(self, *words):
        self.said = []
        self.begun = time.monotonic()
        self.process = subprocess.Popen([PROGRAM, *map(str, words)], stdin=subprocess.DEVNULL, stdout=subprocess.PIPE,
                                        stderr=subprocess.PIPE, text=True)
        self.readers = [threading.Thread(target=self.read, args=pair, daemon=True)
                        for pair in [(self.process.stdout, self.take), (self.process.stderr, self.said.append)]]
        for reader in self.readers:
            reader.start()

    def read(self, stream, take):
        for line in stream:
            take(line.rstrip("\n"))

    def take(self, line):
        raise NotImplementedError

    def runs(self):
        return self.process.poll() is None

    def kill(self):
        if self.runs():
            self.process.kill()
        self.process.wait()
        for reader in self.readers:
            reader.join()


class Hub:
    """A hub at a port, which can be killed and started again. With journals, each start has a prefix of its own."""

    def __init__(self, folder, name, vmac, uuid, journals=False):
        self.name, self.port = name, free_port()
        self.prefixes, self.journals = [], folder / name if journals else None
        self.settings = folder / f"{name}.toml"
        self.settings.write_text(HUB.format(vmac=vmac, uuid=uuid, port=self.port))
        self.program, self.starts = None, 0

    def start(self):
        self.starts += 1
        more = []
        if self.journals:
            self.prefixes.append(self.journals.with_name(f"{self.journals.name}-{self.starts}"))
            more = ["--journal", self.prefixes[-1]]
        self.program = program = HubProgram("hub", self.settings, *more)
        serves = f" serves ws://127.0.0.1:{self.port}/ as hub.bsc.bacnet.org"
        # The first start may prove and build the program.
        while not any(line.endswith(serves) for line in program.said):
            if not program.runs():
                program.kill()
                raise Failed(f"a hub doesn't serve: {program.told + program.said}")
            time.sleep(0.01)

    def kill(self):
        if self.program and not self.program.runs():
            self.program.kill()
            raise Failed(f"a hub ended: {self.program.told + self.program.said}")
        self.stop()

    def stop(self):
        if self.program:
            self.program.kill()
            self.program = None


class HubProgram(Program):
    def __init__(self, *words):
        self.told = []
        super().__init__(*words)

    def take(self, line):
        self.told.append(line)


def npdu(sender, to, number):
    """An NPDU that says who sent it, to whom and as which one; one in fifty is as long as it may be."""
    head = bytes([1, 0, sender, to]) + number.to_bytes(4, "big")
    length = LONGEST_NPDU if number % 50 == 25 else len(head) + number % 30
    return head + bytes((31 * number + 7 * sender + 5 * to + at) % 251 for at in range(length - len(head)))


@dataclass
class Sent:
    """The messages of one node to another, or to all: when, in milliseconds behind its start, and their octets."""

    at: list = field(default_factory=list)
    octets: list = field(default_factory=list)


@dataclass
class Came:
    """Those that came of them: their numbers, each with how many lines on hubs stood before it."""

    numbers: list = field(default_factory=list)
    behind: list = field(default_factory=list)


class Node(Program):
    """A node with its script: a unicast to each other one each EVERY milliseconds, and a broadcast each fourth time."""

    def __init__(self, folder, place, names, hubs, seconds, every, wishes=(), port=None):
        self.place, self.vmac, self.names = place, names[place], names
        self.sent = {to: Sent() for to in [*names, EVERYONE] if to != self.vmac}
        self.came = {(of, to): Came() for of in names if of != self.vmac for to in (self.vmac, EVERYONE)}
        self.numbers = {}
        self.hub_lines, self.others, self.no_path, self.fault = [], [], {}, None
        self.lines, self.first_line = [], None
        settings, script = folder / f"node{place}.toml", folder / f"node{place}.script"
        direct = f'direct_port = {port}\ndirect_uris = "ws://127.0.0.1:{port}/"\n' if port else ""
        self.uuid = f"{place + 1:08x}-1111-4222-8333-444444444444"
        settings.write_text(NODE.format(vmac=self.vmac, uuid=self.uuid, primary=hubs[0].port, failover=hubs[1].port) + direct)
        self.wishes = self.script(seconds, every, wishes)
        script.write_text(self.wishes)
        self.words = ["node", settings, script]

    def script(self, seconds, every, wishes):
        lines = [(at, line) for at, line in wishes]
        # The last messages have some seconds to come.
        for turn, at in enumerate(range(1000, 1000 * seconds - 4000, every)):
            for to in self.sent:
                if to == EVERYONE and turn % 4:
                    continue
                of = self.sent[to]
                octets = npdu(self.place, 255 if to == EVERYONE else self.names.index(to), len(of.at))
                of.at.append(at)
                of.octets.append(octets)
                lines.append((at, f"send {to} {octets.hex()}"))
        lines = [f"at {at}\n{line}\n" for at, line in sorted(lines, key=lambda timed: timed[0])]
        return "".join(lines) + f"at {1000 * seconds}\nfinish\n"

    def meet(self, nodes):
        """Who sends what to this node."""
        for of in nodes:
            for to, sent in of.sent.items():
                if of is not self and to in (self.vmac, EVERYONE):
                    reach = "broadcast" if to == EVERYONE else "unicast"
                    for number, octets in enumerate(sent.octets):
                        self.numbers[f"{of.vmac} {reach} {octets.hex().upper()}"] = (of.vmac, to), number

    def start(self):
        super().__init__(*self.words)

    def take(self, line):
        self.first_line = self.first_line or time.monotonic()
        self.lines.append(line)
        kind, _, rest = line.partition(" ")
        if kind == "hub":
            self.hub_lines.append(rest)
        elif kind == "nopath":
            self.no_path[rest] = self.no_path.get(rest, 0) + 1
        elif kind == "npdu":
            found = self.numbers.get(rest)
            if not found:
                self.fault = self.fault or f"{self.vmac} wrote of an NPDU that nobody sent: {line}"
                return
            stream, number = found
            self.came[stream].numbers.append(number)
            self.came[stream].behind.append(len(self.hub_lines))
        else:
            self.others.append(line)

    def use(self):
        return self.hub_lines[-1] if self.hub_lines else "none"

    def memory(self):
        try:
            text = Path(f"/proc/{self.process.pid}/status").read_text()
        except OSError:
            return 0
        return next((int(line.split()[1]) for line in text.splitlines() if line.startswith("VmRSS")), 0)


class Network:
    """A primary and a failover hub and three nodes, of which the first opens a direct connection to the second."""

    def __init__(self, folder, seconds, every, journals=False):
        folder = Path(folder)
        self.seconds = seconds
        self.watch = Watch()
        self.hubs = [Hub(folder, "primary", "0200000000FF", "00112233-4455-6677-8899-aabbccddeeff", journals),
                     Hub(folder, "failover", "0200000000FE", "00112233-4455-6677-8899-aabbccddee00", journals)]
        names = [f"02000000000{letter}" for letter in "ABC"]
        self.port = free_port()
        first, second = names[:2]
        # The second time asks nothing, where a first question was answered and the connection is up.
        wishes = [(at + more, f"{wish} {second}") for more in (0, 2000) for at, wish in [(1500, "resolve"), (2500, "direct")]]
        self.nodes = [Node(folder, place, names, self.hubs, seconds, every, wishes if place == 0 else (), self.port if place == 1 else None)
                      for place in range(3)]
        for node in self.nodes:
            node.meet(self.nodes)
        self.calms, self.lines_due, self.kills, self.directs = [], [], 0, {(first, second), (second, first)}
        self.direct_since = None

    def __enter__(self):
        return self

    def __exit__(self, *_):
        self.watch.is_over = True
        for node in self.nodes:
            if hasattr(node, "process"):
                node.kill()
        for hub in self.hubs:
            hub.stop()

    def streams(self):
        for to in self.nodes:
            for stream, came in to.came.items():
                of = next(node for node in self.nodes if node.vmac == stream[0])
                yield of, to, of.sent[stream[1]], came, stream

    def check_lives(self):
        for node in self.nodes:
            if node.fault:
                raise Failed(node.fault)
            if not node.runs():
                node.kill()
                raise Failed(f"{node.vmac} ended with status {node.process.returncode}: {node.others[-3:] + node.said[-3:]}")

    def await_use(self, *uses):
        """Waits until each node has written that it uses these hubs, one after the other."""
        due = self.lines_due + list(uses)

        def is_so():
            self.check_lives()
            return all(len(node.hub_lines) >= len(due) for node in self.nodes)

        wait_until(is_so, lambda: f"{[(node.vmac, node.hub_lines[len(self.lines_due):]) for node in self.nodes]} use other hubs than {uses}")
        for node in self.nodes:
            if node.hub_lines != due:
                self.watch.judge(f"{node.vmac} wrote the uses {node.hub_lines} in place of {due}")
        self.lines_due = due

    def calm(self, at_least=0.0):
        """From now on all comes: waits until some of each node's came to each other one, for a time at least."""
        since = time.monotonic()
        due = [(of, to, stream, came, first_sent(of, sent, since) + 1) for of, to, sent, came, stream in self.streams()]
        time.sleep(at_least)

        def late():
            return [f"{stream} at {to.vmac}" for of, to, stream, came, number in due if not came.numbers or came.numbers[-1] < number]

        def is_so():
            self.check_lives()
            return not late()

        wait_until(is_so, lambda: f"nothing comes of {late()}")
        self.calms.append((since, time.monotonic()))

    def begin(self):
        for hub in self.hubs:
            hub.start()
        for node in self.nodes:
            node.start()
        self.await_use("primary")
        ends = [f"direct {self.nodes[1].vmac} up", f"direct {self.nodes[0].vmac} up"]
        wait_until(lambda: all(line in node.others for line, node in zip(ends, self.nodes)), lambda: "no direct connection comes up")
        self.direct_since = time.monotonic()
        self.calm()

    def fail_over_and_back(self, calm=0.0):
        """The primary is killed, the failover too, and both come back in turn."""
        primary, failover = self.hubs
        self.kills += 2
        primary.kill()
        self.await_use("none", "failover")
        self.calm(calm)
        failover.kill()
        self.await_use("none")
        failover.start()
        self.await_use("failover")
        self.calm(calm)
        primary.start()
        self.await_use("primary")
        self.calm(calm)

    def left(self):
        """Seconds until the first node finishes."""
        return self.nodes[0].begun + self.seconds - time.monotonic()

    def end(self):
        """Waits for the nodes' ends and compares all that they wrote. How many messages were sent, and how many came."""
        since = self.calms[-1][0]
        self.calms[-1] = (since, float("inf"))
        for node in self.nodes:
            try:
                node.process.wait(timeout=max(0, self.left()) + PATIENCE)
            except subprocess.TimeoutExpired:
                raise Failed(f"{node.vmac} doesn't finish") from None
            node.kill()
        for node in self.nodes:
            self.compare_end(node)
        for of, to, sent, came, stream in self.streams():
            self.compare(of, to, sent, came, stream)
        self.compare_direct()
        return sum(len(sent.at) for _, _, sent, _, _ in self.streams()), sum(len(came.numbers) for _, _, _, came, _ in self.streams())

    def compare_end(self, node):
        if node.fault:
            raise Failed(node.fault)
        if node.process.returncode or node.others[-1:] != ["finished"]:
            raise Failed(f"{node.vmac} ended with status {node.process.returncode} and {node.others[-3:]}")
        if node.hub_lines != self.lines_due + ["none"]:
            self.watch.judge(f"{node.vmac} wrote the uses {node.hub_lines} in place of {self.lines_due + ['none']}")

    def compare(self, of, to, sent, came, stream):
        name = f"of {of.vmac} to {stream[1]} at {to.vmac}"
        numbers = came.numbers
        if len(set(numbers)) < len(numbers):
            raise Failed(f"{name}: one came twice")
        if of.no_path.get(stream[1], 0) + len(numbers) > len(sent.at):
            raise Failed(f"{name}: {len(numbers)} came, though {of.no_path[stream[1]]} of {len(sent.at)} had no path")
        is_direct = stream in self.directs
        calms = [(self.direct_since, float("inf"))] if is_direct else self.calms
        there = set(numbers)
        for since, until in calms:
            last = bisect_left(sent.at, 1000 * (until - SLACK - of.first_line))
            lost = [number for number in range(first_sent(of, sent, since), last) if number not in there]
            if lost:
                self.watch.judge(f"{name}: {len(lost)} of a time when nothing may be lost, as number {lost[0]}")
        if is_direct:
            # What went by the hub before the connection was up may come behind what went directly.
            numbers = [number for number in numbers if number >= first_sent(of, sent, self.direct_since)]
        for before, after, i in zip(numbers, numbers[1:], range(len(numbers))):
            if after < before:
                raise Failed(f"{name}: {after} came behind {before}")
            if not is_direct and after > before + 1 and came.behind[i] == came.behind[i + 1]:
                raise Failed(f"{name}: {before + 1} didn't come between {before} and {after}")

    def compare_direct(self):
        """Besides what came and the hubs, the nodes wrote of the direct connection alone."""
        first, second, third = self.nodes
        uris = f"ws://127.0.0.1:{self.port}/".encode().hex().upper()
        due = [[f"uris {second.vmac} {uris}", f"direct {second.vmac} up", f"uris {second.vmac} {uris}", f"direct {second.vmac} down", "finished"],
               [f"direct {first.vmac} up", f"direct {first.vmac} down", "finished"], ["finished"]]
        for node, lines in zip(self.nodes, due):
            if node.others != lines:
                self.watch.judge(f"{node.vmac} wrote {node.others} in place of {lines}")


class Cycle(threading.Thread):
    """A network for a time, of which the hubs are killed and started again each minute. A line each second goes to a file:
    seconds, messages that came, and the memory of each node in KiB."""

    def __init__(self, folder, seconds, file):
        super().__init__(daemon=True)
        self.network, self.file = Network(folder, seconds, 100), file
        self.rows, self.fault, self.figures = [], None, None

    def run(self):
        try:
            with self.network:
                self.cycle()
        except Exception as why:
            self.fault = why

    def cycle(self):
        network = self.network
        network.begin()
        noting = threading.Thread(target=self.note, daemon=True)
        noting.start()
        calm = min(8, network.seconds / 20)
        for minute in range(network.seconds // 60 or 1):
            while network.seconds - network.left() < 60 * minute + calm:
                network.check_lives()
                time.sleep(0.1)
            if network.left() > 3 * calm + 15:
                network.fail_over_and_back(calm)
        sent, came = network.end()
        noting.join()
        self.figures = {"sent": sent, "came": came, "kills": network.kills, "held_up_ms": 1000 * network.watch.longest}

    def note(self):
        network = self.network
        begun = network.nodes[0].begun
        with open(self.file, "w") as file:
            for second in range(1, network.seconds):
                time.sleep(max(0, begun + second - time.monotonic()))
                came = sum(len(came.numbers) for _, _, _, came, _ in network.streams())
                self.rows.append([second, came, *(node.memory() for node in network.nodes)])
                print(*self.rows[-1], sep="\t", file=file, flush=True)

    def finish(self):
        """Its figures, when it has ended."""
        self.join()
        if self.fault:
            raise self.fault
        return self.figures


def first_sent(of, sent, since):
    """The number of the first message that was certainly sent after a time: none is sent before its own."""
    return bisect_left(sent.at, 1000 * (since - of.begun))
