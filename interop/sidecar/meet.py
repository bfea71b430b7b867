#!/usr/bin/env python3
"""Two hubs, and four nodes that are driven by lines as they come: by the two programs of examples/sidecar, and by this one.

    node      settings                     driven by
    ..0A      examples/node.toml           this program; it accepts direct connections
    ..0B      examples/other-node.toml     answer.py
    ..0C      examples/sidecar/node.toml   sidecar.py, which asks; it dials its hubs through TLS
    ..0D      other-node.toml, changed     this program
"""
import os
import random
import signal
import socket
import statistics
import subprocess
import sys
import tempfile
import threading
import time
from pathlib import Path

sys.dont_write_bytecode = True
ROOT = Path(__file__).resolve().parents[2]
sys.path[:0] = [str(ROOT / "bench/live"), str(ROOT / "interop/tls")]
from live import Failed, TooBusy  # noqa: E402
from made import BEFORE_HUB, BESIDE_NODE, Certificates, lacks_tls, stunnel  # noqa: E402
from nodes import HOLD_UP, PROGRAM, Hub, Watch, free_port  # noqa: E402

THIRD, ANSWERER, ASKER, PLAIN = (f"02000000000{last}" for last in "ABCD")
DEVICE = 260001

# What the examples have to send, worked by hand: a Who-Is to all, and the I-Am of the device, which is 0003F7A1 beside its type.
WHO_IS = "0120FFFF00FF1008"
I_AM = "01001000C40203F7A12205C491032100"
ANSWER = f"{ANSWERER} is device {DEVICE}, longest APDU 1476, segmentation 3, vendor 0"

# Seconds: within which something has to come; how long nodes are idle; and of a line until it is told at another node: each, and the
# median. A node that nobody wakes waits for 50 ms, and half of the lines come when it has just begun to wait.
PATIENCE, IDLE, EACH, MEDIAN = 12, 6, 0.2, 0.025
MOST_IDLE = 0.005  # of a processor
LONGEST = 140_000  # octets of a line
TLS_PORT = 47900  # of the files of both stunnels
TIMED, TRIES, BURST = 60, 3, 600


class Late(Failed):
    """Something hasn't come in its time: where the machine held up a program for so many seconds, that comes of itself."""

    def __init__(self, why, excuse=PATIENCE / 4):
        super().__init__(why)
        self.excuse = excuse


class Child:
    """A process, what it told and said so far, and when it told it. It is the first of a group of its own."""

    def __init__(self, who, *words):
        self.who, self.told, self.times, self.said, self.written = who, [], [], [], 0
        self.news = threading.Condition()
        pipe = subprocess.PIPE
        self.process = subprocess.Popen(list(map(str, words)), cwd=ROOT, stdin=pipe, stdout=pipe, stderr=pipe, text=True, bufsize=1,
                                        start_new_session=True, env={**os.environ, "BSC": PROGRAM})
        streams = (self.process.stdout, self.told), (self.process.stderr, self.said)
        self.readers = [threading.Thread(target=self.read, args=pair, daemon=True) for pair in streams]
        for reader in self.readers:
            reader.start()

    def read(self, stream, lines):
        for line in stream:
            with self.news:
                if lines is self.told:
                    self.times.append(time.monotonic())
                lines.append(line.rstrip("\n"))
                self.news.notify_all()
        with self.news:
            self.news.notify_all()

    def has_ended(self):
        return not any(reader.is_alive() for reader in self.readers)

    def state(self):
        status = self.process.poll()
        return f"it {'runs' if status is None else f'ended with status {status}'}, told {self.told[-5:]} and said {self.said[-5:]}"

    def write(self, text):
        self.written += text.count("\n")
        try:
            self.process.stdin.write(text)
            self.process.stdin.flush()
        except BrokenPipeError:
            self.process.wait(PATIENCE)
            raise Failed(f"{self.who} takes no line more; {self.state()}") from None

    def close(self):
        self.process.stdin.close()

    def until(self, is_so, what):
        """Waits until something is so of what it told and said."""
        end = time.monotonic() + PATIENCE
        with self.news:
            while not is_so():
                if self.has_ended():
                    self.process.wait(PATIENCE)
                    raise Failed(f"{self.who}: no {what}; {self.state()}")
                if not self.news.wait(end - time.monotonic()) and time.monotonic() >= end:
                    raise Late(f"{self.who}: no {what} within {PATIENCE} s; {self.state()}")

    def tells(self, line, since=0):
        """Waits until it has told a line, behind some; gives how many it had told then, with this one."""
        self.until(lambda: line in self.told[since:], f"line {line!r}")
        return self.told.index(line, since) + 1

    def ends(self, last):
        """Waits for its end, with status 0 and these lines at last."""
        try:
            status = self.process.wait(PATIENCE)
        except subprocess.TimeoutExpired:
            raise Late(f"{self.who} doesn't end; {self.state()}") from None
        for reader in self.readers:
            reader.join()
        if status or self.told[-len(last):] != last:
            raise Failed(f"{self.who} ended otherwise than with status 0 and {last}; {self.state()}")

    def kill(self):
        """Ends all that it started, and gives back its pipes."""
        try:
            os.killpg(self.process.pid, signal.SIGKILL)
        except ProcessLookupError:
            pass
        self.process.wait()


def same(found, due, what):
    if found != due:
        raise Failed(f"{what}: {found} in place of {due}")


class Tls:
    """A stunnel before two hubs, and one beside a node, with certificates of a network that is made for this run."""

    def __init__(self, folder, hubs):
        self.folder, self.children = folder, []
        made = Certificates(folder, Failed)
        made.make_ca("ca")
        made.make("hub", "DNS:hub.example")
        made.make("node", "DNS:node.example")
        head, before = BEFORE_HUB.read_text().split("[bacnet-sc]\n")
        beside = BESIDE_NODE.read_text().split("[to-the-hub]\n")[1]
        self.ports, texts = [], [head, head]
        for number, hub in enumerate(hubs):
            port, between = free_port(), free_port()
            at_hub = before.replace(f"0.0.0.0:{TLS_PORT}", f"127.0.0.1:{between}").replace("127.0.0.1:47808", f"127.0.0.1:{hub}")
            at_node = beside.replace("127.0.0.1:47808", f"127.0.0.1:{port}").replace(f"hub.example:{TLS_PORT}", f"127.0.0.1:{between}")
            texts = [f"{text}[{number}]\n{more}" for text, more in zip(texts, (at_hub, at_node))]
            self.ports.append(port)
        for name, text in zip(("before", "beside"), texts):
            settings = folder / f"{name}.conf"
            settings.write_text(text.replace("/etc/bsc/", f"{folder}/"))
            self.children.append(Child(f"the stunnel {name}", stunnel(), settings))
        for port in self.ports:
            self.await_port(port)

    def await_port(self, port):
        end = time.monotonic() + PATIENCE
        while True:
            try:
                socket.create_connection(("127.0.0.1", port)).close()
                return
            except OSError:
                if time.monotonic() > end:
                    raise Late(f"stunnel doesn't listen; {[child.state() for child in self.children]}") from None
            time.sleep(0.02)


class Network:
    def __init__(self, folder):
        self.folder, self.children = folder, []
        self.hubs = [Hub(folder, "primary", "0200000000FF", "00112233-4455-6677-8899-aabbccddeeff"),
                     Hub(folder, "failover", "0200000000FE", "00112233-4455-6677-8899-aabbccddee00")]
        self.direct = free_port()
        self.tls = None

    def close(self):
        for child in self.children + (self.tls.children if self.tls else []):
            child.kill()
        for hub in self.hubs:
            hub.stop()

    def judge(self, late):
        """What comes late never comes where a process has ended."""
        ended = [f"{child.who}: {child.state()}" for child in self.children if child.process.poll() not in (None, 0, -signal.SIGKILL)]
        if ended:
            raise Failed("; ".join([str(late), *ended])) from None
        raise late

    def begin(self, who, *words):
        self.children.append(Child(who, *words))
        return self.children[-1]

    def settings(self, example, name, hubs, changes=()):
        """A copy of an example with the ports of this network."""
        text = (ROOT / "examples" / example).read_text(encoding="utf-8")
        for old, new in [*zip(("47808", "47809", "47810"), [*map(str, hubs), str(self.direct)]), *changes]:
            text = text.replace(old, new)
        file = self.folder / f"{name}.toml"
        file.write_text(text, encoding="utf-8")
        return file

    def start(self):
        """The hubs, and all nodes but the asker's, which have to use the primary."""
        for hub in self.hubs:
            hub.start()
        ports = fronts = [hub.port for hub in self.hubs]
        lacking = lacks_tls()
        if lacking:
            print(f"check-sidecar: TLS is skipped, {lacking}", flush=True)
        else:
            self.tls = Tls(self.folder, ports)
            fronts = self.tls.ports
        changes = [(ANSWERER, PLAIN), ("66666666", "77777777")]
        self.third = self.begin("the third node", PROGRAM, "node", self.settings("node.toml", "third", ports), "-")
        self.plain = self.begin("the plain node", PROGRAM, "node", self.settings("other-node.toml", "plain", ports, changes), "-")
        self.answerer = self.begin("answer.py", sys.executable, "examples/sidecar/answer.py",
                                   self.settings("other-node.toml", "answerer", ports), DEVICE)
        for child in self.children:
            child.tells("hub primary")
        self.asker_settings = self.settings("sidecar/node.toml", "asker", fronts)

    def nodes(self):
        """The ids of the four nodes' processes, by whose they are."""
        own = {child.who: child.process.pid for child in (self.third, self.plain)}
        return own | {child.who: node_of(child) for child in (self.answerer, self.asker)}


def node_of(child):
    """The process that a program of the examples has started."""
    for file in Path("/proc").glob("[0-9]*/stat"):
        try:
            if int(file.read_text().rpartition(")")[2].split()[1]) == child.process.pid:
                return int(file.parent.name)
        except OSError:
            pass
    raise Failed(f"{child.who} has no node; {child.state()}")


def asks_and_answers(network):
    """The asker finds its hub, asks, and prints who answers, and where the third node accepts. All others hear the question."""
    asker = network.asker = network.begin("sidecar.py", sys.executable, "examples/sidecar/sidecar.py", network.asker_settings, THIRD)
    address = f"{THIRD} accepts direct connections at ws://127.0.0.1:{network.direct}/"
    shown = "\n".join(["", "hub primary", ANSWER, address.replace(str(network.direct), "47810"), ""])
    if shown not in (ROOT / "examples/sidecar/README.md").read_text(encoding="utf-8"):
        raise Failed(f"the page of the examples doesn't show {shown!r}")
    for begun in 0, 3:
        asker.until(lambda: len(asker.told) >= 2 + begun + (begun == 0), "answers")
        lines = asker.told[begun:]
        if begun == 0:
            same(lines[0], "hub primary", "the first line of sidecar.py")
            lines = lines[1:]
            # Enter asks again.
            asker.write("\n")
        same(sorted(lines[:2]), sorted([ANSWER, address]), "what sidecar.py printed")
    asked = f"npdu {ASKER} broadcast {WHO_IS}"
    for child in network.third, network.plain, network.answerer:
        child.until(lambda: child.told.count(asked) >= 2, "two questions")
        same(child.told, ["hub primary", asked, asked], f"what {child.who} told")


def ranges(network):
    """The answerer answers a Who-Is for a range that has its number, and no other; and none of what is no Who-Is."""
    third, due = network.third, 0
    begun = len(third.told)
    low, high, one = (f"{number:06X}" for number in (DEVICE - 1, DEVICE + 1, DEVICE))
    for npdu, is_meant in ((f"010010080B{low}1B{high}", True), (f"010010080B{one}1B{one}", True), (f"010010080B{high}1B{high}", False),
                           ("0100100809001900", False), ("01001007", False), ("0180", False), ("01", False), (WHO_IS, True)):
        third.write(f"send {ANSWERER} {npdu}\n")
        due += is_meant
    answer = f"npdu {ANSWERER} unicast {I_AM}"
    third.until(lambda: len(third.told) >= begun + due, "I-Am")
    same(third.told[begun:], [answer] * due, "what answer.py answered")


def refusals(network):
    """Lines that are refused are told by their number, with a reason, and the node goes on. Those that ask for nothing aren't."""
    third, plain = network.third, network.plain
    good = ["", "# nothing", f"send {PLAIN} 010001", "#" + "x" * (LONGEST - 1), f"send {PLAIN} 01 00 0 2"]
    bad = [f"sned broadcast {WHO_IS}", "at 5000", "send 000000000000 01", f"send {PLAIN}", f"resolve {PLAIN} now", "finish now",
           f"send {PLAIN} 0100020", "\x01\x7F", f"  SEND {PLAIN} 01", f"send {PLAIN.lower()} 01 00 02 # it", "#" + "x" * LONGEST]
    begun, due = len(plain.told), []
    for line in [bad[0], *good[:3], *bad[1:], *good[3:]]:
        third.write(f"{line}\n")
        if line in bad:
            due.append(third.written)
    plain.tells(f"npdu {THIRD} unicast 010002")
    same(plain.told[begun:], [f"npdu {THIRD} unicast 01000{it}" for it in (1, 2)], "what came between refused lines")
    look_at_refusals(third, due, network.direct)
    if "sned" not in next(line for line in third.said if line.startswith("refused")):
        raise Failed(f"why a line is refused doesn't name its word: {third.said}")
    return len(due)


def look_at_refusals(third, due, port):
    """That it said where it accepts, and these refusals, each with a reason."""
    third.until(lambda: len(third.said) > len(due), f"refusals of the lines {due}")
    same(third.said[0], f"bsc: node {THIRD} accepts ws://127.0.0.1:{port}/ as dc.bsc.bacnet.org", "what the third node said first")
    same([line.split(": ")[0] for line in third.said[1:]], [f"refused line {number}" for number in due], "what the third node said")
    if not all(line.partition(": ")[2].strip() for line in third.said[1:]):
        raise Failed(f"a line is refused without a reason: {third.said}")


def burst(network):
    """Many lines at once: each is acted on once and in order, and each that is refused has its number."""
    third, plain = network.third, network.plain
    begun, refused = len(plain.told), [int(line.split()[2].rstrip(":")) for line in third.said[1:]]
    text, due = [], []
    for number in range(BURST):
        text.append(f"send {PLAIN} 0100{number:04X}\n" if number % 100 else f"sned {PLAIN}\n")
        if number % 100:
            due.append(f"npdu {THIRD} unicast 0100{number:04X}")
        else:
            refused.append(third.written + number + 1)
    third.write("".join(text))
    plain.until(lambda: len(plain.told) >= begun + len(due), f"{len(due)} NPDUs of lines that came at once")
    same(plain.told[begun:], due, "what came of lines that came at once")
    look_at_refusals(third, refused, network.direct)


def latency(network):
    """How long it takes from a line's writing at one node until another node tells what came of it: the median, and the most. A busy
    machine may need another try."""
    for _ in range(TRIES):
        times = timed(network.third, network.plain)
        median, most = statistics.median(times), max(times)
        if median <= MEDIAN and most <= EACH:
            return median, most
    raise Late(f"from a line until it was told at another node it took {1000 * median:.1f} ms in the median, and {1000 * most:.0f} ms "
               f"at most, where {1000 * MEDIAN:.0f} and {1000 * EACH:.0f} are allowed", HOLD_UP)


def timed(third, plain):
    """The times of some lines. Half of them come at once when the one before was told, and the others some time later."""
    times = []
    for number in range(TIMED):
        if number % 2:
            time.sleep(random.uniform(0.001, 0.06))
        place = len(plain.told)
        begun = time.monotonic()
        third.write(f"send {PLAIN} 0100AA{number:02X}\n")
        plain.until(lambda: len(plain.told) > place, f"NPDU of the line {number}")
        times.append(plain.times[place] - begun)
        same(plain.told[place:], [f"npdu {THIRD} unicast 0100AA{number:02X}"], "what came of one line")
    return times


def ticks(pid):
    """What a process has used, in seconds of a processor."""
    fields = Path(f"/proc/{pid}/stat").read_text().rpartition(")")[2].split()
    return (int(fields[11]) + int(fields[12])) / os.sysconf("SC_CLK_TCK")


def idle(network):
    """Nodes that get no lines use no processor: the greatest part of one that a node used."""
    nodes = network.nodes()
    before, begun = {who: ticks(pid) for who, pid in nodes.items()}, time.monotonic()
    time.sleep(IDLE)
    seconds = time.monotonic() - begun
    used = {who: (ticks(pid) - before[who]) / seconds for who, pid in nodes.items()}
    if max(used.values()) >= MOST_IDLE:
        raise Failed(f"idle nodes use the processor, in percent: { {who: round(100 * part, 2) for who, part in used.items()} }")
    return max(used.values())


def failover(network):
    """The primary hub is killed: each node uses the failover at once, and the asker gets its answer again."""
    asker, begun = network.asker, {child: len(child.told) for child in network.children}
    network.hubs[0].kill()
    for child in network.children:
        place = child.tells("hub none", begun[child])
        child.tells("hub failover", place)
    # Its first question may have come to a hub at which nobody was.
    time.sleep(0.3)
    place, asked = len(asker.told), f"npdu {ASKER} broadcast {WHO_IS}"
    before = network.plain.told.count(asked)
    asker.write("\n")
    asker.tells(ANSWER, place)
    network.plain.until(lambda: network.plain.told.count(asked) > before, "question by the failover hub")


def ends(network):
    """By the end of the input, behind a last line that lacks its end; by the line finish, with the input still open; and a program that
    is killed leaves no node."""
    third, plain, last = network.third, network.plain, ["hub none", "finished"]
    plain.write(f"send {THIRD} 0100FF")
    plain.close()
    plain.ends(last)
    third.tells(f"npdu {PLAIN} unicast 0100FF")
    third.write("finish\n")
    third.ends(last)
    network.asker.close()
    network.asker.ends(last)
    for child in network.asker, network.answerer, plain:
        same(child.said, [], f"what {child.who} said")
    node = node_of(network.answerer)
    network.answerer.process.kill()
    network.answerer.process.wait(PATIENCE)
    end = time.monotonic() + PATIENCE
    while is_there(node):
        if time.monotonic() > end:
            raise Late("a node goes on where the program that started it was killed")
        time.sleep(0.02)


def is_there(pid):
    """Whether a process hasn't ended. Whoever took it over may not have waited for it."""
    try:
        return Path(f"/proc/{pid}/stat").read_text().rpartition(")")[2].split()[0] not in "ZX"
    except OSError:
        return False


def all_scenes(folder):
    network = Network(folder)
    try:
        network.start()
        asks_and_answers(network)
        ranges(network)
        refused = refusals(network)
        burst(network)
        median, most = latency(network)
        used = idle(network)
        failover(network)
        ends(network)
    except Late as why:
        network.judge(why)
    finally:
        network.close()
    through = "over TLS" if network.tls else "without TLS"
    return (f"a program asked {through}, another answered, also by the failover hub; {refused} lines were refused, and {BURST} that came at "
            f"once met; a line was told at another node after {1000 * median:.2f} ms in the median of {TIMED}, {1000 * most:.1f} at most; an idle "
            f"node used {100 * used:.2f} % of a processor at most")


def main():
    watch = Watch()
    try:
        with tempfile.TemporaryDirectory() as folder:
            print(f"check-sidecar: {all_scenes(Path(folder))}")
    except Late as why:
        if watch.longest > why.excuse:
            watch.judge(str(why))
        raise
    except OSError as why:
        raise Failed(repr(why)) from why
    finally:
        watch.is_over = True


try:
    main()
except TooBusy as why:
    print(f"check-sidecar: not all of it could be met, the machine is too busy: {why}")
except Failed as why:
    sys.exit(f"check-sidecar: {why}")
