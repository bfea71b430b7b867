"""Starts a hub, or a relay that does the same work, lets a driver meet it, and compares the counts that both tell."""
import os
import re
import shutil
import subprocess
import sys
import tempfile
import time
from pathlib import Path

HERE = Path(__file__).resolve().parent
ROOT = HERE.parents[1]

SETTINGS = """[hub]
vmac = "0200000000FF"
uuid = "00112233-4455-6677-8899-aabbccddeeff"
port = {port}
max_bvlc = 1600
max_npdu = 1497
rows = {rows}
outbox = 64
"""

# How many rows a hub of bsc is told to have, where not more links are there at once.
ROWS = 1024
# How many seconds a hub may take to end, once its links have.
PATIENCE = 60


class Failed(Exception):
    pass


class TooBusy(Failed):
    """The machine gave a driver so little time that a hub may have done right."""


# Another program than the one that ./bsc builds and starts may be named, as one that was built elsewhere.
PROGRAM = os.environ.get("BSC", str(ROOT / "bsc"))
# Another program of bsc, as one of an earlier commit: it is met in place of the relays.
BEFORE = os.environ.get("BEFORE")
# The kind of a hub of bsc that writes journals, and that of limit.c which writes lines as long.
RECORDED = "bsc --journal"
LIMIT_RECORDED = "limit --journal"
# The kinds of limit.c in each of its shapes. The first is the one that it has where none is named.
SHAPES = [f"limit {shape}" for shape in ("epoll", "ppoll", "threads", "direct")]
# How many octets an audit takes.
AUDITED = 1 << 28


class Bench:
    """The programs of this folder, built anew in a folder that is removed at the end."""

    def __init__(self):
        self.work = Path(tempfile.mkdtemp())
        self.hubs = {"bsc": [PROGRAM, "hub"]}
        # Where journals are put: another folder may be named, as one on a disk or in memory.
        self.journals = Path(tempfile.mkdtemp(dir=os.environ.get("JOURNALS")))

    def __enter__(self):
        return self

    def __exit__(self, *_):
        shutil.rmtree(self.work, ignore_errors=True)
        shutil.rmtree(self.journals, ignore_errors=True)

    def add_recorded(self):
        """The hub of bsc that writes journals, and the relay of its shape that writes lines as long, where that can be built."""
        self.hubs[RECORDED] = self.hubs["bsc"]
        if "limit" in self.hubs or self.compile("limit"):
            self.hubs["limit"] = self.hubs[LIMIT_RECORDED] = [str(self.work / "limit")]

    def add_shapes(self):
        """The shapes of limit.c; False where it can't be built."""
        if not self.compile("limit"):
            return False
        for kind in SHAPES:
            self.hubs[kind] = [str(self.work / "limit"), kind.split()[1]]
        return True

    def compile(self, name, *words):
        """Builds a program by gcc; False where that can't be done."""
        if not shutil.which("gcc"):
            return False
        call = ["gcc", "-std=gnu11", "-O2", "-pthread", "-o", self.work / name, HERE / f"{name}.c", *words]
        return subprocess.run(call, stderr=subprocess.DEVNULL).returncode == 0

    def add_peers(self):
        """The relays whose libraries are installed, and the relay that has the hub's own shape; or another program of bsc alone."""
        if BEFORE:
            self.hubs["before"] = [BEFORE, "hub"]
            return
        node = shutil.which("node") or shutil.which("nodejs")
        library = "require('./interop/websocket/messages.js').library()"
        if node and subprocess.run([node, "-e", library], cwd=ROOT, stderr=subprocess.DEVNULL).returncode == 0:
            self.hubs["node-ws"] = [node, str(HERE / "relay.js")]
        if self.compile("relay", "-lwebsockets"):
            self.hubs["libwebsockets"] = [str(self.work / "relay")]
        if self.compile("limit"):
            self.hubs["limit"] = [str(self.work / "limit")]

    def start(self, kind, links, at_once=None):
        return Hub(self, kind, links, at_once)

    def meet(self, kind, links, driver, *words, seconds=120, at_once=None):
        """Starts a hub for a number of links, of which so many are there at once as told, lets a driver meet it, and compares
        the counts. Gives the driver's figures back, as a dictionary with its name at "name"."""
        with self.start(kind, links, at_once) as hub:
            told = hub.drive(driver, *words, seconds=seconds)
            counts = hub.end()
        due = re.search("^hub counts .*$", told, re.M)
        if not due:
            raise Failed(f"the driver told no counts: {told}")
        compare_counts(kind, counts, due[0])
        figures = figures_of(told.splitlines()[0])
        if kind == RECORDED:
            figures |= look_at_journals(self.journals, links, counts)
        return figures


class Hub:
    def __init__(self, bench, kind, links, at_once):
        self.bench, self.kind, self.links, self.at_once = bench, kind, links, at_once

    def __enter__(self):
        work = self.bench.work
        self.port = int(subprocess.run([work / "driver", "port"], check=True, capture_output=True).stdout)
        settings, said = work / f"hub.{self.port}.toml", work / f"said.{self.port}"
        settings.write_text(SETTINGS.format(port=self.port, rows=max(ROWS, self.at_once or 0)))
        if self.kind in ("bsc", "before", RECORDED):
            words = [str(settings), "--sessions", str(self.links)]
            if self.kind == RECORDED:
                for file in self.bench.journals.iterdir():
                    file.unlink()
                words += ["--journal", str(self.bench.journals / "j")]
        else:
            words = [str(self.port), str(self.links)]
            if self.kind == LIMIT_RECORDED:
                for file in self.bench.journals.iterdir():
                    file.unlink()
                words = ["--journal", str(self.bench.journals / "l"), *words]
            # This one has two loops, for few links at once and for many.
            if self.kind == "libwebsockets" and self.at_once:
                words.append(str(self.at_once))
        self.said = open(said, "w")
        self.process = subprocess.Popen(self.bench.hubs[self.kind] + words, stdout=subprocess.PIPE, stderr=self.said, text=True)
        # The program may be built first, where it is ./bsc.
        while f" serves ws://127.0.0.1:{self.port}/" not in said.read_text():
            if self.process.poll() is not None:
                raise Failed(f"{self.kind} doesn't serve: {said.read_text()}")
            time.sleep(0.01)
        return self

    def drive(self, driver, *words, seconds):
        what = [words[0]] if driver == "driver" else []
        rest = [str(word) for word in words[len(what):]]
        call = [str(self.bench.work / driver), *what, str(self.port), str(self.process.pid), *rest]
        try:
            done = subprocess.run(call, stdout=subprocess.PIPE, stderr=subprocess.PIPE, text=True, timeout=seconds)
        except subprocess.TimeoutExpired:
            raise Failed(f"{self.kind}: {driver} {' '.join(map(str, words))} took more than {seconds} s") from None
        if done.returncode:
            raise (TooBusy if done.returncode == 3 else Failed)(f"{self.kind}: {driver} {' '.join(map(str, words))}: {done.stdout}{done.stderr}")
        return done.stdout

    def end(self):
        try:
            told, _ = self.process.communicate(timeout=PATIENCE)
        except subprocess.TimeoutExpired:
            raise Failed(f"{self.kind} doesn't end after {self.links} links") from None
        if self.process.returncode:
            raise Failed(f"{self.kind} ended with status {self.process.returncode}: {told}")
        return told.strip()

    def __exit__(self, *_):
        if self.process.poll() is None:
            self.process.kill()
            self.process.wait()
        self.said.close()


def look_at_journals(folder, links, counts):
    """The journals of a hub whose links all joined, left, and sent what its counts tell: each entry has its line, and each place is
    there once. Where they aren't too long, an audit has to find them legal. Gives how many octets they have, and how many lines."""
    files = [folder / f"j.{number}" for number in range(links + 1)]
    if sorted(files) != sorted(folder.iterdir()):
        raise Failed(f"the journals aren't one for the hub and for each of {links} links")
    calls, places, octets = {}, set(), 0
    for file in files:
        with file.open("rb") as lines:
            for line in lines:
                octets += len(line)
                if not line.endswith(b"\n"):
                    raise Failed(f"{file.name} ends in the middle of a line")
                place, _, call = line[:60].split(b" ")[:3]
                if place == b"hub":
                    continue
                places.add(int(place))
                calls[call] = calls.get(call, 0) + 1
    told = {name: int(number) for name, number in re.findall(r"(\w+)=(\d+)", counts)}
    due = {b"connect": links, b"forward": told["unicasts"] + told["broadcasts"], b"leave": links, b"stop": 1}
    total = sum(due.values())
    if calls != {call: many for call, many in due.items() if many} or places != set(range(total)):
        raise Failed(f"the journals have {calls}, with {len(places)} places; due are {due}")
    if octets <= AUDITED:
        with subprocess.Popen(["cat", *files], stdout=subprocess.PIPE) as all_of_them:
            audit = subprocess.run([PROGRAM, "audit"], stdin=all_of_them.stdout, capture_output=True, text=True)
        if audit.stdout != f"legal {total}\n":
            raise Failed(f"the audit of {total} entries says {audit.stdout!r}")
    return {"octets": octets, "lines": total, "audited": octets <= AUDITED}


def figures_of(line):
    name, *pairs = line.split()
    return {"name": name} | {key: float(number) for key, number in (pair.split("=") for pair in pairs)}


def compare_counts(kind, told, due):
    """Of the counts that are due a number may be `a..b`, any from a to b, and a name the sum of some."""
    if not re.fullmatch(r"hub counts( \w+=\d+)+", told):
        raise Failed(f"{kind} told other lines than its counts: {told}")
    counts = {name: int(number) for name, number in (pair.split("=") for pair in told.split()[2:])}
    left = set(counts)
    for pair in due.split()[2:]:
        names, number = pair.split("=")
        least, *most = map(int, number.split(".."))
        left -= set(names.split("+"))
        if not least <= sum(counts[name] for name in names.split("+")) <= (most or [least])[0]:
            raise Failed(f"{kind} counted otherwise: {names}\n  told {told}\n  due  {due}")
    if left:
        raise Failed(f"{kind} counted {left}, of which nothing is due")


def allow_descriptors(least):
    """Three descriptors a link in a hub, and one in a driver. False where so many aren't allowed."""
    import resource
    most = resource.getrlimit(resource.RLIMIT_NOFILE)[1]
    resource.setrlimit(resource.RLIMIT_NOFILE, (most, most))
    return most >= least
