"""Plays a script against a hub: line by line, each when what is due for the one before has come."""
import asyncio
import time
from typing import NamedTuple

from conform import peers
from conform.events import Coming, plain

LEAVING = 5  # seconds in which all peers close
DRAINED = 1.0  # seconds without a message, behind which all has come that waited
FLOODED = 10  # times the patience that a hub has behind a flood
QUIET, LONG_QUIET = 0.08, 1.0  # seconds in which nothing more is to come, at least and at most
SLOWER, FORGETS = 4, 0.9  # times as long as what was due took; what is kept of that time at the next
LOST = 20  # seconds in which a run may wait in vain before it waits less
INSTEAD = 0.3  # seconds that what is due still has, where something else has come, or something was missing before


class Sent(NamedTuple):
    """What a peer did: a step of the script."""

    step: int


class Came(NamedTuple):
    """What came to a peer, while a step was played."""

    step: int
    event: object


class Pace:
    """How long is waited, in seconds: for what is due, and for what isn't. Where much that is due doesn't come, it is waited for
    less: a run ends in time, whatever the hub does."""

    def __init__(self, patience, took):
        self.longest, self.took = patience, took
        self.lost = 0.0

    @property
    def quiet(self):
        """How long nothing more is to come: some times as long as what was due took of late."""
        return min(LONG_QUIET, max(QUIET, SLOWER * self.took))

    def saw(self, took):
        """What was due came within this time."""
        self.took = max(took, FORGETS * self.took)

    def patience(self, missed):
        """How long is waited for what is due, in a script in which so often something was missed."""
        if missed > 1:
            return self.quiet
        return INSTEAD if missed or self.lost > LOST else self.longest


class Play:
    """One script at one hub. `log` is what happened, in the order of the clock."""

    def __init__(self, uri, tls, pace, floods=False):
        self.uri, self.tls, self.pace, self.floods = uri, tls, pace, floods
        self.peers, self.opened = {}, []  # those that are open, by their names, and all that were
        self.log, self.waiting = [], []
        self.step, self.begun = 0, None
        self.missed = 0  # how often something that was due hasn't come in time
        self.strange = False  # whether something came that isn't due
        self.arrival = asyncio.Event()

    def tell(self, event):
        self.log.append(Came(self.step, event))
        found = plain(event)
        due = next((it for it in self.waiting if is_met(it, found)), None)
        if due is None:
            self.strange = True
        else:
            self.waiting.remove(due)
        self.arrival.set()

    async def play(self, steps, dues, scale, longest):
        """Plays all steps, and gives back the log. A millisecond of the script lasts `scale` seconds. What isn't done after
        `longest` seconds is left out: a hub that doesn't read any more keeps a peer from sending."""
        try:
            await asyncio.wait_for(self.play_all(steps, dues, scale), longest)
        except asyncio.TimeoutError:
            pass
        finally:
            if self.opened:
                await asyncio.wait([asyncio.ensure_future(it.drop()) for it in self.opened], timeout=LEAVING)
        return self.log

    async def play_all(self, steps, dues, scale):
        for self.step, (step, due) in enumerate(zip(steps, dues)):
            if step.words[0] == "at":
                await self.pass_until(int(step.words[1]) * scale)
            self.waiting += due.events
            self.log.append(Sent(self.step))
            await self.do(step)
            if step.waits:
                await self.wait(self.step, steps, dues)
        await asyncio.sleep(self.pace.quiet)

    async def pass_until(self, seconds):
        """Waits until so much time has passed since the script's clock was first set."""
        now = time.monotonic()
        self.begun = now if self.begun is None else self.begun
        await asyncio.sleep(max(0.0, self.begun + seconds - now))

    async def do(self, step):
        what, *words = step.words
        if what == "open":
            ws = await peers.opened(self.uri, self.tls, self.floods)
            self.peers[words[0]] = peers.Peer(words[0], ws, self.tell)
            self.opened.append(self.peers[words[0]])
        elif what == "in":
            await self.peers[words[0]].send(step.octets)
        elif what == "text":
            await self.peers[words[0]].send("text")
        elif what == "drop":
            await self.peers.pop(words[0]).drop()
        elif what == "hold":
            self.peers[words[0]].hold()
        elif what == "free":
            self.peers[words[0]].free()
            await self.drain()

    async def drain(self):
        """Waits until nothing more comes of what an outbox and sockets held."""
        self.arrival.clear()
        while True:
            try:
                await asyncio.wait_for(self.arrival.wait(), DRAINED)
            except asyncio.TimeoutError:
                return
            self.arrival.clear()

    async def wait(self, at, steps, dues):
        """Waits for what is due. Where nothing is, and another peer goes on, it waits until the hub will have seen this step."""
        begun = time.monotonic()
        until = begun + self.pace.patience(self.missed) * (FLOODED if self.floods else 1)
        while self.waiting and time.monotonic() < until:
            self.arrival.clear()
            if self.strange:
                until = min(until, time.monotonic() + INSTEAD)
                self.strange = False
            try:
                await asyncio.wait_for(self.arrival.wait(), max(0.0, until - time.monotonic()))
            except asyncio.TimeoutError:
                break
        step, due = steps[at], dues[at]
        if due.events and not self.waiting and step.words[0] != "at" and not self.floods:
            self.pace.saw(time.monotonic() - begun)
        if self.waiting:
            self.missed += 1
            self.pace.lost += time.monotonic() - begun
            self.waiting.clear()
        after = steps[at + 1] if at + 1 < len(steps) else None
        if after and not due.events and step.words[0] != "open" and after.words[1:2] != step.words[1:2]:
            await asyncio.sleep(self.pace.quiet)


def is_met(due, found):
    """Whether what came is what is due. Of a close it is enough that it came: its code is looked at later."""
    if isinstance(due, Coming):
        return due == found
    return type(due) is type(found) and due.name == found.name
