#!/usr/bin/env python3
"""A hub that is stopped by its stop file, met by clients of two other libraries."""
import asyncio
import os
import subprocess
import sys
import tempfile
import time
from pathlib import Path

sys.dont_write_bytecode = True
ROOT = Path(__file__).resolve().parents[2]
sys.path += [str(ROOT / "bench" / "live"), str(ROOT / "interop" / "hub")]
import bvlc  # noqa: E402
from bvlc import Identity, Message  # noqa: E402
from clients import LIBRARIES  # noqa: E402
from entries import entries_of, lines_of, receivers  # noqa: E402
from live import Failed, TooBusy  # noqa: E402
from nodes import Watch, free_port  # noqa: E402
from served import BROKEN, PATIENCE, audit, builds, has_libraries, house, same  # noqa: E402

# Seconds: within which a hub ends whose peers have all joined and answer; the waits of one whose peers don't, by its settings; and
# how much later than such a wait its end may be.
IN_ORDER, CONNECT_WAIT, DISCONNECT_WAIT, LATE = 2, 4, 2, 1.5
# How long a scene may take, in seconds.
LIMIT = 10 * PATIENCE
WHO_IS = bytes.fromhex("0120FFFF00FF1008")


def somebody(letter):
    return Identity(bytes.fromhex(f"02000000000{letter}"), bytes.fromhex(letter * 32))


class Stopping:
    """A hub's stop file, from the moment it is made: when it was gone, and what the hub had told by then."""

    def __init__(self, hub, file):
        self.hub, self.file, self.told, self.begun = hub, file, None, time.monotonic()
        file.touch()

    async def gone(self, seconds):
        """Waits until the hub has removed the file: all is written by then."""
        while self.file.exists():
            if time.monotonic() > self.begun + seconds:
                raise Failed(f"the stop file is there after {seconds} s")
            await asyncio.sleep(0.002)
        took = time.monotonic() - self.begun
        self.told, self.octets = self.hub.told(), self.hub.all_journals()
        return took

    async def ends(self, seconds):
        """The hub ends in order: nothing is written behind the end of its file."""
        took = await self.gone(seconds)
        same(await self.hub.ended(), 0, "the status of a hub that was stopped")
        same((self.hub.told(), self.hub.all_journals()), (self.told, self.octets), "what a hub had written when it removed its stop file")
        return took


def look_at(it, stopping, joined):
    """The journals: one Stop, the counts told, and behind it what the sessions of those who had joined did. What a guest got is what had
    entered before the Stop, and was taken."""
    same(audit(stopping.octets)[0], 0, "the audit of a hub that was stopped")
    everything = sorted(entries_of(stopping.octets), key=lambda entry: entry.place)
    stops = [entry for entry in everything if entry.call == "stop"]
    same(len(stops), 1, "how many Stops there are")
    same(lines_of(it.hub.journal(0))[1:], [f"{stops[0].place} 0 stop {stops[0].reply}"], "the lines of the hub's own journal behind its first")
    same(stopping.told, f"hub {stops[0].reply}\n", "what the hub told at its end")
    behind = [entry for entry in everything if entry.place > stops[0].place]
    allowed = {("leave", "gone stopped"), ("forward", "stopped"), ("forward", "notcurrent stopped"), ("connect", "stopped")}
    found = {(entry.call, " ".join(word for word in entry.reply.split() if not word.isdigit())) for entry in behind}
    if not found <= allowed:
        raise Failed(f"behind the Stop stands {found - allowed}")
    conns = {guest: int(it.hub.entries(it.number_of(guest))[0].reply.split()[1]) for guest in joined}
    for guest, conn in conns.items():
        entered = [entry for entry in everything if entry.call == "forward" and conn in receivers(entry)]
        last = it.hub.entries(it.number_of(guest))[-1]
        same((last.call, last.reply), ("leave", f"gone stopped {len(guest.frames)}"), "the last entry of who was asked to leave")
        same([bvlc.read(frame).payload for frame in guest.frames], [bvlc.read(entry.octets).payload for entry in entered][: len(guest.frames)],
             "what came to who was asked to leave")
    return len(everything), len(behind)


async def asked_to_leave(guest):
    await guest.is_asked_to_leave("the Disconnect-Request of a hub that stops")


# All of them answer.

async def sends(guest, other):
    """Unicasts without an end: until the link is closed."""
    number = 0
    try:
        while guest.end is None:
            await guest.give(bvlc.npdu(number & 0xFFFF, other.who.vmac, WHO_IS + number.to_bytes(4, "big")))
            number += 1
            await asyncio.sleep(0.001)
    except BROKEN:
        pass


async def in_order(folder):
    """Under traffic all are asked to leave, answer, and are closed by 1000. A new link isn't taken any more."""
    file = folder / "stop"
    async with house(folder, "--stop-file", file, prefix=folder / "j") as it:
        guests = [await it.joined(library, somebody(letter)) for letter, library in zip("ABCD", ["python", "node"] * 2)]
        at_work = [asyncio.create_task(sends(one, other)) for one, other in zip(guests[:2], guests[1::-1])]
        await asyncio.sleep(0.5)
        stopping = Stopping(it.hub, file)
        await asyncio.gather(*map(asked_to_leave, guests))
        took = await stopping.ends(PATIENCE)
        await asyncio.gather(*at_work)
        entries, behind = look_at(it, stopping, guests)
        await is_not_taken(it.hub)
    return took, f"{len(guests)} that answer, in {took:.2f} s, with {behind} of {entries} entries behind the Stop"


async def is_not_taken(hub):
    client = LIBRARIES["python"]([])
    try:
        await client.open(hub.uri)
    except BROKEN:
        return
    raise Failed("a hub that has ended takes a link")


# Some don't.

async def waited_for(folder):
    """One that doesn't answer is waited for by the disconnect wait, and one that never asked by the connect wait. The others aren't kept
    by them."""
    file = folder / "stop"
    waits = {"connect_wait_ms": 1000 * CONNECT_WAIT, "disconnect_wait_ms": 1000 * DISCONNECT_WAIT}
    async with house(folder, "--stop-file", file, prefix=folder / "j", waits=waits) as it:
        a, silent = await it.joined("python", somebody("A")), await it.joined("node", somebody("B"))
        stranger = await it.opened("python", somebody("C"))
        opened = time.monotonic()
        await asyncio.sleep(0.2)
        stopping = Stopping(it.hub, file)
        await asked_to_leave(a)
        same(time.monotonic() - stopping.begun < IN_ORDER, True, "that who answers isn't kept by who doesn't")
        await silent.comes(Message(bvlc.DISCONNECT_REQUEST, 1), "the Disconnect-Request of a hub that stops")
        await silent.closes(1000, "", "the close of who doesn't answer")
        kept = time.monotonic() - stopping.begun
        if not DISCONNECT_WAIT <= kept + 0.1 < DISCONNECT_WAIT + LATE:
            raise Failed(f"who doesn't answer is closed after {kept:.2f} s, where the disconnect wait is {DISCONNECT_WAIT} s")
        await stranger.closes(1008, "connect wait", "the close of who never asked")
        await stopping.ends(PATIENCE)
        kept = time.monotonic() - opened
        if kept > CONNECT_WAIT + LATE:
            raise Failed(f"a hub waits {kept:.2f} s for who never asked, where the connect wait is {CONNECT_WAIT} s")
        look_at(it, stopping, [a, silent])
    return f"one that doesn't answer for {DISCONNECT_WAIT} s, one that never asked for {CONNECT_WAIT} s at most"


# A file that is there.

async def left_over(folder):
    """A file that is there at the start is removed, and stops nothing."""
    file = folder / "stop"
    file.write_text("something")
    async with house(folder, "--stop-file", file, prefix=folder / "j") as it:
        same(file.exists(), False, "that a file from before is there")
        same(it.hub.said().splitlines()[0], f"bsc: the stop file {file} was there already, and is removed", "what the hub says of it")
        a = await it.joined("node", somebody("A"))
        await asyncio.sleep(0.3)
        await a.beat()
        stopping = Stopping(it.hub, file)
        await asked_to_leave(a)
        await stopping.ends(PATIENCE)
        look_at(it, stopping, [a])
    return "one whose file was there at the start"


# Nodes of bsc.

def nodes_come_back(folder):
    """The nodes go to the failover hub at once, and come back."""
    ports = " ".join(str(free_port()) for _ in range(3))
    done = subprocess.run([ROOT / "examples/network", "stop"], env={**os.environ, "PORTS": ports}, capture_output=True,
                          text=True, timeout=LIMIT)
    lines = done.stdout.splitlines()
    for who in "A", "B":
        of_node = [line.split("|", 1)[1].strip() for line in lines if line.split("|")[0].strip() == who]
        hubs = [line for line in of_node if line.startswith("hub ")]
        same(hubs[:4], ["hub primary", "hub none", "hub failover", "hub primary"], f"the hubs of node {who}")
    if done.returncode or not any(line.startswith("audit") and "| legal " in line for line in lines):
        raise Failed(f"a hub that was stopped has no legal journals: {done.stdout} {done.stderr}")
    return "two nodes went to the failover hub and came back"


async def scenes(folder):
    told, times = [], []
    for scene in in_order, waited_for, left_over:
        place = folder / scene.__name__
        place.mkdir()
        try:
            found = await asyncio.wait_for(scene(place), LIMIT)
        except asyncio.TimeoutError:
            raise Failed(f"the scene {scene.__name__} took more than {LIMIT} s") from None
        except Failed as why:
            raise Failed(f"{scene.__name__}: {why}") from None
        if scene is in_order:
            times.append(found[0])
            found = found[1]
        told.append(found)
    if max(times) >= IN_ORDER:
        raise Failed(f"a hub whose peers all answer took {max(times):.2f} s to stop, where {IN_ORDER} s are allowed")
    return told


def main():
    why = has_libraries()
    if why:
        return f"skipped, {why}"
    if not builds():
        raise Failed("the program doesn't run")
    watch = Watch()
    try:
        with tempfile.TemporaryDirectory() as folder:
            told = asyncio.run(scenes(Path(folder)))
            told.append(nodes_come_back(Path(folder)))
        return f"hubs were stopped with {'; '.join(told)}"
    except (OSError, subprocess.TimeoutExpired) as why:
        watch.judge(repr(why))
    except Failed as why:
        watch.judge(str(why))
    finally:
        watch.is_over = True


try:
    print(f"check-stop: {main()}")
except TooBusy as why:
    print(f"check-stop: not all of it could be met, the machine is too busy: {why}")
except Failed as why:
    sys.exit(f"check-stop: {why}")
