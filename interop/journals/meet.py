#!/usr/bin/env python3
"""The journals of a hub, met by clients of two other libraries: meet.py [MESSAGES [SCENE..]]

MESSAGES is how many unicasts two of them exchange in the first scene. Where scenes are named, these alone are played.
"""
import asyncio
import os
import random
import re
import signal
import subprocess
import sys
import tempfile
import time
from collections import Counter
from contextlib import contextmanager
from pathlib import Path

sys.dont_write_bytecode = True
ROOT = Path(__file__).resolve().parents[2]
sys.path += [str(ROOT / "bench" / "live"), str(ROOT / "interop" / "hub")]
import bvlc  # noqa: E402
from bvlc import Identity, Message  # noqa: E402
from entries import counts_of, entries_of, entry_of, lines_of, numbers, receivers, said_of  # noqa: E402
from live import Failed, TooBusy  # noqa: E402
from nodes import Watch, free_port  # noqa: E402
from served import BROKEN, OWN, PATIENCE, Hub, audit, builds, has_libraries, house, may_not_grow, run, same  # noqa: E402

# How many unicasts of one sender are under way at most: less than an outbox holds.
WINDOW = 16
# The longest message and NPDU of who fills outboxes.
LONGEST, NPDU = 16384, 16000
# How many hubs are killed, and how often what one left is cut at its ends.
KILLS, CUTS = 8, 8
# How long a scene may take, in seconds.
LIMIT = 10 * PATIENCE
WHO_IS = bytes.fromhex("0120FFFF00FF1008")
UNRECORDED = (1011, "")
DUPLICATE = bvlc.nak(0x22, bvlc.CONNECT_REQUEST, bvlc.NODE_DUPLICATE_VMAC)


def somebody(letter, **how):
    """Who connects: its VMAC ends with this digit, its device has nothing else."""
    return Identity(bytes.fromhex(f"02000000000{letter}"), bytes.fromhex(letter * 32), **how)


def one_to(who, number, more=b""):
    """A unicast which says its number."""
    return bvlc.npdu(number & 0xFFFF, who.vmac, WHO_IS + number.to_bytes(4, "big") + more)


def one_to_all(number, more=b""):
    return bvlc.npdu(number & 0xFFFF, bvlc.BROADCAST, WHO_IS + number.to_bytes(4, "big") + more)


class Tail:
    """The whole lines of a journal that have come since it was last looked at."""

    def __init__(self, file):
        self.file, self.at = file, file.stat().st_size

    def entries(self):
        with self.file.open("rb") as file:
            file.seek(self.at)
            octets = file.read()
        octets = octets[: octets.rfind(b"\n") + 1]
        self.at += len(octets)
        return entries_of(octets)


# What journals tell, beside what clients saw.

def conn_of(it, guest):
    """The connection of a guest: that which its journal says first."""
    word, number, *_ = it.hub.entries(it.number_of(guest))[0].reply.split()
    same(word, "joined", "the first word of a reply")
    return int(number)


def frame_of(entry, origin):
    return bvlc.passed_on(bvlc.read(entry.octets), origin).octets()


def compare(it, leavings):
    """All journals with all that the guests saw, once the hub has ended: of whom it is said how he left. Gives how many entries
    they have."""
    hub, guests = it.hub, it.guests
    files = hub.journals()
    same(list(files), list(range(len(guests) + 1)), "the numbers of the journals")
    title, *stops = lines_of(hub.journal(0))
    same(title, f"hub {OWN.vmac.hex().upper()} {OWN.device.hex().upper()} {hub.identity.max_bvlc:04X} {OWN.max_npdu:04X} "
                f"64 {hub.outbox} {1 << 52}", "the hub line")
    same(len(stops), 1, "how many lines stand behind the hub line")
    of_caller = {number: hub.entries(number) for number in files}
    conns, entered, origins = {}, {}, {}
    for guest in guests:
        number = it.number_of(guest)
        lines = lines_of(hub.journal(number))
        own = of_caller[number]
        same((len(own), {entry.caller for entry in own}), (len(lines), {number}), f"lines and callers of journal {number}")
        same((own[0].call, own[0].octets), ("connect", guest.who.octets()), f"the first entry of journal {number}")
        same([entry.octets for entry in own if entry.call == "forward"], guest.sent, f"what journal {number} says that was sent")
        places = [entry.place for entry in own]
        same(places, sorted(places), f"the order of the places of journal {number}")
        if guest not in leavings:
            same((len(own), own[0].reply.split()[0]), (1, "duplicate"), f"the one entry of journal {number}")
            continue
        same((own[0].reply.split()[0], own[-1].call), ("joined", "leave"), f"the first and the last entry of journal {number}")
        same(sum(entry.call in ("connect", "leave") for entry in own), 2, f"joining and leaving in journal {number}")
        conns[guest] = int(own[0].reply.split()[1])
        origins[conns[guest]], entered[conns[guest]] = guest.who.vmac, []
    everything = sorted((entry for own in of_caller.values() for entry in own), key=lambda entry: entry.place)
    for entry in everything:
        for conn in receivers(entry) if entry.call == "forward" else []:
            entered[conn].append(frame_of(entry, origins[entry.conn]))
    for guest, conn in conns.items():
        same(guest.frames, entered[conn], f"what came to connection {conn}")
        same(of_caller[it.number_of(guest)][-1].reply, f"gone {leavings[guest]} {len(guest.frames)}", f"how connection {conn} left")
    # The Stop is the last of all, and has the counts that the hub told.
    same(hub.told(), f"hub {of_caller[0][0].reply}\n", "what the hub told at its end")
    same((everything[-1].call, everything[-1].caller), ("stop", 0), "the last entry")
    total = len(guests) + sum(len(guest.sent) for guest in conns) + len(conns) + 1
    same(len(everything), total, "how many entries there are")
    octets = hub.all_journals()
    same(said_of(octets), (0, f"legal {total}"), "what the lines say by themselves")
    same(audit(octets), (0, f"legal {total}"), "the audit")
    same(audit(b"".join(hub.journal(number) for number in reversed(files))), (0, f"legal {total}"), "the audit in another order")
    return everything


def replies(everything):
    """How often each kind of reply was given, the numbers in it left out."""
    return Counter((entry.call, " ".join(word for word in entry.reply.split() if word.isalpha())) for entry in everything
                   if entry.call != "stop")


# The first scene.

async def exchange(one, other, messages):
    """Each sends the other half of them."""
    due = len(one.frames), len(other.frames)
    half = messages // 2
    for begin in range(0, half, WINDOW):
        for number in range(begin, min(begin + WINDOW, half)):
            await one.give(one_to(other.who, number))
            await other.give(one_to(one.who, number))
        come = min(begin + WINDOW, half)
        await one.has(due[0] + come)
        await other.has(due[1] + come)


async def fill(it, sender, receiver):
    """The receiver stops to read. Broadcasts fill up its outbox, which misses one; a unicast ends it. What is so at the moment
    stands in the sender's journal. Then it reads on, and has all that entered, and the close."""
    conn, tail = conn_of(it, receiver), Tail(it.hub.journals()[it.number_of(sender)])
    more = bytes(NPDU - len(WHO_IS) - 4)

    async def answered():
        await sender.beat()
        return tail.entries()

    await receiver.client.pause()
    for begin in range(0, 4000, 4):
        for number in range(begin, begin + 4):
            await sender.give(one_to_all(number, more))
        found = await answered()
        same(len(found), 4, "how many lines stand there for four broadcasts that are answered")
        if any(f" missed={conn} " in entry.reply for entry in found):
            break
    else:
        raise Failed("an outbox was never full")
    await sender.give(one_to(receiver.who, 1))
    same([entry.reply for entry in await answered()], [f"full {conn}"], "a unicast to a full outbox")
    await sender.give(one_to(receiver.who, 2))
    same([entry.reply for entry in await answered()], ["noholder"], "a unicast to who has ended")
    await receiver.client.resume()
    await receiver.closes(1008, "outbox full", "the close of a full outbox")


async def course(folder, messages):
    links = 10
    prefix = folder / "j"
    async with house(folder, "--sessions", links, prefix=prefix, max_bvlc=LONGEST, outbox=32) as it:
        take = {"max_bvlc": LONGEST, "max_npdu": NPDU}
        a, b = await it.joined("python", somebody("A", **take)), await it.joined("node", somebody("B", **take))
        await exchange(a, b, messages)
        # Duplicates: of a VMAC that is held, and of the hub's own.
        await it.refused("node", Identity(a.who.vmac, b"\x01" * 16), answer=DUPLICATE)
        await it.refused("python", Identity(OWN.vmac, b"\x01" * 16), answer=DUPLICATE)
        # Broadcasts, one of which is too long for who takes 1,600 octets.
        c = await it.joined("python", somebody("C"))
        for number in range(20):
            await b.give(one_to_all(number, bytes(2000) if number == 7 else b""))
        await b.beat()
        await a.has(len(a.frames) + 20)
        await c.has(19)
        # To nobody, and to itself.
        await c.give(one_to(somebody("9"), 1))
        await c.give(one_to(c.who, 2))
        await c.beat(2)
        # A takeover by the other library's client under the same VMAC, and another under a new one.
        again = await it.joined("node", a.who)
        await a.is_asked_to_leave("the Disconnect-Request of who is replaced")
        moved = await it.joined("python", Identity(somebody("D").vmac, b.who.device, LONGEST, NPDU))
        await b.is_asked_to_leave("the Disconnect-Request of who is replaced under another VMAC")
        await moved.give(one_to(again.who, 3))
        await again.has(1)
        # Outboxes that fill up, of both libraries' clients. Who sends, and who reads, goes on.
        first, second = await it.joined("python", somebody("E", **take)), await it.joined("node", somebody("F", **take))
        await fill(it, moved, first)
        await fill(it, again, second)
        # One that goes without a word.
        last = await it.joined("node", somebody("8"))
        await again.give(one_to(last.who, 4))
        await last.has(1)
        await last.client.close()
        await last.closes(1000, "", "the reply to a close")
        for guest in (c, again, moved):
            await guest.beat(4)
            await guest.leaves()
        same(len(it.guests), links, "how many links were made")
        same(await it.hub.ended(), 0, "the status of a hub whose sessions have ended")
        everything = compare(it, {a: "replaced", b: "replaced", c: "left", again: "left", moved: "left", first: "full",
                                  second: "full", last: "left"})
    found = replies(everything)
    for what in (("connect", "joined"), ("connect", "joined replacing"), ("connect", "duplicate"), ("connect", "duplicate hub"),
                 ("forward", "sent"), ("forward", "full"), ("forward", "noholder"), ("forward", "sentall"),
                 ("leave", "gone left"), ("leave", "gone replaced"), ("leave", "gone full")):
        if not found[what]:
            raise Failed(f"no entry is {what}")
    told = counts_of(everything[-1].reply)
    same((told["joined"], told["replaced"], told["refused"], told["full"]), (8, 2, 2, 2), "counts that are known")
    missed = sum(len(numbers(entry.reply.split()[2][7:])) for entry in everything if entry.reply.startswith("sentall"))
    skipped = sum(entry.reply.count("skipped=") and not entry.reply.endswith("skipped=-") for entry in everything)
    same((told["missed"], skipped >= 1), (missed, True), "broadcasts that were missed, and skipped")
    return f"{len(everything)} entries of {links} links, {found['forward', 'sent']} unicasts, {missed} misses, 2 full outboxes: legal"


# A hub that is killed.

async def sends(guest, others):
    """Rounds of unicasts and a broadcast, each answered before the next, until the hub is gone."""
    number = 0
    while True:
        for other in others:
            await guest.give(one_to(other.who, number))
            number += 1
        await guest.give(one_to_all(number))
        number += 1
        await guest.beat()


async def until_it_is_gone(guest, others):
    try:
        await sends(guest, others)
    except BROKEN:
        pass
    except Failed as why:
        # A close that comes in place of an answer: the link broke off.
        if guest.end is None:
            raise
        same(guest.end[0], 1006, f"how a link of a hub ends that is killed ({why})")
    await guest.drain()


def whole_lines(hub):
    """The whole lines of all journals, and how many of them end with a part of one."""
    parts = [it.read_bytes() for it in hub.journals().values()]
    return b"".join(it[: it.rfind(b"\n") + 1] for it in parts), sum(it[-1:] not in (b"", b"\n") for it in parts)


def up_to(octets, place):
    """The lines of entries before a place, and all other lines."""
    kept = [line for line in lines_of(octets) if not (entry := entry_of(line)) or entry.place < place]
    return "".join(f"{line}\n" for line in kept).encode()


# How docs/AUDIT.md takes whole lines, and of these the entries before a place.
WHOLE = 'whole() { for it in "$@"; do head -n "$(wc -l < "$it")" "$it"; done; }'
BEFORE = "awk '$1 + 0 < 4711'"


def by_the_page(hub, words):
    page = (ROOT / "docs/AUDIT.md").read_text()
    if WHOLE not in page or BEFORE not in page:
        raise Failed("docs/AUDIT.md has other commands")
    return subprocess.run(["bash", "-c", f"{WHOLE}\n{words}", "-", *hub.journals().values()], capture_output=True, check=True).stdout


def look_at_what_is_there(hub):
    """What is left of journals that lack lines: each has whole lines, and the first part of one more at most. An audit says so of
    all of it, of the whole lines, and of those before the first place that is missing. Gives what it came to."""
    mended = hub.all_journals()
    whole, cut = whole_lines(hub)
    same(by_the_page(hub, 'whole "$@"'), whole, "the whole lines by docs/AUDIT.md")
    by_itself = said_of(mended)
    found = audit(mended)
    if by_itself[0] == 0 and found[0] != 0 and cut:
        # A line that lacks its last digits looks whole, and tells another reply.
        if found not in [(10, f"illegal {entry.place}") for entry in entries_of(mended)]:
            raise Failed(f"the audit of journals with lines that only look whole is {found}")
    else:
        same(found, by_itself, "the audit of all that is there")
    status, line = said_of(whole)
    same(audit(whole), (status, line), "the audit of all whole lines")
    word, place = line.split()
    if word == "missing":
        before = up_to(whole, int(place))
        same(by_the_page(hub, f'whole "$@" | {BEFORE.replace("4711", place)}'), before, "the entries before a place by docs/AUDIT.md")
        same(audit(before), (0, f"legal {place}"), "the audit of what comes before the first missing place")
    elif word != "legal":
        raise Failed(f"whole lines of a hub that was killed are {line!r}")
    entries = entries_of(whole)
    lost = set(range(max((entry.place for entry in entries), default=-1) + 1)) - {entry.place for entry in entries}
    return word, cut, len(lost)


class Left(Hub):
    """What is left of a hub: the journals with a prefix."""

    def __init__(self, prefix):
        self.prefix = prefix


def cut_at_ends(hub, folder, chance):
    """What a crash of the machine might leave of these journals: some lack octets at their ends. Gives what such came to."""
    said = Counter()
    for number in range(CUTS):
        left = Left(folder / f"cut{number}")
        for journal, file in hub.journals().items():
            octets = file.read_bytes()
            # At least the hub line and the first entry of each stay.
            least = octets.find(b"\n") + 1
            lost = chance.choice([0, 1, 2, chance.randrange(60), chance.randrange(600)]) if journal else 0
            Path(f"{left.prefix}.{journal}").write_bytes(octets[: max(least, len(octets) - lost)])
        word, cut, _ = look_at_what_is_there(left)
        said[f"{word}, {'with' if cut else 'without'} a cut line"] += 1
    return said


async def killed(folder, how, seconds):
    prefix = folder / "j"
    async with house(folder, prefix=prefix, outbox=1024) as it:
        guests = [await it.joined(library, somebody(letter)) for letter, library in zip("ABCD", ["python", "node"] * 2)]
        at_work = [asyncio.create_task(until_it_is_gone(guest, [other for other in guests if other is not guest])) for guest in guests]
        await asyncio.sleep(seconds)
        for task in at_work:
            if task.done():
                raise task.exception() or Failed("a client ended before its hub")
        it.hub.process.send_signal(how)
        status = it.hub.process.wait(PATIENCE)
        same(status, -how, "the status of a hub that was ended by a signal")
        await asyncio.wait_for(asyncio.gather(*at_work), PATIENCE)
        same((it.hub.told(), len(it.hub.said().splitlines())), ("", 1), "what a hub wrote that was killed")
        same(list(it.hub.journals()), [0, 1, 2, 3, 4], "the numbers of the journals")
        same(len(lines_of(it.hub.journal(0))), 1, "lines of the hub's own journal, behind whose first nothing was")
        word, cut, lost = look_at_what_is_there(it.hub)
        cuts = cut_at_ends(it.hub, folder, random.Random(seconds)) if how == signal.SIGTERM else Counter()
        if lost > len(guests):
            raise Failed(f"{lost} places are missing, of {len(guests)} sessions")
        for guest in guests:
            number = it.number_of(guest)
            octets = it.hub.journal(number)
            entries = entries_of(octets[: octets.rfind(b"\n") + 1])
            same((entries[0].call, entries[0].octets), ("connect", guest.who.octets()), "the first entry of who had joined")
            forwards = [entry.octets for entry in entries[1:]]
            same(forwards, guest.sent[: len(forwards)], "the entries of who sent, in order")
            # Its line is there before a sender has an answer to what it sends next; a receiver may have a frame before its line.
            came = [other.frames for other in guests if other is not guest]
            numbered = [int.from_bytes(frame[-4:], "big") for frames in came for frame in frames if bvlc.read(frame).origin == guest.who.vmac]
            least = max(guest.answered, max(numbered, default=0))
            if len(forwards) < least:
                raise Failed(f"{len(forwards)} lines of who had answers to {guest.answered} messages, and whose message {max(numbered, default=None)} came")
        # The same prefix is refused afterwards, and what is there stays as it is.
        before = {number: file.read_bytes() for number, file in it.hub.journals().items()}
    await is_refused(folder, prefix, f"bsc: the journal {prefix}.0 is there already, and isn't written over")
    same({number: file.read_bytes() for number, file in it.hub.journals().items()}, before, "journals that were there")
    return word, cut, cuts, sum(map(len, before.values()))


async def kills(folder):
    chance = random.Random(7)
    said, cuts, octets = Counter(), Counter(), 0
    for number in range(KILLS):
        place = folder / f"kill{number}"
        place.mkdir()
        how = signal.SIGTERM if number == KILLS - 1 else signal.SIGKILL
        word, cut, more, size = await asyncio.wait_for(killed(place, how, 0.3 + chance.random()), LIMIT)
        said[f"{word}, {'with' if cut else 'without'} a cut line"] += 1
        cuts += more
        octets += size
    told = ["; ".join(f"{many} {what}" for what, many in sorted(it.items())) for it in (said, cuts)]
    return f"{KILLS} hubs ended by a signal under traffic, {octets >> 10} KiB of journals ({told[0]}), and with ends cut off ({told[1]})"


# Prefixes that can't be.

async def is_refused(folder, prefix, line, status=4):
    """A hub with this prefix doesn't begin: it serves nothing, and says why."""
    hub = Hub(folder, prefix=prefix)
    try:
        same(await hub.ended(), status, f"the status of a hub with the prefix {prefix}")
        same((hub.told(), hub.said()), ("", f"{line}\n" if line else ""), "what it writes")
    finally:
        hub.kill()


async def prefixes(folder):
    (folder / "file").write_text("no folder")
    for prefix, error in (
        (folder / "no" / "such" / "j", "No such file or directory (os error 2)"),
        (folder / "file" / "j", "Not a directory (os error 20)"),
    ):
        await is_refused(folder, prefix, f"bsc: the journal {prefix}.0 can't be made: {error}")
    there = folder / "there.0"
    there.write_text("something\n")
    await is_refused(folder, folder / "there", f"bsc: the journal {there} is there already, and isn't written over")
    same(there.read_text(), "something\n", "a file that was there")
    # A link of the file system that leads nowhere is there, too.
    (folder / "link.0").symlink_to(folder / "nowhere")
    await is_refused(folder, folder / "link", f"bsc: the journal {folder / 'link.0'} is there already, and isn't written over")
    if (folder / "nowhere").exists():
        raise Failed("a journal was written through a link that was there")
    # The hub's own journal is begun before its port is bound: where that is taken, the journal has the hub line alone.
    async with house(folder, prefix=folder / "first") as it:
        settings = next(folder.glob(f"hub.{it.hub.port}.toml"))
        status, told, said = run("hub", settings, "--journal", folder / "second")
        same((status, told), (6, "fault link\n"), "a hub whose port is taken")
        same(audit((folder / "second.0").read_bytes()), (0, "legal 0"), "the journal of a hub that never served")
    # A file in the way of a session's journal stops the hub: its link is closed, and those that are there are asked to leave.
    (folder / "way.2").write_text("something\n")
    async with house(folder, prefix=folder / "way") as it:
        a = await it.joined("python", somebody("A"))
        b = await it.opened("node", somebody("B"))
        await b.closes(1001, "", "the close of who has no journal")
        await a.is_asked_to_leave("the Disconnect-Request of a hub that stops")
        same(await it.hub.ended(), 4, "the status of a hub that can't begin a journal")
        same(it.hub.told(), "", "what it tells")
        same(it.hub.said().splitlines()[1:], [f"bsc: the journal {folder / 'way.2'} is there already, and isn't written over"], "what it says")
        same((folder / "way.2").read_text(), "something\n", "a file that was there")
        octets = it.hub.journal(0) + it.hub.journal(1)
        same(audit(octets), (0, "legal 3"), "the journals of a hub that was stopped so")
        same([entry.call for entry in sorted(entries_of(octets), key=lambda it: it.place)], ["connect", "stop", "leave"], "its entries")
    return "prefixes that can't be are refused"


# Links that never ask.

async def shake_hands(port):
    """The handshake of a stream, which goes behind it."""
    reader, writer = await asyncio.open_connection("127.0.0.1", port)
    writer.write(b"GET / HTTP/1.1\r\nHost: 127.0.0.1\r\nUpgrade: websocket\r\nConnection: Upgrade\r\n"
                 b"Sec-WebSocket-Key: dGhlIHNhbXBsZSBub25jZQ==\r\nSec-WebSocket-Version: 13\r\n"
                 b"Sec-WebSocket-Protocol: hub.bsc.bacnet.org\r\n\r\n")
    head = await reader.readuntil(b"\r\n\r\n")
    same(head.partition(b"\r\n")[0], b"HTTP/1.1 101 Switching Protocols", "the answer to a handshake")
    writer.close()


async def silent(folder):
    """Links whose peers never ask to join leave no file; and who asks behind them has one, with its number."""
    clients, streams = 100, 10_000
    links = clients + streams
    async with house(folder, "--sessions", links + 1, prefix=folder / "j") as it:
        for _ in range(clients):
            guest = await it.opened("python", somebody("A"))
            await guest.client.close()
            await guest.closes(1000, "", "the reply to a close")
        for _ in range(streams):
            await shake_hands(it.hub.port)
        same(list(it.hub.journals()), [0], "the journals of links that never asked")
        last = await it.joined("node", somebody("A"))
        same(list(it.hub.journals()), [0, links + 1], "the journals with that of who asked")
        await last.leaves()
        same(await it.hub.ended(), 0, "the status of a hub most of whose links never asked")
        same(len(it.hub.said().splitlines()), 1, "how many lines it says")
        same(audit(it.hub.all_journals()), (0, "legal 3"), "the journals of one who joined and left")
    return f"{links} links that never asked left no file"


# Journals that can't grow.

def loses(path, error):
    return f"bsc: the journal {path} loses lines: {error}"


def takes(path):
    return f"bsc: the journal {path} takes lines again"


async def until_it_is_closed(sender, receiver, octets):
    """Sends unicasts until the sender's link is closed, each answered before the next. Gives how many were given."""
    for number in range(100000):
        await sender.give(one_to(receiver.who, number, bytes(octets)))
        await sender.ask(Message(bvlc.HEARTBEAT_REQUEST, 9))
        kind, found = await sender.next()
        if kind == "close":
            await sender.client.end()
            return len(sender.sent)
        same(found, Message(bvlc.HEARTBEAT_ACK, 9).octets(), "a Heartbeat-ACK")
    raise Failed("a journal grew without an end")


async def limited(folder):
    """The journal of one session can't get any longer. That session ends, and no other; the hub serves on, and ends in order."""
    prefix, most = folder / "j", 8192
    async with house(folder, "--sessions", 3, prefix=prefix, prepare=may_not_grow(most)) as it:
        a, b = await it.joined("python", somebody("A")), await it.joined("node", somebody("B"))
        given = await until_it_is_closed(a, b, 50)
        same(a.end, UNRECORDED, "the close of a session whose line wasn't put")
        same(it.hub.journals()[1].stat().st_size, most, "how long its journal is")
        # The message whose line was lost came all the same, and nothing else does.
        await b.has(given)
        same(b.frames[-1], bvlc.passed_on(bvlc.read(a.sent[-1]), a.who.vmac).octets(), "the frame without a line")
        await b.beat(2)
        again = await it.joined("python", a.who)
        await b.give(one_to(a.who, 1))
        await again.has(1)
        await again.leaves()
        await b.leaves()
        same(await it.hub.ended(), 4, "the status of a hub of whose sessions one lost a line")
        counts = counts_of(it.hub.told())
        same((counts["joined"], counts["replaced"], counts["unicasts"]), (3, 0, given + 1), "its counts")
        # Whole lines, and the first part of the one that was lost.
        octets = it.hub.journal(1)
        whole, _, part = octets.rpartition(b"\n")
        place = entries_of(whole)[-1].place + 1
        line = f"{place} 1 forward 1 {a.sent[-1].hex().upper()} looks 2:"
        if not line.startswith(part.decode()) and not re.fullmatch(rf"{line}\d+(?: (?:s(?:e(?:n(?:t ?)?)?)?)?)?", part.decode()):
            raise Failed(f"the last line of a journal is {part!r} in place of a first part of {line!r}")
        same(len(entries_of(whole)), given, "entries of a journal that lost one: its joining, and all but the last message")
        same(it.hub.said().splitlines()[1:], [loses(f"{prefix}.1", "File too large (os error 27)"), takes(f"{prefix}.3")], "what it says")
        look_at_what_is_there(it.hub)
        rest, _ = whole_lines(it.hub)
        same(audit(rest), (10, f"missing {place}"), "the audit without the part of a line")
        there = {entry.place for entry in entries_of(rest)}
        same(sorted(set(range(max(there))) - there), [place, place + 1], "places that are missing: the lost line, and the leave")
    return f"a journal of {most} octets that can't grow ends its session alone"


async def parted(folder):
    """The files of journals are limited: a journal goes on in another file before one is longer. Together they are legal."""
    most, messages = 4096, 160
    async with house(folder, "--sessions", 2, "--journal-octets", most, prefix=folder / "j") as it:
        a, b = await it.joined("python", somebody("A")), await it.joined("node", somebody("B"))
        for number in range(messages):
            await a.give(one_to(b.who, number))
            await b.has(number + 1)
        await a.leaves()
        await b.leaves()
        same(await it.hub.ended(), 0, "the status of a hub whose files are limited")
    files = {file.name: file.read_bytes() for file in folder.glob("j.*")}
    of_a = sorted(name for name in files if name.startswith("j.1"))
    same(of_a[:3], ["j.1", "j.1.1", "j.1.2"], "the files of who sent")
    same(set(files) - set(of_a), {"j.0", "j.2"}, "the other files")
    for name, octets in files.items():
        if len(octets) > most or not octets.endswith(b"\n"):
            raise Failed(f"{name} has {len(octets)} octets, and may have {most}, or doesn't end with a line")
    # A hub that runs: a line would take each file but the last past the limit.
    lines = [line + b"\n" for name in of_a for line in files[name].split(b"\n")[:-1]]
    same(b"".join(files[name] for name in of_a), b"".join(lines), "the lines of who sent")
    for name, newer in zip(of_a, of_a[1:]):
        if len(files[name]) + files[newer].index(b"\n") + 1 <= most:
            raise Failed(f"{newer} begins with a line for which {name} had room")
    same(audit(b"".join(files.values())), (0, f"legal {messages + 5}"), "the audit of all files")
    return f"{len(files)} files of {most} octets at most are legal together"


@contextmanager
def small_disk(folder, octets, files):
    """A file system of this size, for so many files; None where it can't be had."""
    folder.mkdir()
    mounted = subprocess.run(["mount", "-t", "tmpfs", "-o", f"size={octets},nr_inodes={files + 1}", "none", folder],
                             stderr=subprocess.DEVNULL).returncode == 0
    try:
        yield folder if mounted else None
    finally:
        if mounted:
            subprocess.run(["umount", "-l", folder], check=True)


async def disk_gets_full(folder):
    """Sessions end one by one, as they would write; so do new ones, also where no file can be made. Who sends nothing stays, and once
    there is space, who asks joins."""
    with small_disk(folder / "disk", 1 << 18, 6) as disk:
        if disk is None:
            return "no disk got full, since this user may not mount one"
        async with house(folder, prefix=disk / "j") as it:
            a, b, c = [await it.joined(library, somebody(letter)) for letter, library in zip("ABC", ["python", "node", "python"])]
            given = await until_it_is_closed(a, b, 1400)
            same(a.end, UNRECORDED, "the close on a full disk")
            await b.has(given)
            # Another session ends as it writes more than what its last page has room for.
            await until_it_is_closed(b, c, 1400)
            same(b.end, UNRECORDED, "the close of another session on a full disk")
            # A new one has no answer: its first line can't be put.
            new = await it.refused("node", somebody("D"), close=UNRECORDED)
            same(it.hub.journals()[it.number_of(new)].stat().st_size, 0, "the journal of who came to a full disk")
            # Who sends nothing is there as ever.
            await c.beat(2)
            # One file more may be made: then none.
            await it.refused("python", somebody("D"), close=UNRECORDED)
            await it.refused("node", somebody("D"), close=UNRECORDED)
            same(list(it.hub.journals()), [0, 1, 2, 3, 4, 5], "the numbers of the journals")
            await c.beat(2)
            # There is space again: nobody starts the hub anew.
            subprocess.run(["mount", "-o", "remount,size=1M,nr_inodes=64", disk], check=True)
            due = len(c.frames)
            back = await it.joined("node", somebody("D"))
            await back.give(one_to(c.who, 1))
            await c.has(due + 1)
            full = "No space left on device (os error 28)"
            first, *more = it.hub.said().splitlines()[1:]
            same(first, loses(disk / "j.1", full), "what it says of the first line that was lost")
            same(more[-2:], [loses(disk / "j.6", full), takes(disk / "j.7")], "what it says of a file that can't be made, and then can")
            # The second session may still have put a line into the last room of its file.
            if more[:-2] and more[:-2] != [takes(disk / "j.2"), loses(disk / "j.2", full)]:
                raise Failed(f"a hub on a full disk says {more}")
            look_at_what_is_there(it.hub)
        for file in disk.iterdir():
            file.unlink()
        # A disk that is full from the start: the hub line can't be put, and nothing is served.
        fill_up(disk / "all")
        await is_refused(folder, disk / "late", f"{loses(disk / 'late.0', full)}\nbsc: the journal {disk / 'late.0'} can't be written")
        same((disk / "late.0").stat().st_size, 0, "a journal on a full disk")
    return f"a disk got full after {given} messages, and the hub served on"


def fill_up(file):
    with file.open("wb", buffering=0) as out:
        try:
            while out.write(bytes(4096)):
                pass
        except OSError:
            pass


# All of them.

async def scenes(folder, messages, names):
    told = []
    for scene, *words in ((course, messages), (kills,), (prefixes,), (silent,), (limited,), (parted,), (disk_gets_full,)):
        if names and scene.__name__ not in names:
            continue
        place = folder / scene.__name__
        place.mkdir()
        try:
            told.append(await asyncio.wait_for(scene(place, *words), LIMIT))
        except asyncio.TimeoutError:
            raise Failed(f"the scene {scene.__name__} took more than {LIMIT} s") from None
        except Failed as why:
            raise Failed(f"{scene.__name__}: {why}") from None
    return "; ".join(told)


def main():
    why = has_libraries()
    if why:
        return f"skipped, {why}"
    if not builds():
        raise Failed("the program doesn't run")
    watch = Watch()
    messages = int(sys.argv[1]) if len(sys.argv) > 1 else 10_000
    # Nodes of bsc at a hub that keeps journals, meanwhile.
    ports = " ".join(str(free_port()) for _ in range(3))
    network = subprocess.Popen([ROOT / "examples/network", "journals"], env={**os.environ, "PORTS": ports}, stdout=subprocess.PIPE,
                               stderr=subprocess.STDOUT, text=True)
    try:
        with tempfile.TemporaryDirectory() as folder:
            told = asyncio.run(scenes(Path(folder), messages, sys.argv[2:]))
        lines = network.communicate(timeout=LIMIT)[0]
        if network.returncode or not any(line.startswith("audit") and "| legal " in line for line in lines.splitlines()):
            raise Failed(f"the journals of a hub and two nodes of bsc aren't legal: {lines}")
        return told
    except (OSError, subprocess.TimeoutExpired) as why:
        watch.judge(repr(why))
    except Failed as why:
        watch.judge(str(why))
    finally:
        watch.is_over = True
        if network.poll() is None:
            network.kill()


try:
    print(f"check-journals: {main()}")
except TooBusy as why:
    print(f"check-journals: not all of it could be met, the machine is too busy: {why}")
except Failed as why:
    sys.exit(f"check-journals: {why}")
