"""Tests a hub of BACnet/SC: it plays scripts against it, and tells where the hub does otherwise than the definition says.

    tools/conform hub ws://127.0.0.1:47808/
    tools/conform hub wss://hub.example:443/ --ca ca.pem --cert node.pem --key node.key --html report.html
    tools/conform hub --print takeover.twice | ./bsc replay

Each script joins nodes of its own, with new VMACs and devices. A line a script is written, in TAP, and below it each difference:
whether it is of the standard or of the profile, the clause of ANSI/ASHRAE 135-2020, Annex AB, where it is known, the rule, the
peer, and what came. The profile is what this project chose where the standard leaves it open; a script that differs from that
alone is marked TODO. The scripts stand in tools/lib/conform/hub.scripts. What is due is computed by bsc replay: the program of
this checkout or of the package, or the one that BSC names.

Time-outs are played with --times, full outboxes with --outbox; else these scripts are skipped. Other nodes may be at the hub, but
no second run of this tool.

Status 0: nothing of the standard differs. 1: something does. 2: the words are wrong, or bsc isn't there. 3: no connection.
"""
import argparse
import asyncio
import secrets
import sys
import time
from pathlib import Path
from typing import NamedTuple

from conform import definition, judging, page, peers, playing, report, rules, scripts
from conform.events import Coming
from conform.scripts import Identity, StandIns
from message import BROADCAST, CONNECT_ACCEPT, NPDU, Message, digits_of, number

SAME, DIFFERS, WORDS, NO_HUB = range(4)
PATIENCE = 3.0  # seconds for what is due
GONE = 5  # scripts in a row that can't open a WebSocket, behind which the hub is taken for gone
LONGEST, LONGEST_FLOOD = 40, 120  # seconds that a script may take, beside its own times; with a flood
PROBE = Identity("", "", 1600, 1497)
# The waits of scripts, in ms: docs/SCRIPTS.md has them.
WAITS = {"connect": 10_000, "disconnect": 10_000, "heartbeat": 300_000}


class Result(NamedTuple):
    """What became of a script: why it was left out, or its differences, with what is needed to draw it."""

    script: object
    skipped: str = ""
    differences: tuple = ()
    strangers: int = 0
    steps: tuple = ()
    dues: tuple = ()
    log: tuple = ()
    hub_line: str = ""


class NoHub(Exception):
    """What is there joins nobody. It says why."""


async def probed(uri, tls, patience):
    """Who the hub is, by the Connect-Accept that a node gets, and how long that took."""
    ws = await peers.opened(uri, tls)
    try:
        own = StandIns(PROBE, secrets.token_bytes)
        request = "06000001" + own("02000000000A") + own("A" * 32) + "064005D9"
        begun = time.monotonic()
        await ws.send(bytes.fromhex(request))
        came = await asyncio.wait_for(ws.recv(), patience)
        took = time.monotonic() - begun
    except asyncio.TimeoutError:
        raise NoHub("no Connect-Accept came") from None
    except peers.ConnectionClosed:
        raise NoHub(f"in place of a Connect-Accept a close {ws.close_code} came") from None
    finally:
        await ws.close()
    message = Message(came) if isinstance(came, bytes) else None
    if not message or message.function != CONNECT_ACCEPT or not message.is_whole():
        raise NoHub(f"in place of a Connect-Accept came {digits_of(came) if message else 'a text message'}")
    lengths = [number(message.field(f"max. {it} length")) for it in ("BVLC", "NPDU")]
    return Identity(digits_of(message.field("VMAC")), digits_of(message.field("Device UUID")), max(64, lengths[0]), max(1, lengths[1])), took


async def played(script, hub, asked, tls, pace):
    """Plays one script, with VMACs and devices that no other has."""
    skipped = left_out(script, asked)
    if skipped:
        return Result(script, skipped)
    stand_ins = StandIns(hub, secrets.token_bytes)
    steps = scripts.ready(script, hub, stand_ins, asked.outbox)
    hub_line = scripts.hub_line(hub, asked.outbox)
    floods = "outbox" in script.marks
    asking = definition.dues_of_flood if floods else definition.dues
    dues = asking(hub_line, steps)
    play = playing.Play(asked.uri, tls, pace, floods)
    scale = scale_of(script, asked.times)
    try:
        log = await play.play(steps, dues, scale, (LONGEST_FLOOD if floods else LONGEST) + (steps_last(steps) * scale if scale else 0))
    except peers.NoConnection as why:
        rule = rules.RULES["open"]
        name = steps[play.step].words[1]
        found = (rules.Difference(rule, rule.whose, rule.clause, name, play.step, str(why), None, None),)
        return Result(script, "", found, 0, tuple(steps), tuple(dues), tuple(play.log), hub_line)
    if floods:
        came, is_missed = flood_that_came(steps, log, asked.outbox)
        steps = scripts.held_later(steps, asked.outbox, came)
        dues = asking(hub_line, steps)
        if is_missed:
            dues, log = ([without_flood(it) for it in these] for these in (dues, log))
    judge = judging.Judge(script, steps, dues, log, stand_ins.vmacs())
    found = tuple(judge.differences())
    return Result(script, "", found, judge.strangers, tuple(steps), tuple(dues), tuple(log), hub_line)


def flood_that_came(steps, log, outbox):
    """How many messages of a flood came to the node that is held, the first of them without a gap; and whether they are broadcasts
    of which it missed some, as it may at any time at which its outbox is full: each came once and in order, and first an outbox full."""
    held = next(it.words[1] for it in steps if it.words[0] == "hold")
    flood = [it.octets for it in steps if scripts.is_flood(it)]
    ids = {it[2:4]: n for n, it in enumerate(flood)}
    came = [it.event.octets[2:4] for it in log if isinstance(getattr(it, "event", None), Coming) and it.event.name == held]
    places = [ids[it] for it in came if it in ids]
    first = next((n for n, place in enumerate(places) if place != n), len(places))
    is_in_order = all(one < other for one, other in zip(places, places[1:]))
    return first, flood[0][4:10] == BROADCAST and is_in_order and outbox <= first and len(places) < len(flood)


def without_flood(it):
    """What is due, or what happened, without broadcasts of a flood."""
    def is_of_flood(event):
        return isinstance(event, Coming) and event.octets[0] == NPDU and event.octets[2] >= scripts.FIRST >> 8

    if hasattr(it, "events"):
        return it._replace(events=tuple(one for one in it.events if not is_of_flood(one)))
    return playing.Sent(it.step) if hasattr(it, "event") and is_of_flood(it.event) else it


def left_out(script, asked):
    """Why a script isn't played, if so."""
    if script.marks & set(WAITS) and not asked.times:
        return "--times isn't given"
    if "outbox" in script.marks and not asked.outbox:
        return "--outbox isn't given"
    return ""


def steps_last(steps):
    """How long a script lasts by its own clock, in ms."""
    return max((int(it.words[1]) for it in steps if it.words[0] == "at"), default=0)


def scale_of(script, times):
    """How many seconds a millisecond of a script is, by the wait that it is about."""
    return next((ms / WAITS[wait] / 1000 for wait, ms in zip(WAITS, times or ()) if wait in script.marks), None)


def three_times(word):
    """The words of --times: three waits in ms."""
    times = [int(it) for it in word.split(",")]
    if len(times) != 3 or min(times) < 1:
        raise ValueError
    return times


def at_least_two(word):
    if int(word) < 2:
        raise ValueError
    return int(word)


async def run(asked):
    tls = peers.tls_context(asked) if asked.uri.startswith("wss:") else None
    hub, took = await probed(asked.uri, tls, asked.patience)
    pace = playing.Pace(asked.patience, took)
    about = f"the hub {hub.vmac}, device {hub.device}, takes {hub.max_bvlc} octets and NPDUs of {hub.max_npdu}"
    told = report.Tap(asked.chosen, about, asked.profile)
    for script in asked.chosen:
        told.add(await played(script, hub, asked, tls, pace))
        if told.unopened() == GONE:
            raise peers.NoConnection(f"{GONE} scripts in a row couldn't open a WebSocket any more")
    told.end()
    if asked.html:
        Path(asked.html).write_text(page.page(asked.uri, hub, told.results), encoding="utf-8")
    return DIFFERS if told.failed else SAME


def words_of(arguments):
    words = argparse.ArgumentParser(prog="tools/conform hub", description=__doc__, formatter_class=argparse.RawDescriptionHelpFormatter)
    words.add_argument("uri", metavar="URI", nargs="?", help="of the hub, ws://.. or wss://..")
    words.add_argument("--print", dest="printed", metavar="NAME", help="writes the script of this name, as bsc replay takes it")
    words.add_argument("--only", action="append", metavar="NAME", help="only scripts whose names begin so; may be said again")
    words.add_argument("--profile", action="store_true", help="differences of the profile make the status 1 too")
    words.add_argument("--outbox", type=at_least_two, metavar="N", help="how many frames wait for a node at the hub at most")
    words.add_argument("--times", type=three_times, metavar="CONNECT,DISCONNECT,HEARTBEAT", help="the waits of the hub, in ms")
    words.add_argument("--html", metavar="FILE", help="writes a page with a ladder of each script that differs")
    words.add_argument("--patience", type=float, default=PATIENCE, metavar="SECONDS", help="how long is waited for what is due")
    words.add_argument("--ca", metavar="FILE", help="the certificates that the hub's is looked at by, for wss://")
    words.add_argument("--cert", metavar="FILE", help="the own certificate, for wss://")
    words.add_argument("--key", metavar="FILE", help="its key")
    asked = words.parse_args(arguments)
    if not asked.printed and not (asked.uri or "").startswith(("ws://", "wss://")):
        words.error("a URI that begins with ws:// or wss:// is wanted")
    if bool(asked.cert) != bool(asked.key):
        words.error("--cert and --key go together")
    asked.chosen = [it for it in scripts.all_scripts() if not asked.only or it.name.startswith(tuple(asked.only))]
    if asked.printed:
        asked.chosen = [it for it in asked.chosen if it.name == asked.printed]
    if not asked.chosen:
        words.error("there is no script of that name; --only takes the beginnings of names")
    return asked


def printed(script):
    """A script as bsc replay takes it, at a hub as docs/SCRIPTS.md has it."""
    hub = Identity("0200000000FF", "00112233445566778899AABBCCDDEEFF", 1600, 1497)
    steps = scripts.ready(script, hub, lambda word: word)
    return "\n".join([f"# {script.says}", scripts.hub_line(hub, 64), *(it.line for it in steps)])


def main(arguments):
    try:
        asked = words_of(arguments)
        if asked.printed:
            print(printed(asked.chosen[0]))
            return SAME
        return asyncio.run(run(asked))
    except peers.NoConnection as why:
        print(f"conform: {asked.uri}: {why}", file=sys.stderr)
        return NO_HUB
    except (definition.NoProgram, scripts.BadScript) as why:
        print(f"conform: {why}", file=sys.stderr)
        return WORDS
    except KeyboardInterrupt:
        return WORDS
    except NoHub as why:
        rule = rules.RULES["accept"]
        print(f"Bail out! {rule.whose} {rule.clause} {rule.name}: {why}")
        return DIFFERS
