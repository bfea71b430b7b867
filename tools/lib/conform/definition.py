"""What the definition says of a script: bsc replay computes it, line by line."""
import re
import subprocess
from typing import NamedTuple

from conform.events import Closing, Coming
from conform.proved import NoProgram, program
from conform.scripts import is_flood
from message import NPDU

MARK = "counts"  # a line that changes nothing and is always answered: so one sees which lines a step comes to
PATIENCE = 60  # seconds that a script may take to be replayed
ANSWER = re.compile(r"hub (counts|worn)\b")


class Due(NamedTuple):
    """What a step comes to: what the hub said of it, and what comes to peers."""

    said: tuple  # lines of replay, as words
    events: tuple


def replayed(script):
    """The text that bsc replay writes for a script."""
    try:
        done = subprocess.run([program(), "replay"], input=script, capture_output=True, text=True, timeout=PATIENCE)
    except OSError as why:
        raise NoProgram(f"{program()} can't be run: {why.strerror}; BSC=PATH names another program") from None
    except subprocess.TimeoutExpired:
        raise NoProgram(f"{program()} replay didn't end within {PATIENCE} s") from None
    if done.returncode:
        last = (done.stdout.splitlines() or [""])[-1]
        raise NoProgram(f"{program()} replay ended with status {done.returncode}: {last} {done.stderr.strip()}")
    return done.stdout


def dues(hub_line, steps):
    """What each step comes to."""
    asked = "".join(f"{it.line}\n{MARK}\n" for it in steps)
    told = replayed(f"{hub_line}\n{asked}").splitlines()
    found, lines = [], []
    for line in told:
        if ANSWER.match(line):
            found.append(due_of(lines))
            lines = []
        else:
            lines.append(tuple(line.split()))
    if len(found) != len(steps) or lines:
        raise NoProgram(f"{program()} replay wrote something else than lines of a script come to")
    return found


def dues_of_flood(hub_line, steps):
    """The same of a script with a flood. The definition looks at no octet of what is forwarded, so it is asked with payloads of one
    octet, which are put back into what comes."""
    floods = {it.octets[2:4]: it.octets for it in steps if is_flood(it)}
    short = [it._replace(words=(*it.words[:-1], it.words[-1][:2])) if is_flood(it) else it for it in steps]
    tail = next(iter(floods.values()))[len(short[first_flood(steps)].octets):]

    def whole(event):
        is_cut = isinstance(event, Coming) and event.octets[0] == NPDU and event.octets[2:4] in floods
        return event._replace(octets=event.octets + tail) if is_cut else event

    return [it._replace(events=tuple(map(whole, it.events))) for it in dues(hub_line, short)]


def first_flood(steps):
    return next(n for n, it in enumerate(steps) if is_flood(it))


def due_of(lines):
    events, said = [], []
    for line in lines:
        name, what, *words = line
        if what == "out":
            events.append(Coming(name, bytes.fromhex("".join(words))))
        elif what == "close":
            events.append(Closing(name, int(words[0]), " ".join(words[1:])))
        else:
            said.append(line)
    return Due(tuple(said), tuple(events))
