"""The lines of journals, read apart from bsc, from docs/AUDIT.md."""
import re
from dataclasses import dataclass

N = "(?:0|[1-9][0-9]{0,18})"
SOME = f"(?:-|{N}(?:,{N})*)"
COUNTED = ("joined", "replaced", "refused", "unicasts", "broadcasts", "appended", "dropped", "full", "missed")
COUNTS = "counts " + " ".join(f"{name}={N}" for name in COUNTED)
CONNECTED = f"joined {N}(?: replacing {N})?|duplicate (?:{N}|hub)|tablefull {N}|stopped"
ENDED = "(?:left|replaced|full|stopped)"
FORWARDED = f"(?:sent|full|long) {N}|noholder|sentall to={SOME} missed={SOME} skipped={SOME}|notcurrent {ENDED}|stopped"
LOOKS = f"(?:-|{N}:{N}(?:,{N}:{N})*)"

HUB = re.compile(f"hub [0-9A-F]{{12}} [0-9A-F]{{32}} [0-9A-F]{{4}} [0-9A-F]{{4}} {N} {N} {N}")
ENTRY = re.compile(
    f"(?P<place>{N}) (?P<caller>{N}) (?:"
    f"(?P<connect>connect) (?P<who>[0-9A-F]{{52}}) (?P<connected>{CONNECTED})"
    f"|(?P<forward>forward) (?P<sender>{N}) (?P<octets>(?:[0-9A-F]{{2}})+) looks (?P<looks>{LOOKS}) (?P<forwarded>{FORWARDED})"
    f"|(?P<leave>leave) (?P<leaver>{N}) (?P<taken>{N}) {N} (?P<gone>gone {ENDED} {N})"
    f"|(?P<stop>stop) (?P<stopped>{COUNTS})|(?P<count>count) {COUNTS})")
LONGEST_LINE, LONGEST = 300_000, 1 << 28


@dataclass(frozen=True)
class Entry:
    place: int
    caller: int
    call: str
    reply: str
    conn: int = 0
    octets: bytes = b""
    looks: str = ""


def entry_of(line):
    """The entry that a line tells, or None."""
    found = ENTRY.fullmatch(line)
    if not found:
        return None
    place, caller = int(found["place"]), int(found["caller"])
    if found["connect"]:
        return Entry(place, caller, "connect", found["connected"], octets=bytes.fromhex(found["who"]))
    if found["forward"]:
        return Entry(place, caller, "forward", found["forwarded"], int(found["sender"]), bytes.fromhex(found["octets"]), found["looks"])
    if found["leave"]:
        return Entry(place, caller, "leave", found["gone"], int(found["leaver"]))
    return Entry(place, caller, "stop" if found["stop"] else "count", found["stopped"] or "")


def lines_of(octets):
    """Lines without their ends; what stands behind the last end is a line where it isn't empty."""
    lines = octets.decode("latin-1").split("\n")
    return lines if lines[-1] else lines[:-1]


def is_denial(line):
    return line.startswith("deny")


def said_of(octets):
    """What an audit has to say of journals, up to what their entries did: that they are legal is for the hub to answer."""
    entries, hubs, at = [], 0, 0
    for number, line in enumerate(lines_of(octets), 1):
        at += len(line) + 1
        if len(line) > LONGEST_LINE or at > LONGEST + 1:
            return 2, f"fault script line {number}"
        entry = entry_of(line)
        if entry:
            entries.append(entry)
        elif HUB.fullmatch(line):
            hubs += 1
        elif not is_denial(line):
            return 2, f"fault script line {number}"
    if hubs != 1:
        return 10, f"hubs {hubs}"
    places = sorted(entry.place for entry in entries)
    for one, other in zip(places, places[1:]):
        if one == other:
            return 10, f"twice {one}"
    for place, found in enumerate(places):
        if found != place:
            return 10, f"missing {place}"
    return 0, f"legal {len(places)}"


def entries_of(octets):
    return [entry for entry in map(entry_of, lines_of(octets)) if entry]


def denials_of(octets):
    return [line for line in lines_of(octets) if is_denial(line)]


def numbers(word):
    return [] if word == "-" else [int(it) for it in word.split(",")]


def receivers(entry):
    """The connections whose outboxes a forward entered."""
    word, *rest = entry.reply.split()
    if word == "sent":
        return [int(rest[0])]
    return numbers(rest[0].partition("=")[2]) if word == "sentall" else []


def counts_of(told):
    """The nine numbers of a line of counts."""
    return {name: int(number) for name, number in re.findall(r"(\w+)=(\d+)", told)}
