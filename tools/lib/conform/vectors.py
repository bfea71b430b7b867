"""The vectors: cases and courses as objects, with the answers of the program, and the files that they stand in."""
import json
import re
from collections import Counter
from concurrent.futures import ThreadPoolExecutor

from conform import cases, course_cases, proved
from conform.checks import CODE_NAMES, CODES, ORDER, PHASES, Parts, Place, judged
from message import octets_in

FOLDER = proved.TOP / "vectors"
COURSES = "courses"
STANDARD, PROFILE = "standard", "profile"
SIDE_BY_SIDE = 4  # scripts that are replayed at once
# The clauses of ANSI/ASHRAE 135-2020 that docs/reference/DEFINITIONS.md names for these; where none is named there is none here.
OF_CHECK = {"C1": "AB.2.1", "C2": "AB.2.10", "C3": "AB.2.2", "C5": "AB.2.2", "C7": "AB.2.3", "C7b": "AB.2.3", "C8": "AB.2.3", "C9": "AB.2.3"}
OF_FUNCTION = {0x00: "AB.2.4", 0x06: "AB.2.10, AB.2.11", 0x07: "AB.2.10, AB.2.11"}
FORWARDING, RESULTS, ACCEPTING, OPTIONS = "AB.5.3", "AB.2.4", "AB.6.2.3", "AB.2.3"
# Passing messages whose taking is this profile's choice, by family and the first words of their names.
CHOSEN = {("payloads", "03-text"): "uris"}


class Unlike(Exception):
    """The program says otherwise than a case is meant to be."""


def definitions():
    """The name of the definition of each check, in the table of docs/CHECKS.md."""
    page = (proved.TOP / "docs/CHECKS.md").read_text(encoding="utf-8")
    return dict(re.findall(r"^\| (C\d+b?c?) \| .* \| `(\w+)` \| .* \|$", page, re.M))


def digits(octets):
    return octets.hex().upper()


def choice_of(it, verdict):
    """What the profile chose where the answer is its own, else None."""
    if verdict.word in ("pass", "carry"):
        return CHOSEN.get((it.family, it.name))
    if verdict.check not in CODES:
        return "silence"
    if verdict.word == "silent":
        return None
    if CODES[verdict.check] == 80:
        return "nak-range"
    return "nak-first" if len(verdict.failing) > 1 else None


def clause_of(it, verdict):
    function = it.octets[0] if it.octets else None
    if verdict.word == "carry":
        return FORWARDING
    if verdict.word == "pass":
        return OF_FUNCTION.get(function) or (OPTIONS if it.octets[1] & 0x03 else None)
    if verdict.check == "C4":
        return FORWARDING if it.place.kind != "direct" else None
    if verdict.check == "C13":
        return ACCEPTING if it.phase == "request" and it.place.kind != "node" else None
    if verdict.word == "silent" and verdict.check in CODES:
        return RESULTS
    return OF_CHECK.get(verdict.check) or OF_FUNCTION.get(function) or RESULTS


def rule_of(it, verdict, names):
    if verdict.word in ("pass", "carry"):
        return {"pass": "NoneFails", "carry": "is_to_carry"}[verdict.word]
    return Parts(it.octets).what_is_out_of_range() if verdict.check == "C11" else names[verdict.check]


def answer_words(verdict):
    if verdict.word == "nak":
        code = int.from_bytes(verdict.nak[-2:], "big")
        return f"a NAK with {code}, {CODE_NAMES[code]}, answers"
    return {"pass": "it is taken", "carry": "the hub carries it on", "silent": "nothing answers"}[verdict.word]


def sentence(it, verdict):
    return f"{cases.PLACE_WORDS[it.place]} {cases.PHASE_WORDS[it.phase]}: {it.says}; {answer_words(verdict)}."


def object_of(it, verdict, names):
    """A case as an object of its file."""
    choice = choice_of(it, verdict)
    return {
        "id": f"{it.family}.{it.name}.{cases.PLACE_NAMES[it.place]}.{it.phase}",
        "place": it.place.kind, "phase": it.phase, "own": it.place.own and digits(it.place.own), "peer": it.place.peer and digits(it.place.peer),
        "max": it.longest, "octets": digits(it.octets), "verdict": verdict.word, "check": verdict.check,
        "nak": verdict.nak and digits(verdict.nak), "says": sentence(it, verdict), "whose": PROFILE if choice else STANDARD,
        "choice": choice, "clause": clause_of(it, verdict), "rule": rule_of(it, verdict, names),
    }


def place_of(case):
    """The place of an object."""
    octets = {key: case[key] and octets_in([case[key]]) for key in ("own", "peer")}
    return Place(case["place"], octets["own"], octets["peer"])


def check_line(case):
    """An object as a line of check."""
    return f"{place_of(case).word()} {case['phase']} {case['max']} {case['octets']}".rstrip()


def verdict_line(case):
    """What check has to write for it."""
    return " ".join(filter(None, (case["verdict"], case["check"], case["nak"])))


def made_cases():
    """The files of messages: the objects of each, by the name of the file. What is meant, what the page says and what the
    program answers have to be the same."""
    names = definitions()
    files, lines, wanted = {}, [], []
    for it in cases.all_cases():
        verdict = judged(it.octets, it.place, it.phase, it.longest)
        case = object_of(it, verdict, names)
        if it.meant != (verdict.check or verdict.word):
            raise Unlike(f"{case['id']} is meant to be {it.meant}, and by docs/CHECKS.md it is {verdict.line()}")
        files.setdefault(it.family, []).append(case)
        lines.append(check_line(case))
        wanted.append((case["id"], verdict.line()))
    told = proved.answers("check", "\n".join(lines) + "\n")
    for (name, verdict), line in zip(wanted, told, strict=True):
        if verdict != line:
            raise Unlike(f"{name} is {verdict} by docs/CHECKS.md, and the program says {line}")
    return files


def phase_of(name, before):
    """The phase of a name at the hub, by what was written before."""
    phase = "request"
    for words in (line.split() for line in before):
        if words[0] != name:
            continue
        if words[1] == "joined":
            phase = "connected"
        elif words[1] == "out" and words[2].startswith("0800") and len(words[2]) == 8:
            phase = "disconnecting"
        elif words[1] == "close":
            phase = "request"
    return phase


def replayed(it):
    """What is written for a course before its message, and all of it. A line `counts` changes nothing, and marks the place."""
    lines = [*it.script[:it.at - 1], "counts", *it.script[it.at - 1:]]
    told = proved.answers("replay", "".join(f"{line}\n" for line in lines))
    mark = next(at for at, line in enumerate(told) if line.startswith("hub counts "))
    return told[:mark], tuple(told[:mark] + told[mark + 1:])


def refusal_of(it):
    """The NAK for a duplicate VMAC, where the message of a course gets one."""
    name = it.script[it.at - 1].split()[1]
    last = [line.split() for line in it.text[-3:]]
    return last[1][2] if last[0][:2] == [name, "duplicate"] else None


def course_object(it):
    """A course as an object. Its octets, phase and verdict are those of the message that it is about."""
    before, told = replayed(it)
    if told != it.text:
        raise Unlike(f"{it.name}: {' / '.join(it.text)} is meant, and the program writes {' / '.join(told)}")
    words = it.script[it.at - 1].split()
    octets = octets_in(words[2:])
    phase = phase_of(words[1], before)
    verdict = judged(octets, Place("hub"), phase, cases.LONGEST)
    word, check, nak = verdict.word, verdict.check, verdict.nak and digits(verdict.nak)
    refusal = refusal_of(it)
    if refusal:
        word, nak = "nak", refusal
    return {
        "id": f"{COURSES}.{it.name}", "place": "hub", "phase": phase, "own": course_cases.HUB_VMAC, "peer": None, "max": cases.LONGEST, "octets": digits(octets),
        "verdict": word, "check": check, "nak": nak, "says": f"{it.says[0].upper()}{it.says[1:]}.", "whose": it.whose, "choice": it.choice, "clause": it.clause,
        "rule": it.rule, "at": it.at, "script": list(it.script), "text": list(it.text),
    }


def made_courses():
    with ThreadPoolExecutor(SIDE_BY_SIDE) as pool:
        return list(pool.map(course_object, course_cases.all_courses()))


def made():
    """All files, with the objects of each."""
    return {**made_cases(), COURSES: made_courses()}


def text_of(objects):
    """A file: a list with one object a line, so that a program may read it line by line."""
    rows = ",\n".join(json.dumps(it, ensure_ascii=True, separators=(",", ":")) for it in objects)
    return f"[\n{rows}\n]\n"


def paths():
    """The files that are there."""
    return sorted(it for it in FOLDER.glob("*.json") if it.name != "schema.json")


def read(path):
    return json.loads(path.read_text(encoding="utf-8"))


# The table of check, place and phase.

ROWS = [f"{check} {kind}" for check in ORDER for kind in ("nak", "silent") if check in CODES or kind == "silent"] + ["pass", "carry"]
COLUMNS = [(place, phase) for place in cases.PLACES for phase in PHASES]


def why_not(row, place, phase):
    """Why no message can come to this row at this place and phase, or none where one can."""
    if row == "carry":
        return "" if place.kind == "hub" and phase == "connected" else "-"
    # A message of these functions is a request: silence can only be that of a broadcast, which a hub port carries on, by C5
    # and the phase alone, and which has wrong addresses on a direct connection.
    if row in ("C6 silent", "C12 silent"):
        return "" if place.kind == "node" else "-"
    return ""


def row_of(case):
    return f"{case['check']} {case['verdict']}" if case["check"] else case["verdict"]


def counts(objects):
    """How many cases stand in each cell."""
    known = {(it.kind, it.own, it.peer): it for it in cases.PLACES}
    found = Counter()
    for case in objects:
        place = place_of(case)
        place = known.get((place.kind, None if place.kind == "hub" else place.own, place.peer))
        if place:
            found[row_of(case), place, case["phase"]] += 1
    return found


def table(objects):
    """The table as lines, and the cells that can occur and have no case."""
    found = counts(objects)
    empty = []
    width = 13
    lines = [f"{'':12}" + "".join(f"{cases.PLACE_NAMES[place]:>{width * 4 // 2}}{'':{width * 4 - width * 4 // 2}}" for place in cases.PLACES),
             f"{'':12}" + "".join(f"{phase:>{width}}" for _, phase in COLUMNS) + f"{'all':>7}"]
    for row in ROWS:
        cells = []
        for place, phase in COLUMNS:
            count = found[row, place, phase]
            cells.append(str(count) if count else why_not(row, place, phase) or "EMPTY")
            if cells[-1] == "EMPTY":
                empty.append(f"{row} at {cases.PLACE_NAMES[place]}, {phase}")
        total = sum(found[row, place, phase] for place, phase in COLUMNS)
        lines.append(f"{row:12}" + "".join(f"{it:>{width}}" for it in cells) + f"{total:7}")
    return lines, empty
