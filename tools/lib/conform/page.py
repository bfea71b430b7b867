"""What a run comes to as a page: each script with differences has a ladder of what is due and one of what was found, and the
octets explained."""
import time
from html import escape

import drawing
from conform.events import Closing, Coming
from conform.judging import read, told
from conform.report import alike
from conform.rules import PROFILE, STANDARD
from course import Arrow, Change, Course, Line, Mark, Time
from message import Message, digits_of, name_of, told_of

HUB = "hub"
EACH = 3  # differences by one rule that are explained in a script
ROWS = 60  # of a ladder
LONG = 32  # octets of a field that are shown

STYLE = """
:root { color-scheme: light dark; }
body { font: 15px/1.5 "Helvetica Neue", Helvetica, Arial, "Liberation Sans", sans-serif; margin: 2em auto; max-width: 90em; padding: 0 1em; }
table { border-collapse: collapse; margin: 0.6em 0; }
td, th { border: 1px solid #8888; padding: 0.15em 0.6em; text-align: left; vertical-align: top; }
td.octets { font-family: ui-monospace, "Liberation Mono", monospace; overflow-wrap: anywhere; max-width: 24em; }
tr.differs td { background: #f8514926; }
.ladders { display: flex; flex-wrap: wrap; gap: 1em; }
.ladders figure { margin: 0; overflow-x: auto; max-width: 100%; }
.ladders svg { max-width: 100%; height: auto; }
.standard { color: #b3261e; font-weight: 600; }
.profile { color: #8a5a00; font-weight: 600; }
@media (prefers-color-scheme: dark) { .standard { color: #ff8f87; } .profile { color: #e3b341; } }
section { border-top: 1px solid #8888; margin-top: 2em; }
pre { overflow-x: auto; }
"""


def page(uri, hub, results):
    """The page of a run."""
    differ = [it for it in results if it.differences]
    body = [summary(uri, hub, results), *map(section, differ)]
    return "\n".join(["<!doctype html>", '<html lang="en"><meta charset="utf-8">', "<title>tools/conform hub</title>",
                      f"<style>{STYLE}</style>", "<body>", *body, "</body></html>", ""])


def counted(results, whose):
    return sum(it.whose == whose for result in results for it in result.differences)


def summary(uri, hub, results):
    skipped = sum(bool(it.skipped) for it in results)
    rows = "".join(row_of(it) for it in results)
    return (f"<h1>{escape(uri)}</h1><p>Played {time.strftime('%Y-%m-%d %H:%M UTC', time.gmtime())}. The hub has the VMAC {hub.vmac} and "
            f"the device {hub.device}, and takes {hub.max_bvlc:,} octets and NPDUs of {hub.max_npdu:,}.</p><p>{len(results)} scripts, {skipped} skipped. Differences: "
            f"<span class=standard>{counted(results, STANDARD)} of the standard</span>, "
            f"<span class=profile>{counted(results, PROFILE)} of the profile</span>. The standard is ANSI/ASHRAE 135-2020, Annex AB; "
            "the profile is what this project chose where the standard leaves it open.</p>"
            f"<table><tr><th>script<th>what it is about<th>clause<th>result</tr>{rows}</table>")


def row_of(result):
    script = result.script
    name = f'<a href="#{script.name}">{script.name}</a>' if result.differences else script.name
    words = "skipped: " + result.skipped if result.skipped else "as it has to be"
    if result.differences:
        rules = dict.fromkeys((it.whose, it.rule.name) for it in result.differences)
        words = ", ".join(f"<span class={whose}>{whose}: {rule}</span>" for whose, rule in rules)
    return f"<tr><td>{name}<td>{escape(script.says)}<td>{script.clause or '-'}<td>{words}</tr>"


def section(result):
    shown = [it for same in alike(result.differences) for it in same[:EACH]]
    ladders = drawn("Expected", *expected(result)) + drawn("Found", *found(result))
    script = "\n".join([result.hub_line, *(it.line for it in result.steps[:ROWS])])
    more = f"\n.. {len(result.steps) - ROWS} lines more" if result.steps[ROWS:] else ""
    return (f'<section id="{result.script.name}"><h2>{result.script.name}</h2><p>{escape(result.script.says)}</p>'
            f'{"".join(map(explained, shown))}<div class=ladders>{ladders}</div>'
            f"<details><summary>The script as it was played, for bsc replay</summary><pre>{escape(script)}{more}</pre></details></section>")


def drawn(title, course, at):
    """The ladder of a course, and of a long one the page with this row."""
    return f"<figure>{drawing.Drawing(course, title, page=at // ROWS + 1, rows=ROWS).svg()}</figure>"


def explained(it):
    """A difference in words, with its rule and the octets of both messages."""
    clause = f", {it.clause}" if it.clause else ""
    head = (f"<p><span class={it.whose}>{it.whose}{clause}</span>: <b>{it.rule.name}</b>, {escape(it.rule.says)}. "
            f"At {escape(it.name)}: {escape(it.words)}.</p>")
    if not isinstance(it.wanted, Coming) and not isinstance(it.found, Coming):
        return head
    wanted, came = fields_of(it.wanted), fields_of(it.found)
    names = list(dict.fromkeys([*wanted, *came]))
    rows = "".join(f'<tr{"" if wanted.get(name) == came.get(name) else " class=differs"}><td>{escape(name[0])}'
                   f"{cells(wanted.get(name))}{cells(came.get(name))}</tr>" for name in names)
    return f"{head}<table><tr><th>field<th colspan=2>expected<th colspan=2>found</tr>{rows}</table>"


def fields_of(event):
    """The fields of a message by their names, each with how many of that name stand before it."""
    fields = {}
    if isinstance(event, Coming):
        for it in Message(event.octets).fields:
            number = sum(name == it.name for name, _ in fields)
            fields[it.name, number] = it
    return fields


def cells(field):
    if field is None:
        return "<td class=octets><td>"
    octets = digits_of(field.octets[:LONG]) + (" .." if field.octets[LONG:] else "")
    return f"<td class=octets>{octets}<td>{escape(field.words)}"


# The ladders.


def expected(result):
    """The course by the definition, and the row of the first difference."""
    differs = {(it.step, it.wanted): it for it in result.differences if it.wanted}
    told_at = lambda n: [(it, differs.get((n, it))) for it in result.dues[n].events]
    return course_of(result, told_at, lambda n: said(result.dues[n].said), [])


def found(result):
    """The course as it went, and the row of the first difference."""
    differs = {(it.step, it.found): it for it in result.differences if it.found}
    missing = [it for it in result.differences if not it.found]
    came = {}
    for it in result.log:
        if hasattr(it, "event"):
            came.setdefault(it.step, []).append(it.event)
    told_at = lambda n: [(it, differs.get((n, it))) for it in came.get(n, [])]
    return course_of(result, told_at, lambda n: "", missing)


def said(lines):
    """What the definition says of a message: the lines of replay."""
    return "; ".join(" ".join(it[1:]) for it in lines if it[0] != HUB)


def course_of(result, events_at, said_at, missing):
    names = list(dict.fromkeys(it.words[1] for it in result.steps if it.words[0] == "open"))
    lines = [*map(Line, names), Line(HUB, result.hub_line.split()[1], is_hub=True)]
    records, first = [], None
    for n, step in enumerate(result.steps):
        records += step_records(step, said_at(n))
        for event, difference in events_at(n):
            if difference and first is None:
                first = rows_in(records)
            records += event_records(event, difference)
        for it in missing:
            if it.step == n:
                first = rows_in(records) if first is None else first
                records.append(Mark(it.name, f"{it.words} ({it.rule.name})", "lost"))
    return Course("", lines, records), first or 0


def rows_in(records):
    return sum(map(drawing.is_row, records))


def step_records(step, words):
    what, name = step.words[:2]
    if what == "at":
        return [Time(int(name))]
    if what == "open":
        return [Change(name, "open")]
    if what == "in":
        message = Message(step.octets)
        return [Arrow(name, HUB, name_of(message), told_of(message), words, octets=digits_of(step.octets))]
    if what == "text":
        return [Arrow(name, HUB, "a text message", said=words)]
    if what == "drop":
        return [Arrow(name, HUB, "closes its WebSocket", said=words, closes=True), Change(name, "away")]
    return [Mark(name, {"hold": "reads nothing more", "free": "reads again"}[what])]


def event_records(event, difference):
    fate = "refused" if difference else "came"
    words = difference.rule.name if difference else ""
    if isinstance(event, Closing):
        return [Arrow(HUB, event.name, told(event), said=words, closes=True), Change(event.name, "away")]
    message = read(event)
    if message is None:
        return [Arrow(HUB, event.name, told(event), said=words, fate=fate)]
    return [Arrow(HUB, event.name, name_of(message), told_of(message), words, fate, octets=digits_of(event.octets)),
            *([Change(event.name, "joined")] if message.function == 7 and not message.origin else [])]
