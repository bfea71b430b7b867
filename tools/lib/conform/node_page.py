"""What a run at a node comes to as a page: each case with differences has a ladder of what was due and one of what was found."""
import time
from html import escape

from conform.page import EACH, STYLE, counted, drawn, explained, row_of
from conform.report import alike
from conform.rules import PROFILE, STANDARD
from conform.turn import NODE
from course import Arrow, Course, Line
from drawing import is_row
from message import digits_of

SIDES = ("primary", "failover", "peer")


def page(node, results):
    differ = [it for it in results if it.differences]
    return "\n".join(["<!doctype html>", '<html lang="en"><meta charset="utf-8">', "<title>tools/conform node</title>",
                      f"<style>{STYLE}</style>", "<body>", summary(node, results), *map(section, differ), "</body></html>", ""])


def summary(node, results):
    skipped = sum(bool(it.skipped) for it in results)
    rows = "".join(map(row_of, results))
    return (f"<h1>The node {digits_of(node.vmac)}</h1><p>Played {time.strftime('%Y-%m-%d %H:%M UTC', time.gmtime())}. Its device is "
            f"{digits_of(node.device)}, and it takes {node.max_bvlc:,} octets and NPDUs of {node.max_npdu:,}.</p><p>{len(results)} cases, "
            f"{skipped} skipped. Differences: <span class=standard>{counted(results, STANDARD)} of the standard</span>, "
            f"<span class=profile>{counted(results, PROFILE)} of the profile</span>. The standard is ANSI/ASHRAE 135-2020, Annex AB; "
            "the profile is what this project chose where the standard leaves it open.</p>"
            f"<table><tr><th>case<th>what it is about<th>clause<th>result</tr>{rows}</table>")


def section(result):
    shown = [it for same in alike(result.differences) for it in same[:EACH]]
    first = next((n for n, it in enumerate(result.found) if getattr(it, "fate", "") == "refused"), 0)
    at = sum(map(is_row, result.found[:first]))
    ladders = drawn("Expected", course_of(result.expected), 0) + drawn("Found", course_of(result.found), at)
    return (f'<section id="{result.script.name}"><h2>{result.script.name}</h2><p>{escape(result.script.says)}</p>'
            f'{"".join(map(explained, shown))}<div class=ladders>{ladders}</div></section>')


def course_of(records):
    """The node, and those sides that take part."""
    ends = {it for one in records if isinstance(one, Arrow) for it in (one.start, one.end)}
    ends |= {one.line for one in records if hasattr(one, "line")}
    names = [it for it in SIDES if it in ends] or ["primary"]
    return Course("", [Line(NODE), *(Line(it, is_hub=it != "peer") for it in names)], list(records))
