"""Draws a course as an SVG: a line a peer and one a hub, an arrow a message, from top to bottom."""
import textwrap
from html import escape
from math import ceil

from course import Arrow, Change, Mark, Note, Place, Time

GAP = 280  # between two lines
WIDTH = 144  # of a head
SIDE = WIDTH / 2 + 14  # beside the outer lines
CLOCK = 84  # on the left, where the course has times or places
HEAD = 44
FOOT = 24
SMALL = 11  # the size of text but names
WIDE = 0.56  # of its size, what a letter of it takes
ROWS = 100  # on a page
FEW = 20  # rows that need no names below them
DIGITS = 128  # what is shown of a message where the pointer rests on it

STYLE = """
text { font: 12px "Helvetica Neue", Helvetica, Arial, "Liberation Sans", sans-serif; fill: #1f2328; }
.small { font-size: 11px; fill: #57606a; }
.name { font-size: 13px; font-weight: 600; }
.title { font-size: 15px; font-weight: 600; }
.bad { fill: #b3261e; }
.paper { fill: #ffffff; }
.note { fill: #f3f5f7; }
.head { fill: #eef2f6; stroke: #8c959f; }
.hub { fill: #dfeafa; stroke: #4a78b8; }
.line { stroke: #8c959f; stroke-dasharray: 2 3; }
.axis { stroke: #4a78b8; stroke-width: 1.5; }
.band { fill: #9cc3f0; }
.held { fill: #f0c36a; }
.arrow { stroke: #24579c; fill: none; stroke-width: 1.3; }
.tip { fill: #24579c; }
.closes { stroke: #57606a; fill: none; stroke-dasharray: 5 3; }
.tip-closes { fill: #57606a; }
.refused, .lost, .cross { stroke: #b3261e; fill: none; stroke-width: 1.3; }
.tip-refused { fill: #b3261e; }
.cross { stroke-width: 2; }
.end { stroke: #57606a; stroke-width: 1.5; }
.clock { stroke: #d0d7de; }
.mark { fill: #24579c; }
.mark-refused, .mark-lost { fill: #b3261e; }
@media (prefers-color-scheme: dark) {
  text { fill: #e6edf3; }
  .small { fill: #9da7b3; }
  .bad { fill: #ff8f87; }
  .paper { fill: #0d1117; }
  .note { fill: #1a2029; }
  .head { fill: #1c232c; stroke: #6e7781; }
  .hub { fill: #16263d; stroke: #5b8fd6; }
  .line { stroke: #6e7781; }
  .axis { stroke: #5b8fd6; }
  .band { fill: #2f5f9e; }
  .held { fill: #8f6a17; }
  .arrow { stroke: #79b0f5; }
  .tip, .mark { fill: #79b0f5; }
  .closes, .end { stroke: #9da7b3; }
  .tip-closes { fill: #9da7b3; }
  .refused, .lost, .cross { stroke: #ff8f87; }
  .tip-refused, .mark-refused, .mark-lost { fill: #ff8f87; }
  .clock { stroke: #30363d; }
}
"""


def wrapped(words, width):
    """Words in lines that are about as wide as that. Where they have line ends they are cut there too."""
    return [it for line in words.split("\n") for it in textwrap.wrap(line, int(width / (SMALL * WIDE)), break_on_hyphens=False)]


def fitting(name):
    """The attributes by which a long name fits into its head, where its letters may be too wide for that."""
    wide = sum(13 if it in "MWmw" else 10 if it.isupper() else 8 for it in name)
    return f' textLength="{WIDTH - 10}" lengthAdjust="spacingAndGlyphs"' if wide > WIDTH else ""


def time_words(ms):
    if ms < 1000:
        return f"{ms} ms"
    return f"{ms // 1000:,}.{ms % 1000:03}".rstrip("0").rstrip(".") + " s"


def ordered(lines):
    """Hubs stand in the middle, so that most arrows have one gap to pass."""
    hubs = [it for it in lines if it.is_hub]
    peers = [it for it in lines if not it.is_hub]
    left = max(1, len(peers) // 2)
    return peers[:left] + hubs + peers[left:]


def is_row(record):
    return not isinstance(record, (Change, Place))


def names_in(record):
    """The lines that a record has something at."""
    if isinstance(record, Arrow):
        return {record.start, record.end}
    return {record.at} if isinstance(record, Mark) else set()


class Drawing:
    def __init__(self, course, title, page=1, rows=ROWS):
        self.title = title
        self.course = course
        self.pages = max(1, ceil(sum(map(is_row, course.records)) / rows))
        self.page = page
        self.first, self.end = (page - 1) * rows, page * rows
        self.hubs = [it.name for it in course.lines if it.is_hub]
        shown = self.names_of_page()
        self.lines = [it for it in ordered(course.lines) if it.is_hub or it.name in shown]
        self.left = SIDE + (CLOCK if any(isinstance(it, (Time, Place)) for it in course.records) else 0)
        self.places = {it.name: self.left + GAP * n for n, it in enumerate(self.lines)}
        last = self.lines[-1] if self.lines else None
        self.right = max(2 * GAP, self.left + GAP * (len(self.lines) - 1) + (GAP if last and last.is_hub else SIDE))
        self.behind = []  # what is drawn under the rest
        self.drawn = []
        self.states = {}  # the state of each line, and since which height
        self.height = 0  # that of the last row

    def names_of_page(self):
        """The lines that the page has something at. Where the course has one page these are all."""
        if self.pages == 1:
            return {it.name for it in self.course.lines}
        rows = [it for it in self.course.records if is_row(it)]
        return set().union(*map(names_in, rows[self.first : self.end]))

    # Pieces.

    def put(self, words):
        self.drawn.append(words)

    def text(self, x, y, words, kind="small", anchor="start"):
        fit = fitting(words) if kind == "name" else ""
        self.put(f'<text x="{x:g}" y="{y:g}" class="{kind}" text-anchor="{anchor}"{fit}>{escape(words)}</text>')

    def paragraph(self, x, y, lines, kind="small", anchor="start"):
        for n, words in enumerate(lines):
            self.text(x, y + 15 * n, words, kind, anchor)

    def cross(self, x, y, kind="cross", size=6):
        self.put(f'<path class="{kind}" d="M{x - size:g} {y - size:g}l{2 * size} {2 * size}m0 {-2 * size}l{-2 * size} {2 * size}"/>')

    def toward_hub(self, name):
        """On which side of a line its hub is: 1 is the right one."""
        hubs = [self.places[it] for it in self.hubs]
        return -1 if hubs and self.places[name] > hubs[0] else 1

    # How a line is.

    def stretch(self, name, end):
        """Draws a line as it has been, down to a height."""
        state, since = self.states[name]
        x = self.places[name]
        if state != "away" and end > since:
            kind = "axis" if name in self.hubs else "line"
            self.behind.append(f'<path class="{kind}" d="M{x:g} {since:g}V{end:g}"/>')
        if state in ("joined", "held") and end > since:
            kind = "held" if state == "held" else "band"
            self.behind.append(f'<rect class="{kind}" x="{x - 3:g}" y="{since:g}" width="6" height="{end - since:g}"/>')

    def change(self, name, state, bottom):
        """A line is otherwise from the last row on, or, where a WebSocket opens, from below it."""
        was = self.states.get(name, ("away", 0))[0]
        y = bottom if was == "away" else self.height
        if was != "away":
            self.stretch(name, y)
        if was == "away" and state != "away":
            self.drawn.append(f'<circle class="head" cx="{self.places[name]:g}" cy="{y:g}" r="3.5"/>')
        if was != "away" and state == "away":
            self.cross(self.places[name], y, "end", 4)
        self.states[name] = (state, y)

    # Rows: each is drawn from a height on, and answers where it ends.

    def arrow(self, it, y):
        start, end = self.places[it.start], self.places[it.end]
        side = 1 if end > start else -1
        # Words stand beside the end that is no hub, and what comes of it beyond the one that is.
        peer, hub = (it.end, it.start) if it.start in self.hubs else (it.start, it.end)
        inward = 1 if self.places[hub] > self.places[peer] else -1
        middle = self.places[peer] + inward * GAP / 2
        said = wrapped(it.said, GAP - 30)
        y = self.height = y + 22 + 15 * max(0, (len(said) - 2) / 2)
        kind = "closes" if it.closes else {"came": "arrow", "lost": "lost", "refused": "refused"}[it.fate]
        stop = end - side * (22 if it.fate == "lost" else 5)
        octets = it.octets if len(it.octets) <= DIGITS else f"{it.octets[:DIGITS]} .. {len(it.octets) // 2:,} octets"
        title = f"<title>{escape(octets)}</title>" if octets else ""
        self.put(f'<g>{title}<path class="{kind}" d="M{start + side * 4:g} {y:g}H{stop - side * 6:g}"/>')
        if it.fate == "lost":
            self.cross(stop, y)
        else:
            tip = {"arrow": "tip", "closes": "tip-closes", "refused": "tip-refused"}[kind]
            self.put(f'<path class="{tip}" d="M{stop:g} {y:g}l{-9 * side} -4.5v9z"/>')
        self.text(middle, y - 6, it.words, "words", "middle")
        under = wrapped(it.under, GAP - 20)
        self.paragraph(middle, y + 15, under, "small", "middle")
        self.put("</g>")
        bad = "small bad" if it.fate != "came" else "small"
        self.paragraph(self.places[hub] + inward * 12, y + 4 - 7.5 * (len(said) - 1), said, bad, "start" if inward > 0 else "end")
        return y + 22 + 15 * max(0, len(under) - 1, (len(said) - 2) / 2)

    def mark(self, it, y):
        x = self.places[it.at]
        side = self.toward_hub(it.at)
        lines = wrapped(it.words, GAP - 30)
        y = self.height = y + 14
        tip = "mark" if it.fate == "came" else f"mark-{it.fate}"
        self.put(f'<circle class="{tip}" cx="{x:g}" cy="{y:g}" r="4"/>')
        self.paragraph(x + side * 12, y + 4, lines, "small bad" if it.fate != "came" else "small", "start" if side > 0 else "end")
        return y + 15 * len(lines)

    def time(self, it, y):
        y = self.height = y + 14
        self.behind.append(f'<path class="clock" d="M{CLOCK - 6} {y:g}H{self.right:g}"/>')
        self.text(CLOCK - 12, y + 4, time_words(it.ms), "small", "end")
        return y + 12

    def note(self, it, y):
        lines = wrapped(it.words, self.right - 24)
        bottom = y + 15 * len(lines) + 10
        self.put(f'<rect class="note" x="4" y="{y + 4:g}" width="{self.right:g}" height="{bottom - y - 4:g}" rx="3"/>')
        self.paragraph(12, y + 18, lines)
        self.height = y
        return bottom

    def row(self, record, y):
        kinds = {Arrow: self.arrow, Mark: self.mark, Time: self.time, Note: self.note}
        return kinds[type(record)](record, y)

    # The whole.

    def top(self):
        """The title, the caption and the heads. It answers where they end."""
        y = 26
        title = self.title if self.pages == 1 else f"{self.title}, page {self.page} of {self.pages}"
        self.text(12, y, title, "title")
        caption = wrapped(self.course.caption, self.right - 24)
        self.paragraph(12, y + 20, caption)
        y += 15 * len(caption) + 16
        if any(isinstance(it, Place) for it in self.course.records):
            self.text(CLOCK - 12, y + 27, "place", "small", "end")
        for it in self.lines:
            x = self.places[it.name]
            self.put(f'<rect class="{"hub" if it.is_hub else "head"}" x="{x - WIDTH / 2:g}" y="{y}" width="{WIDTH}" height="{HEAD}" rx="6"/>')
            self.text(x, y + (19 if it.words else 27), it.name, "name", "middle")
            self.text(x, y + 35, it.words, "small", "middle")
        return y + HEAD

    def left_out(self, y):
        """What a page says of those before and behind it."""
        others = len(self.course.lines) - len(self.lines)
        words = [f"{others} more names have nothing on this page."] if others else []
        if self.page < self.pages:
            words.append(f"The course is cut here, and goes on with page {self.page + 1} of {self.pages}.")
        return self.note(Note(" ".join(words)), y) if words else y

    def svg(self):
        top = y = self.height = self.top()
        self.states = {it: ("open", y) for it in self.hubs}
        y += 6
        row = 0
        place = None  # that of the next row
        for record in self.course.records:
            if isinstance(record, Place):
                place = record.number
            elif isinstance(record, Change):
                if record.line not in self.places:
                    continue
                if row <= self.first and self.page > 1:
                    self.states[record.line] = (record.state, top)
                else:
                    self.change(record.line, record.state, y)
            elif row < self.end:
                if row >= self.first:
                    y = self.row(record, y)
                    if place is not None:
                        self.text(CLOCK - 12, self.height + 4, f"{place:,}", "small", "end")
                place = None
                row += 1
            else:
                break
        y += 8
        for name in self.states:
            self.stretch(name, y)
        if row - self.first > FEW:
            for it in self.lines:
                self.text(self.places[it.name], y + 14, it.name, "name", "middle")
            y += 14
        y = self.left_out(y)
        width, height = self.right + 8, y + FOOT
        return "\n".join([
            f'<svg xmlns="http://www.w3.org/2000/svg" width="{width:g}" height="{height:g}" viewBox="0 0 {width:g} {height:g}" role="img">',
            f"<title>{escape(self.title)}</title>",
            f"<style>{STYLE}</style>",
            f'<rect class="paper" width="{width:g}" height="{height:g}"/>',
            *self.behind, *self.drawn, "</svg>", "",
        ])
