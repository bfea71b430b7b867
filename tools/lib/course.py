"""A course: what happened between peers and hubs, as plain records in their order. A reader of a format makes them, and
`drawing` draws them; neither knows of the other."""
import re
from typing import NamedTuple, Union

NO_BREAK = "\N{NO-BREAK SPACE}"


class Line(NamedTuple):
    """A peer or a hub. It is drawn as a line from top to bottom, with its name and some words in its head."""

    name: str
    words: str = ""
    is_hub: bool = False


class Arrow(NamedTuple):
    """What goes from one line to another: a message, or the closing of a WebSocket."""

    start: str
    end: str
    words: str
    under: str = ""
    said: str = ""  # what comes of it: beside the hub
    fate: str = "came"  # or "lost", "refused"
    closes: bool = False
    octets: str = ""


class Mark(NamedTuple):
    """What happens at one line."""

    at: str
    words: str
    fate: str = "came"


class Change(NamedTuple):
    """How a line is from here on: "away", "open", "joined" or "held". It is drawn at the row before it."""

    line: str
    state: str


class Time(NamedTuple):
    """The clock is set."""

    ms: int


class Place(NamedTuple):
    """The number of the step or the entry that what follows belongs to. It stands at the left of the next row."""

    number: int


class Note(NamedTuple):
    """A remark, and no event."""

    words: str


Record = Union[Arrow, Mark, Change, Time, Place, Note]


class Course(NamedTuple):
    caption: str
    lines: list[Line]
    records: list[Record]


def tied(words):
    """Words in which a number stays with what it is the number of."""
    return re.sub(r"\b(caller|connection|hub|ID|link|node|place) (\d)", rf"\1{NO_BREAK}\2", words)


class BadText(Exception):
    """The text isn't what the script comes to. It says where."""
