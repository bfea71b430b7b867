"""The ladders that the pages show, each of an example and, where it is a script, of the text that stands beside it."""
from pathlib import Path

import drawing
import journal
import replay
import simulate

TOP = Path(__file__).resolve().parents[2]
EXAMPLES = TOP / "examples"
FOLDER = TOP / "docs/ladders"
NAMES = ("unicast.script", "takeover.script", "full.script", "missed.script", "waits.script", "two-hubs.steps", "everycall.journal")
SCRIPTS = {".script": replay.read, ".steps": simulate.read}


def text_of(path):
    return path.read_bytes().decode("utf-8")


def drawn(name):
    """The ladder of an example."""
    path = EXAMPLES / name
    text = text_of(path)
    read = SCRIPTS.get(path.suffix)
    course = read(text, text_of(path.with_suffix(".out"))) if read else journal.read([(name, text)])
    return drawing.Drawing(course, path.stem).svg()


def kept(name):
    """Where the ladder of an example is kept."""
    return FOLDER / f"{Path(name).stem}.svg"
