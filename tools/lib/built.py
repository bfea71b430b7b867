"""Where the program bsc is that a tool asks."""
import os
import shutil
from pathlib import Path

TOP = Path(__file__).resolve().parents[2]
IN_A_CHECKOUT = (TOP / "out/bsc", TOP / "crates/bsc_program/out/bsc_program")


def places():
    """Where it may be: the package that has these tools has the program too, in bin/ beside share/."""
    return (TOP.parents[1] / "bin/bsc",) if TOP.parent.name == "share" else IN_A_CHECKOUT


def found():
    """The program that is built in this checkout, or that of the package. None is built for this."""
    return next((str(it) for it in places() if os.access(it, os.X_OK) and it.is_file()), None)


def found_anywhere():
    """The same, or else one on the PATH."""
    return found() or shutil.which("bsc")
