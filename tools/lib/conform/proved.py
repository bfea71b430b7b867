"""The proved program: where it is, and what it answers."""
import os
import subprocess
from pathlib import Path

import built

TOP = Path(__file__).resolve().parents[3]
PATIENCE = 600  # seconds that a run may take


class NoProgram(Exception):
    """The program isn't there, or didn't do what it is for."""


def program():
    """The program: that which BSC names, that of this checkout or of the package, or that on the PATH. None is built for this."""
    found = os.environ.get("BSC") or built.found_anywhere()
    if not found:
        raise NoProgram("there is no bsc; in a checkout ./bsc check < /dev/null proves and builds it, and BSC=PATH names another program")
    return found


def answers(command, text):
    """What the program writes for an input, as lines. `command` is `check` or `replay`."""
    try:
        done = subprocess.run([program(), command], input=text, capture_output=True, text=True, timeout=PATIENCE)
    except OSError as why:
        raise NoProgram(f"{program()} can't be run: {why.strerror}; BSC=PATH names another program") from None
    except subprocess.TimeoutExpired:
        raise NoProgram(f"{program()} {command} didn't end within {PATIENCE} s") from None
    if done.returncode:
        last = (done.stdout.splitlines() or [""])[-1]
        raise NoProgram(f"{program()} {command} ended with status {done.returncode}: {last} {done.stderr.strip()}")
    return done.stdout.splitlines()
