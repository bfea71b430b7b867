#!/usr/bin/env python3
"""A hub that tells how it is doing, read while clients of another library join and send."""
import asyncio
import re
import sys
import tempfile
from pathlib import Path

sys.dont_write_bytecode = True
ROOT = Path(__file__).resolve().parents[2]
sys.path += [str(ROOT / "bench" / "live"), str(ROOT / "interop" / "hub")]
import bvlc  # noqa: E402
from bvlc import Identity  # noqa: E402
from live import Failed, TooBusy  # noqa: E402
from nodes import Watch  # noqa: E402
import served  # noqa: E402
from served import PATIENCE, builds, has_libraries, house, same  # noqa: E402

WHO_IS = bytes.fromhex("0120FFFF00FF1008")
SENT = 20
# So many times the file is read while the hub writes it, and at least so many of its writes are met.
READS, WRITES = 1000, 2
LIMIT = 10 * PATIENCE
NAME = re.compile(r"bsc_hub_[a-z_]+")


def somebody(letter):
    return Identity(bytes.fromhex(f"02000000000{letter}"), bytes.fromhex(letter * 32))


def metrics_in(text):
    """The metrics of a text, by a strict reading of its format: each has HELP, TYPE and one sample, in this order, and a name of its own."""
    if not text.endswith("\n"):
        raise Failed("the status file doesn't end with a line")
    lines = text[:-1].split("\n")
    if len(lines) % 3:
        raise Failed(f"the status file has {len(lines)} lines")
    found = {}
    for about, kind, sample in zip(lines[::3], lines[1::3], lines[2::3]):
        name, value = sample.split(" ")
        if not NAME.fullmatch(name) or not value.isdigit() or name in found:
            raise Failed(f"{sample!r} is no sample")
        if not about.startswith(f"# HELP {name} ") or about == f"# HELP {name} ":
            raise Failed(f"{about!r} stands before the sample of {name}")
        if kind != f"# TYPE {name} {'counter' if name.endswith('_total') else 'gauge'}":
            raise Failed(f"{kind!r} stands before the sample of {name}")
        found[name[len("bsc_hub_"):]] = int(value)
    return found


async def until(what, seconds):
    """Waits until this is so."""
    for _ in range(int(seconds * 20)):
        if what():
            return
        await asyncio.sleep(0.05)
    raise Failed("it isn't so in time")


async def told(folder):
    status, stop = folder / "status.prom", folder / "stop"
    served.ENVIRONMENT["BSC_LOG"] = "1"
    async with house(folder, "--status-file", status, "--stop-file", stop) as it:
        await until(status.exists, PATIENCE)
        same(metrics_in(status.read_text())["connections"], 0, "the connections of a hub that nobody joined")
        a, b = await it.joined("python", somebody("A")), await it.joined("python", somebody("B"))
        for number in range(SENT):
            await a.give(bvlc.npdu(number, b.who.vmac, WHO_IS + number.to_bytes(4, "big")))
        # A torn file would fail `metrics_in`; the clock of the hub writes one each ten seconds.
        written = set()
        for _ in range(READS):
            metrics_in(status.read_text())
            written.add(status.stat().st_mtime_ns)
            await asyncio.sleep(25 / READS)
        if len(written) < WRITES:
            raise Failed("the status file is written too seldom")
        now = metrics_in(status.read_text())
        same({name: now[name] for name in ("connections", "rows", "joined_total", "unicasts_total", "appended_total", "dropped_total")},
             {"connections": 2, "rows": 2, "joined_total": 2, "unicasts_total": SENT, "appended_total": SENT, "dropped_total": 0}, "what the hub tells")
        same(status.with_name(status.name + ".new").exists(), False, "that the new file stays")
        stop.touch()
        await it.hub.ended()
        last = metrics_in(status.read_text())
        same((last["joined_total"], last["unicasts_total"]), (2, SENT), "what the hub tells before its stop")
        lines = [line for line in it.hub.said().splitlines() if re.fullmatch(r"\S+Z status( [a-z_]+=\d+)+", line)]
        if len(lines) < 2 or f" unicasts_total={SENT} " not in lines[-1]:
            raise Failed(f"the log has {len(lines)} lines of its status")
    return f"{len(now)} metrics, read {READS} times while {len(written)} files were written, and {len(lines)} lines of the log"


async def kept_from_writing(folder):
    """A file that can't be written is told once, and once more when it can again."""
    place = folder / "gone"
    status, stop = place / "status.prom", folder / "stop"
    async with house(folder, "--status-file", status, "--stop-file", stop) as it:
        said = f"bsc: the status file {status} can't be written: "
        await until(lambda: said in it.hub.said(), PATIENCE)
        place.mkdir()
        await until(lambda: f"bsc: the status file {status} is written again" in it.hub.said(), 2 * PATIENCE)
        same(it.hub.said().count(said), 1, "how often it is told")
        stop.touch()
        await it.hub.ended()
    return "one that couldn't be written for a while"


async def scenes(folder):
    found = []
    for scene in told, kept_from_writing:
        place = folder / scene.__name__
        place.mkdir()
        try:
            found.append(await asyncio.wait_for(scene(place), LIMIT))
        except asyncio.TimeoutError:
            raise Failed(f"the scene {scene.__name__} took more than {LIMIT} s") from None
    return found


def main():
    why = has_libraries()
    if why:
        return f"skipped, {why}"
    if not builds():
        raise Failed("the program doesn't run")
    watch = Watch()
    try:
        with tempfile.TemporaryDirectory() as folder:
            return "; ".join(asyncio.run(scenes(Path(folder))))
    except OSError as why:
        watch.judge(repr(why))
    except Failed as why:
        watch.judge(str(why))
    finally:
        watch.is_over = True


try:
    print(f"check-status: {main()}")
except TooBusy as why:
    print(f"check-status: not all of it could be met, the machine is too busy: {why}")
except Failed as why:
    sys.exit(f"check-status: {why}")
