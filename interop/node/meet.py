#!/usr/bin/env python3
"""Nodes of `./bsc node` at two hubs of `./bsc hub` that are killed and started again; one at a hub by another library; and one with
32 direct connections by that library. With the word --alone the first of these is all, and needs no library."""
import asyncio
import sys
import tempfile
from pathlib import Path

sys.dont_write_bytecode = True
ROOT = Path(__file__).resolve().parents[2]
sys.path += [str(ROOT / "bench" / "live"), str(ROOT / "interop" / "hub")]
from live import Failed, TooBusy  # noqa: E402
from nodes import Network, Watch  # noqa: E402

ALONE = sys.argv[1:] == ["--alone"]
if not ALONE:
    import many
    import other_hub

# How long the nodes run, in seconds, and how often each sends, in milliseconds.
SECONDS, EVERY = 26, 100


def at_hubs(folder):
    with Network(folder, SECONDS, EVERY) as network:
        network.begin()
        network.fail_over_and_back()
        if network.left() < 4:
            raise TooBusy("the hubs came back too late")
        sent, came = network.end()
    return f"of {sent} NPDUs of three nodes {came} came, each once and as it was sent, the others while no hub was there for them"


def by_itself(scene, folder):
    """A scene that tells its own time: what goes wrong goes wrong of itself where the machine is too busy."""
    watch = Watch()
    try:
        return asyncio.run(scene(folder))
    except Failed as why:
        watch.judge(str(why))
    finally:
        watch.is_over = True


def main():
    with tempfile.TemporaryDirectory() as folder:
        if ALONE:
            print(f"check-node: {at_hubs(folder)}; no more of it, since python3-websockets is not installed")
            return
        print(f"check-node: {at_hubs(folder)}; {by_itself(other_hub.meet, folder)} came back from a hub by websockets; "
              f"{by_itself(many.meet, folder)} went by 32 direct connections")


try:
    main()
except TooBusy as why:
    print(f"check-node: not all of it could be met, the machine is too busy: {why}")
except Failed as why:
    sys.exit(f"check-node: {why}")
