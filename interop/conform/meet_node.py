"""Has tools/conform node meet nodes: meet_node.py [--whole]. interop/check-conform-node says which."""
import asyncio
import os
import random
import re
import socket
import subprocess
import sys
import tempfile
import time
from pathlib import Path

TOP = Path(__file__).resolve().parents[2]
sys.dont_write_bytecode = True
sys.path.insert(0, str(TOP / "tools/lib"))
import looking  # noqa: E402
from conform import node_cases, node_rules  # noqa: E402

CONFORM, NODE = TOP / "tools/conform", TOP / "interop/conform/python_node.py"
PROGRAM = os.environ.get("BSC") or str(TOP / "bsc")
GROUPS = ("join", "answers", "refusals", "leave", "renewal", "failover", "backoff", "times", "direct")
LEAST = 60  # cases
AT_ONCE = 2 * (os.cpu_count() or 2)  # nodes that are met at once: what they do most is to wait
PATIENCE = 60  # seconds that a tool has to listen
PATIENT = ("--patience", 10, "--profile")  # where nothing may be missed: the machine may be busy
WAIT, LEAST_WAIT, GREATEST_WAIT = 1500, 200, 1000  # ms
OF_WAITS = ("--times", f"{WAIT},{WAIT},{WAIT}", "--reconnect", f"{LEAST_WAIT},{GREATEST_WAIT}", "--direct-dials", 20)
PEER = "02000000000E"
RUNS = 600  # seconds that a node of bsc runs at most
SETTINGS = """[node]
vmac = "02000000000A"
uuid = "11111111-2222-3333-4444-555555555555"
primary = "ws://127.0.0.1:{primary}/"
{failover}max_bvlc = 1600
"""
OF_FAILOVER = 'failover = "ws://127.0.0.1:{failover}/"\n'
OF_DIRECT = 'direct_port = {own}\ndirect_uris = "ws://127.0.0.1:{own}/"\n'
OF_TIMES = (f"connect_wait_ms = {WAIT}\ndisconnect_wait_ms = {WAIT}\nheartbeat_ms = {WAIT}\nleast_reconnect_ms = {LEAST_WAIT}\n"
            f"greatest_reconnect_ms = {GREATEST_WAIT}\n")

faults = []

# The ports that were given to a run here.
GIVEN = set()


def say(words):
    faults.append(words)
    print(f"check-conform-node: {words}", flush=True)


def free_ports(count):
    """Ports that nobody has, each another one. They lie below those that the system gives to whoever dials, as many dial here at
    once."""
    ports = []
    while len(ports) < count:
        port = random.randrange(10_000, 30_000)
        try:
            socket.create_server(("127.0.0.1", port)).close()
        except OSError:
            continue
        if port not in GIVEN:
            GIVEN.add(port)
            ports.append(port)
    return ports


async def met(node, ports, *words):
    """A run of tools/conform node: its status, and what it wrote to both of its streams. `node` are the words that start the node,
    once the tool listens."""
    tool = await asyncio.create_subprocess_exec(CONFORM, "node", "--ports", ",".join(map(str, ports[:3])), *map(str, words),
                                                stdout=subprocess.PIPE, stderr=subprocess.PIPE)
    first, process = b"", None
    try:
        while b"waiting" not in first:
            line = await asyncio.wait_for(tool.stdout.readline(), PATIENCE)
            if not line:
                break
            first += line
        if node and tool.returncode is None:
            process = await asyncio.create_subprocess_exec(*map(str, node), stdout=subprocess.DEVNULL, stderr=subprocess.DEVNULL,
                                                           env={**os.environ, "BSC_LOG": ""})
        told, said = await tool.communicate()
    finally:
        for it in filter(None, (process, tool)):
            if it.returncode is None:
                it.kill()
            await it.wait()
    return tool.returncode, (first + told).decode(), said.decode()


async def bsc_node(work, name, more, *words):
    """The proved node: no difference, of the profile neither."""
    ports = free_ports(4)
    at = dict(zip(("primary", "failover", "peer", "own"), ports))
    settings, script = Path(work, f"{name}.toml"), Path(work, f"{name}.script")
    settings.write_text(SETTINGS.format(failover=OF_FAILOVER.format(**at) if OF_FAILOVER in more else "", **{"primary": at["primary"]})
                        + more.replace(OF_FAILOVER, "").format(**at))
    seconds = [f"at {n * 1000}\nresolve {PEER}\ndirect {PEER}\n" for n in range(1, RUNS)] if OF_DIRECT in more else []
    script.write_text("".join([*seconds, f"at {RUNS * 1000}\nfinish\n"]))
    begun = time.monotonic()
    status, told, said = await met((PROGRAM, "node", settings, script), ports, *PATIENT, *words)
    if status or not told.endswith(": 0 differences of the standard, 0 of the profile\n"):
        say(f"bsc node, {name}: status {status}\n{differing(told)}{said}")
    return f"bsc node, {name}: {last(told)}; {time.monotonic() - begun:.0f} s"


def last(told):
    return (told.splitlines() or [""])[-1].lstrip("# ")


def differing(told):
    return "".join(f"{it}\n" for it in told.splitlines() if not it.startswith("ok "))


def python_node(ports, *bug):
    return (sys.executable, NODE, f"ws://127.0.0.1:{ports[0]}/", f"ws://127.0.0.1:{ports[1]}/", PEER, *bug)


async def clean():
    """The small node without a bug: no difference either."""
    ports = free_ports(3)
    status, told, said = await met(python_node(ports), ports, *PATIENT, *OF_WAITS)
    if status or not told.endswith(" 0 skipped: 0 differences of the standard, 0 of the profile\n"):
        say(f"the node by python3-websockets: status {status}\n{differing(told)}{said}")
    return f"the node by python3-websockets: {last(told)}"


async def planted(bug, rule, group, whole):
    """The small node with a bug: it is found, and named by its rule. It gives back by which cases."""
    ports = free_ports(3)
    status, told, said = await met(python_node(ports, bug), ports, *OF_WAITS, *([] if whole else ["--only", group]))
    found, case = {}, ""
    for line in told.splitlines():
        case = (re.match(r"not ok \d+ - (\S+)", line) or [0, case])[1]
        difference = re.match(r"# standard \S+ ([a-z-]+):", line)
        if difference:
            found.setdefault(difference[1], {})[case] = True
    if status != 1 or rule not in found:
        say(f"the bug {bug}: status {status}, and no difference by the rule {rule}\n{differing(told)}{said}")
        return ""
    return f"{bug}: {rule} by {', '.join(found[rule])}"


async def no_node():
    """Where no node comes the status is 3; where the words are wrong, or a port is taken, 2. A line says why."""
    for wanted, why, *words in (
            (3, "no node dialled", "--wait", "0.5"), (2, "--ports", "--ports", "1,2"), (2, "three ports", "--ports", "1,1,2"),
            (2, "--times", "--times", "1"), (2, "--reconnect", "--reconnect", "x,y"), (2, "go together", "--cert", "x"),
            (2, "no case", "--only", "nothing")):
        status, told, said = await met((), free_ports(3), *words)
        if status != wanted or why not in said or "Traceback" in said or "TAP" in told:
            say(f"the words {words}: status {status} in place of {wanted}: {told}{said}")
    with socket.create_server(("127.0.0.1", 0)) as one:
        status, told, said = await met((), [one.getsockname()[1], *free_ports(2)], "--wait", "0.5")
    if status != 2 or "can't be bound" not in said:
        say(f"a port that is taken: status {status}: {told}{said}")


async def the_page(work):
    """The page of a node with a bug has a section of each case that differs, with two ladders. A browser lays them out."""
    path, ports = Path(work, "page.html"), free_ports(3)
    await met(python_node(ports, "nak-closes"), ports, "--only", "refusals.unknown", "--html", path)
    text = path.read_text(encoding="utf-8") if path.exists() else ""
    sections = dict(re.findall(r'<section id="([\w.-]+)">(.*?)</section>', text, re.S))
    ladders = [it for words in sections.values() for it in re.findall(r"<svg .*?</svg>", words, re.S)]
    if "refusals.unknown-0d" not in sections or len(ladders) != 2 * len(sections) or "close-undue" not in text:
        say(f"the page has sections of {list(sections)}, with {len(ladders)} ladders")
    if not looking.browser():
        return f"a page with {len(ladders)} ladders; Chromium isn't installed to look at it"
    for scheme in looking.SCHEMES:
        found = await asyncio.to_thread(looking.faults_of, ladders, scheme)
        for fault in ["the browser doesn't say"] if found is None else sum(found, []):
            say(f"a ladder of the page, {scheme}: {fault}")
    return f"a page with {len(ladders)} ladders, which Chromium shows"


def the_cases():
    """There are enough of them, in all groups, and no clause is named but those of docs/reference/DEFINITIONS.md."""
    page = (TOP / "docs/reference/DEFINITIONS.md").read_text(encoding="utf-8")
    named = {it.clause for it in [*node_cases.CASES, *node_rules.RULES.values()] if it.clause}
    strange = sorted(it for it in named if not re.search(rf"\b{re.escape(it)}\b(?!\.\d)", page))
    if strange:
        say(f"docs/reference/DEFINITIONS.md names no clause {', '.join(strange)}")
    names = [it.name for it in node_cases.CASES]
    counts = {group: sum(it.group == group for it in node_cases.CASES) for group in GROUPS}
    if len(names) < LEAST or len(set(names)) < len(names) or not all(counts.values()) or sum(counts.values()) != len(names):
        say(f"of {len(names)} cases the groups have {counts}")
    return f"{len(names)} cases in {len(counts)} groups"


async def main(words):
    # Where the program isn't built yet, that comes first: it takes longer than any patience.
    if subprocess.run([PROGRAM, "check"], stdin=subprocess.DEVNULL, stdout=subprocess.DEVNULL).returncode:
        print("check-conform-node: the program isn't built")
        return 1
    begun, room = time.monotonic(), asyncio.Semaphore(AT_ONCE)

    async def one(task):
        async with room:
            return await task

    listed = subprocess.run([sys.executable, NODE, "--bugs"], capture_output=True, text=True).stdout.splitlines()
    with tempfile.TemporaryDirectory(ignore_cleanup_errors=True) as work:
        tasks = [bsc_node(work, "all", OF_FAILOVER + OF_DIRECT + OF_TIMES, *OF_WAITS),
                 bsc_node(work, "alone", OF_TIMES, "--no-failover"), clean(), no_node(), the_page(work)]
        bugs = [planted(*line.split(), words == ["--whole"]) for line in listed]
        told = await asyncio.gather(*map(one, [*tasks, *bugs]))
    for line in [the_cases(), *filter(None, told)]:
        print(f"check-conform-node: {line}")
    found = sum(bool(it) for it in told[len(tasks):])
    print(f"check-conform-node: {found} of {len(bugs)} bugs found, {len(faults)} faults; {time.monotonic() - begun:.0f} s")
    return 1 if faults else 0


sys.exit(asyncio.run(main(sys.argv[1:])))
