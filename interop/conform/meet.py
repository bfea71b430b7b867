"""Has tools/conform hub meet hubs: meet.py [--whole]. interop/check-conform says which."""
import asyncio
import os
import re
import shutil
import socket
import subprocess
import sys
import tempfile
import time
from pathlib import Path

TOP = Path(__file__).resolve().parents[2]
sys.dont_write_bytecode = True
sys.path.insert(0, str(TOP / "tools/lib"))
import looking  # noqa: E402
from conform import rules, scripts  # noqa: E402

CONFORM, HERE = TOP / "tools/conform", TOP / "interop/conform"
PROGRAM = os.environ.get("BSC") or str(TOP / "bsc")
GROUPS = ("join", "refusals", "takeover", "unicast", "broadcast", "outbox", "malformed", "heartbeat", "timeouts", "disconnect",
          "options", "addresses", "ordering")
LEAST = 60  # scripts
AT_ONCE = 2 * (os.cpu_count() or 2)  # hubs that are met at once: what they do most is to wait
PATIENCE = 60  # seconds that a hub has to begin
PATIENT = ("--patience", 10)  # where nothing may be missed: the machine may be busy
LONGEST = 120  # seconds of a run without --times, where the machine isn't busy with something else
WAIT, OUTBOX = 1500, 16  # ms, frames
SETTINGS = """[hub]
vmac = "0200000000FF"
uuid = "00112233-4455-6677-8899-aabbccddeeff"
port = {port}
max_bvlc = 1600
max_npdu = 1497
"""
OF_OUTBOX = f"outbox = {OUTBOX}\n"
OF_TIMES = f"connect_wait_ms = {WAIT}\ndisconnect_wait_ms = {WAIT}\nheartbeat_ms = {WAIT}\n"
OF_WAITS = ("--times", f"{WAIT},{WAIT},{WAIT}", "--only", "heartbeat.", "--only", "timeouts.")

faults = []


def say(words):
    faults.append(words)
    print(f"check-conform: {words}", flush=True)


def free_port():
    with socket.create_server(("127.0.0.1", 0)) as one:
        return one.getsockname()[1]


async def run(*words):
    """The status of a run of tools/conform, and what it wrote to both of its streams."""
    done = await asyncio.create_subprocess_exec(CONFORM, *map(str, words), stdout=subprocess.PIPE, stderr=subprocess.PIPE)
    told, said = await done.communicate()
    return done.returncode, told.decode(), said.decode()


class Started:
    """A hub as a process, which is killed at the end. `uri` is where it is found."""

    def __init__(self, *command, scheme="ws"):
        self.command, self.scheme = command, scheme

    async def __aenter__(self):
        self.process = await asyncio.create_subprocess_exec(*map(str, self.command), stdout=subprocess.PIPE)
        try:
            port = await asyncio.wait_for(self.process.stdout.readline(), PATIENCE)
        except asyncio.TimeoutError:
            port = b""
        self.uri = f"{self.scheme}://127.0.0.1:{port.decode().strip() or 1}/"
        return self

    async def __aexit__(self, *_):
        if self.process.returncode is None:
            self.process.kill()
        await self.process.wait()


async def bsc_hub(work, name, more, *words):
    """The proved hub: no difference, of the profile neither."""
    port, settings = free_port(), Path(work, f"{name}.toml")
    settings.write_text(SETTINGS.format(port=port) + more)
    hub = await asyncio.create_subprocess_exec(PROGRAM, "hub", settings, stdout=subprocess.DEVNULL, stderr=subprocess.PIPE,
                                               env={**os.environ, "BSC_LOG": ""})
    try:
        begun = await asyncio.wait_for(hub.stderr.readline(), PATIENCE)
        if b" serves " not in begun:
            say(f"bsc hub doesn't serve: {begun.decode()}")
            return ""
        status, told, said = await run("hub", f"ws://127.0.0.1:{port}/", "--profile", *PATIENT, *words)
    finally:
        if hub.returncode is None:
            hub.kill()
        await hub.wait()
    if status or not told.endswith(" 0 differences of the standard, 0 of the profile\n"):
        say(f"bsc hub: status {status}\n{differing(told)}{said}")
    return f"bsc hub {' '.join(map(str, words))}: {last(told)}"


def last(told):
    return (told.splitlines() or [""])[-1].lstrip("# ")


def differing(told):
    return "".join(f"{it}\n" for it in told.splitlines() if not it.startswith("ok "))


async def clean(name, *command):
    """A small hub without a bug: no difference of the standard, in less than two minutes."""
    begun = time.monotonic()
    async with Started(*command) as hub:
        status, told, said = await run("hub", hub.uri, *PATIENT)
    took = time.monotonic() - begun
    if status or " 0 differences of the standard" not in told:
        say(f"the hub by {name}: status {status}\n{differing(told)}{said}")
    if took > LONGEST and os.getloadavg()[0] < 2 * (os.cpu_count() or 2):
        say(f"a run against the hub by {name} took {took:.0f} s")
    return f"the hub by {name}: {last(told)}; {took:.0f} s"


async def timed(name, *command):
    """The same with short waits, and the scripts on time-outs."""
    async with Started(*command, "--wait", WAIT) as hub:
        status, told, said = await run("hub", hub.uri, *PATIENT, *OF_WAITS)
    if status or not told.endswith(" 0 skipped: 0 differences of the standard, 0 of the profile\n"):
        say(f"the hub by {name} with waits of {WAIT} ms: status {status}\n{differing(told)}{said}")
    return f"the hub by {name} with waits of {WAIT} ms: {last(told)}"


async def planted(name, bug, rule, group, whole, *command):
    """A small hub with a bug: it is found, and named by its rule. It gives back by which scripts."""
    async with Started(*command, bug) as hub:
        status, told, said = await run("hub", hub.uri, *([] if whole else ["--only", f"{group}."]))
    found, script = {}, ""
    for line in told.splitlines():
        case = re.match(r"not ok \d+ - (\S+)", line)
        script = case[1] if case else script
        difference = re.match(r"# standard \S+ ([a-z-]+):", line)
        if difference:
            found.setdefault(difference[1], {})[script] = True
    if status != 1 or rule not in found:
        say(f"the hub by {name} with the bug {bug}: status {status}, and no difference by the rule {rule}\n{differing(told)}{said}")
        return ""
    return f"{name} {bug}: {rule} by {', '.join(found[rule])}"


async def chosen(choice, rule, group, *command):
    """A small hub that chose otherwise where the standard leaves it open: the status is 0, and with --profile 1."""
    async with Started(*command, choice) as hub:
        status, told, said = await run("hub", hub.uri, "--only", f"{group}.")
        strict, _, _ = await run("hub", hub.uri, "--only", f"{group}.", "--profile")
    if (status, strict) != (0, 1) or f" {rule}: " not in told or " 0 differences of the standard" not in told:
        say(f"a hub with the choice {choice}: status {status}, with --profile {strict}\n{differing(told)}{said}")
        return ""
    return f"{choice}: {rule}, of the profile"


def listed(command, word):
    """The bugs or choices of a hub: the word, the rule, and a group of scripts."""
    return [line.split() for line in subprocess.run([*map(str, command), word], capture_output=True, text=True).stdout.splitlines()]


async def no_hub():
    """Where there is no hub the status is 3, and where the words are wrong 2; a line says why."""
    port = free_port()
    for wanted, why, *words in (
            (3, "no connection", "hub", f"ws://127.0.0.1:{port}/"),
            (2, "first word", ), (2, "first word", "hubs"), (2, "URI", "hub"), (2, "URI", "hub", "http://127.0.0.1/"),
            (2, "--times", "hub", "ws://127.0.0.1/", "--times", "1,2"), (2, "--outbox", "hub", "ws://127.0.0.1/", "--outbox", "x"),
            (2, "no script", "hub", f"ws://127.0.0.1:{port}/", "--only", "nothing"),
            (2, "no script", "hub", "--print", "nothing")):
        status, told, said = await run(*words)
        if status != wanted or why not in said or told or "Traceback" in said:
            say(f"the words {words}: status {status} in place of {wanted}: {told}{said}")
    async with Started(sys.executable, "-c", NO_PROTOCOL) as hub:
        status, told, said = await run("hub", hub.uri)
        if status != 3 or "sub-protocol" not in said:
            say(f"a hub that agrees to no sub-protocol: status {status}: {told}{said}")


NO_PROTOCOL = """
import asyncio, websockets
async def main():
    async with websockets.serve(lambda ws: ws.wait_closed(), "127.0.0.1", 0) as server:
        print(server.sockets[0].getsockname()[1], flush=True)
        await asyncio.Future()
asyncio.run(main())
"""


def certificates(work):
    """A CA with a certificate for each end, and a stranger's."""
    def openssl(*words):
        subprocess.run(["openssl", *words], cwd=work, check=True, capture_output=True)

    make = ("req", "-x509", "-newkey", "ec", "-pkeyopt", "ec_paramgen_curve:prime256v1", "-nodes", "-days", "2")
    for name in ("ca", "stranger"):
        openssl(*make, "-subj", f"/CN={name}", "-keyout", f"{name}.key", "-out", f"{name}.pem")
    for name in ("hub", "node"):
        openssl(*make, "-subj", f"/CN={name}", "-CA", "ca.pem", "-CAkey", "ca.key", "-keyout", f"{name}.key", "-out", f"{name}.pem")


async def over_tls(work):
    """A hub over TLS: met with a certificate of its CA, and refused with a stranger's and with none."""
    if not shutil.which("openssl"):
        return "openssl isn't installed, so nothing was met over TLS"
    certificates(work)
    at = lambda name: Path(work, name)
    async with Started(sys.executable, HERE / "python_hub.py", "--tls", at("ca.pem"), at("hub.pem"), at("hub.key"), scheme="wss") as hub:
        own = ["--cert", at("node.pem"), "--key", at("node.key")]
        stranger = ["--cert", at("stranger.pem"), "--key", at("stranger.key")]
        for words, wanted in ((["--ca", at("ca.pem"), *own], 0), (["--ca", at("ca.pem"), *stranger], 3),
                              (["--ca", at("ca.pem")], 3), (["--ca", at("stranger.pem"), *own], 3)):
            status, told, said = await run("hub", hub.uri, *words, "--only", "unicast.arrives")
            if status != wanted or wanted and "TLS" not in said:
                say(f"over TLS with {[str(it) for it in words]}: status {status} in place of {wanted}: {told}{said}")
    return "over TLS: met with a certificate, refused without"


async def the_page(work):
    """The page of a hub with a bug has a section of each script that differs, with two ladders. A browser lays them out."""
    path = Path(work, "page.html")
    async with Started(sys.executable, HERE / "python_hub.py", "old-holder") as hub:
        await run("hub", hub.uri, "--only", "takeover.", "--html", path)
    text = path.read_text(encoding="utf-8") if path.exists() else ""
    sections = re.findall(r'<section id="([\w.-]+)">(.*?)</section>', text, re.S)
    ladders = [it for _, words in sections for it in re.findall(r"<svg .*?</svg>", words, re.S)]
    if "takeover.unicast-to-the-new" not in dict(sections) or len(ladders) != 2 * len(sections) or "old-holder" not in text:
        say(f"the page has sections of {[name for name, _ in sections]}, with {len(ladders)} ladders")
    if not looking.browser():
        return f"a page with {len(ladders)} ladders; Chromium isn't installed to look at it"
    for scheme in looking.SCHEMES:
        found = await asyncio.to_thread(looking.faults_of, ladders, scheme)
        for fault in ["the browser doesn't say"] if found is None else sum(found, []):
            say(f"a ladder of the page, {scheme}: {fault}")
    seen = await asyncio.to_thread(dumped, path)
    if 'id="takeover.unicast-to-the-new"' not in seen or seen.count("<svg ") != len(ladders):
        say("the browser doesn't show the ladder of takeover.unicast-to-the-new")
    return f"a page with {len(ladders)} ladders, which Chromium shows"


def dumped(path):
    """The page as the browser has it."""
    asked = [looking.browser(), "--headless", "--no-sandbox", "--disable-gpu", f"--user-data-dir={path}.profile", "--dump-dom", path.as_uri()]
    return subprocess.run(asked, capture_output=True, text=True, timeout=looking.PATIENCE).stdout


def the_scripts():
    """There are enough of them, in all groups, and no clause is named but those of docs/reference/DEFINITIONS.md."""
    found = scripts.all_scripts()
    page = (TOP / "docs/reference/DEFINITIONS.md").read_text(encoding="utf-8")
    named = {it.clause for it in [*found, *rules.RULES.values()] if it.clause}
    strange = sorted(it for it in named if not re.search(rf"\b{re.escape(it)}\b(?!\.\d)", page))
    if strange:
        say(f"docs/reference/DEFINITIONS.md names no clause {', '.join(strange)}")
    counts = {group: sum(it.group == group for it in found) for group in GROUPS}
    if len(found) < LEAST or not all(counts.values()) or sum(counts.values()) != len(found):
        say(f"of {len(found)} scripts the groups have {counts}")
    return f"{len(found)} scripts in {len(counts)} groups"


async def main(words):
    # Where the program isn't built yet, that comes first: it takes longer than any patience.
    if subprocess.run([PROGRAM, "check"], stdin=subprocess.DEVNULL, stdout=subprocess.DEVNULL).returncode:
        print("check-conform: the program isn't built")
        return 1
    whole = words == ["--whole"]
    begun = time.monotonic()
    room = asyncio.Semaphore(AT_ONCE)

    async def one(task):
        async with room:
            return await task

    with tempfile.TemporaryDirectory(ignore_cleanup_errors=True) as work:
        hubs = {"python3-websockets": (sys.executable, HERE / "python_hub.py")}
        if shutil.which("node") and not subprocess.run(["node", HERE / "node_hub.js", "--bugs"], capture_output=True).returncode:
            hubs["node-ws"] = ("node", HERE / "node_hub.js")
        else:
            print("check-conform: node or node-ws isn't installed, so the hub by it isn't met")
        proved = [bsc_hub(work, "all", ""), bsc_hub(work, "outbox", OF_OUTBOX, "--outbox", OUTBOX, "--only", "outbox."),
                  bsc_hub(work, "times", OF_TIMES, *OF_WAITS)]
        small = [meets(name, *it) for name, it in hubs.items() for meets in (clean, timed)]
        tasks = [*proved, *small, no_hub(), over_tls(work), the_page(work)]
        python_hub = hubs["python3-websockets"]
        tasks += [chosen(*choice, *python_hub) for choice in listed(python_hub, "--choices")]
        bugs = [planted(name, *bug, whole, *it) for name, it in hubs.items() for bug in listed(it, "--bugs")]
        told = await asyncio.gather(*map(one, [*tasks, *bugs]))
    for line in [the_scripts(), *filter(None, told)]:
        print(f"check-conform: {line}")
    found = sum(bool(it) for it in told[len(tasks):])
    print(f"check-conform: {found} of {len(bugs)} bugs found, {len(faults)} faults; {time.monotonic() - begun:.0f} s")
    return 1 if faults else 0


sys.exit(asyncio.run(main(sys.argv[1:])))
