"""Tests a node of BACnet/SC: it stands as its primary hub, its failover hub and a peer, and tells where the node does otherwise than
the definition says.

    tools/conform node
    tools/conform node --host 192.0.2.7 --times 10000,10000,300000 --reconnect 2000,30000 --html report.html
    tools/conform node --ports 47808,47809,47810 --ca ca.pem --cert hub.pem --key hub.key

It listens, says by which URIs the node is pointed at it, and waits for the node. Then each case has a line in TAP, and below it each
difference: whether it is of the standard or of the profile, the clause of ANSI/ASHRAE 135-2020, Annex AB, where it is known, the rule,
at whom it is seen, and what came. The profile is what this project chose where the standard leaves it open; a case that differs from
that alone is marked TODO. Which NAK is due bsc check says: that of this checkout or of the package, or which BSC names.

The node may send what it wants meanwhile: its questions to the hub and to the peer 02000000000E are answered. Some cases wait until
it dials again; so its least reconnect time is best short. No second run of this tool may be at the node.

Status 0: nothing of the standard differs. 1: something does. 2: the words are wrong, a port can't be bound, or bsc isn't there.
3: no node came.
"""
import argparse
import asyncio
import ssl
import sys
from pathlib import Path
from typing import NamedTuple

from conform import definition, node_page, peers, report
from conform.node_cases import CASES
from conform.standing import PEER, Stand
from conform.turn import NoDial, Node, NoRequest, Skip, Turn
from message import digits_of

SAME, DIFFERS, WORDS, NO_NODE = range(4)
PORTS = "47808,47809,47810"
PATIENCE = 3.0  # seconds for what is due
DIALS = 45.0  # seconds within which a node dials again, where --reconnect isn't given
GONE = 2  # cases in a row in which the node didn't dial, or didn't say who it is
LONGEST = 60  # seconds that a case may take, beside the waits that are handed in


class Result(NamedTuple):
    """What became of a case, and the two courses that are drawn of it."""

    script: object
    skipped: str = ""
    differences: tuple = ()
    strangers: int = 0
    expected: tuple = ()
    found: tuple = ()


class NoNode(Exception):
    """No node came. It says why."""


def left_out(case, asked):
    """Why a case isn't played, if so."""
    missing = {"times": not asked.times, "reconnect": not asked.reconnect, "dials": not asked.direct_dials, "failover": asked.no_failover}
    if missing.get(case.needs):
        return {"dials": "--direct-dials isn't given", "failover": "the node has no failover hub"}.get(case.needs, f"--{case.needs} isn't given")
    return ""


async def played(case, asked, stand, node):
    """Plays one case, and gives back its result."""
    skipped = left_out(case, asked)
    if skipped:
        return Result(case, skipped)
    turn = Turn(case, asked, stand, node)
    waits = sum(asked.times or ()) / 250 + sum(asked.reconnect or ()) / 200 + asked.dials + (asked.direct_dials or 0)
    try:
        await asyncio.wait_for(case.play(turn), LONGEST + waits)
    except Skip as why:
        return Result(case, str(why))
    except NoDial as why:
        turn.differ("dial", "primary", str(why))
        node.gone += 1
    except NoRequest:
        node.gone += 1
    except asyncio.TimeoutError:
        turn.differ("dial", "primary", f"the case didn't end within {LONGEST + waits:.0f} s")
    else:
        node.gone = 0
    finally:
        stand.turn = None
    if case.group != "failover" or turn.differences:
        await at_home(stand, node)
    return Result(case, "", tuple(turn.differences), 0, tuple(turn.expected), tuple(turn.found))


async def at_home(stand, node):
    """The primary hub and the peer take the node again, and the failover doesn't."""
    for name, side in stand.sides.items():
        side.refuses = name == "failover"
    if node.failover and not node.failover.closed:
        await node.failover.close()
    node.failover = None


def pointing(asked, stand):
    """How the node under test is pointed at this tool."""
    uris = [f"{stand.scheme}://{asked.host}:{port}/" for port in asked.ports]
    return (f"# primary hub  {uris[0]}\n# failover hub {uris[1]}\n# a peer       {digits_of(PEER)}, which accepts direct connections at {uris[2]}\n"
            f"# waiting {asked.wait:g} s for the node to dial its primary hub")


def contexts(asked):
    """TLS as a server and as a client, where a certificate is given."""
    if not asked.cert:
        return None, None
    try:
        server, client = ssl.SSLContext(ssl.PROTOCOL_TLS_SERVER), ssl.create_default_context(cafile=asked.ca)
        client.check_hostname = False
        for it in server, client:
            it.load_cert_chain(asked.cert, asked.key)
        if asked.ca:
            server.load_verify_locations(asked.ca)
            server.verify_mode = ssl.CERT_REQUIRED
        return server, client
    except (OSError, ssl.SSLError) as why:
        raise peers.NoConnection(f"the CA, the certificate or the key can't be used: {why}") from None


async def run(asked):
    tls, asked.tls_out = contexts(asked)
    scheme = "wss" if tls else "ws"
    stand = Stand(asked.host, scheme, f"{scheme}://{asked.host}:{asked.ports[2]}/")
    definition.program()
    try:
        await stand.listen(asked.ports, tls)
        return await judged(asked, stand)
    finally:
        await stand.leave()


async def judged(asked, stand):
    """Waits for the node, and plays all cases. The status."""
    print(pointing(asked, stand), flush=True)
    primary, node = stand.sides["primary"], Node()
    link = await primary.next(asked.wait)
    if link is None:
        raise NoNode(f"{len(primary.dials)} times something dialled, and no WebSocket came of it" if primary.dials else "no node dialled")
    primary.links.insert(0, link)
    told = report.Tap(asked.chosen, "the node dials", asked.profile, "cases")
    for case in asked.chosen:
        told.add(await played(case, asked, stand, node))
        if node.gone == GONE:
            told.say("Bail out! the node doesn't dial any more, or doesn't say who it is")
            break
    if node.device:
        told.say(f"# the node {digits_of(node.vmac)}, device {digits_of(node.device)}, takes {node.max_bvlc} octets and NPDUs of {node.max_npdu}")
    told.end()
    if asked.html:
        Path(asked.html).write_text(node_page.page(node, told.results), encoding="utf-8")
    return DIFFERS if told.failed else SAME


def numbers(count, least, greatest):
    """A word of so many numbers with commas between."""
    def read(word):
        found = [int(it) for it in word.split(",")]
        if len(found) != count or min(found) < least or max(found) > greatest:
            raise ValueError
        return found
    return read


def words_of(arguments):
    words = argparse.ArgumentParser(prog="tools/conform node", description=__doc__, formatter_class=argparse.RawDescriptionHelpFormatter)
    words.add_argument("--host", default="127.0.0.1", help="the address that is bound, by which the node reaches it; 127.0.0.1 where it is missing")
    words.add_argument("--ports", type=numbers(3, 1, 65535), default=PORTS, metavar="P,F,D",
                       help=f"ports of the primary hub, the failover hub and the peer; {PORTS} where it is missing")
    words.add_argument("--wait", type=float, default=120.0, metavar="SECONDS", help="how long the node has to come at first; 120")
    words.add_argument("--only", action="append", metavar="NAME", help="only cases whose names begin so; may be said again")
    words.add_argument("--list", action="store_true", help="writes the cases, and what each is about")
    words.add_argument("--profile", action="store_true", help="differences of the profile make the status 1 too")
    words.add_argument("--times", type=numbers(3, 1, 10**9), metavar="C,D,H", help="the node's waits in ms: connect, disconnect, heartbeat")
    words.add_argument("--reconnect", type=numbers(2, 1, 10**9), metavar="L,G", help="its least and greatest wait before it dials again, in ms")
    words.add_argument("--no-failover", action="store_true", help="the node has no failover hub")
    words.add_argument("--direct-dials", type=float, metavar="SECONDS", help="the node dials the peer directly, within so many seconds")
    words.add_argument("--patience", type=float, default=PATIENCE, metavar="SECONDS", help=f"how long is waited for what is due; {PATIENCE:g}")
    words.add_argument("--html", metavar="FILE", help="writes a page, with ladders of what was due and what came")
    words.add_argument("--ca", metavar="FILE", help="the CA of the node's certificate, for wss://")
    words.add_argument("--cert", metavar="FILE", help="the own certificate; with it all URIs begin with wss://")
    words.add_argument("--key", metavar="FILE", help="its key")
    asked = words.parse_args(arguments)
    if bool(asked.cert) != bool(asked.key):
        words.error("--cert and --key go together")
    if len(set(asked.ports)) != 3:
        words.error("--ports are three ports")
    asked.chosen = [it for it in CASES if not asked.only or it.name.startswith(tuple(asked.only))]
    if not asked.chosen:
        words.error("there is no case of that name; --only takes the beginnings of names")
    asked.dials = asked.reconnect[1] / 1000 * 1.5 + 2 * asked.patience if asked.reconnect else DIALS
    return asked


def main(arguments):
    try:
        asked = words_of(arguments)
        if asked.list:
            print("\n".join(f"{it.name:32} {it.clause or '-':9} {it.says}" for it in asked.chosen))
            return SAME
        return asyncio.run(run(asked))
    except (definition.NoProgram, peers.NoConnection) as why:
        print(f"conform: {why}", file=sys.stderr)
        return WORDS
    except OSError as why:
        print(f"conform: a port can't be bound: {why.strerror or why}", file=sys.stderr)
        return WORDS
    except NoNode as why:
        print(f"conform: {why}", file=sys.stderr)
        return NO_NODE
    except KeyboardInterrupt:
        return WORDS
