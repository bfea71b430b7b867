"""The cases of `tools/conform node`, in the order in which they are played. The first line of each says what it is about."""
import asyncio
import re
import time
from typing import NamedTuple

import websockets
from websockets.exceptions import ConnectionClosed, InvalidHandshake

from conform import node_messages
from conform.events import Closing, Coming
from conform.judging import told
from conform.scripts import octets_of
from conform.standing import (ADVERTISEMENT, CONNECT_ACCEPT, CONNECT_REQUEST, DIRECT, DISCONNECT_ACK, DISCONNECT_REQUEST, HEARTBEAT_ACK,
                              HEARTBEAT_REQUEST, HUB, LENGTHS, NAK, PEER, RESOLUTION, RESOLUTION_ACK, SOLICITATION, STRANGER, Link, spelled)
from conform.turn import QUIET, NoDial, Skip, verdict
from message import Message, digits_of

SLACK, EARLY = 1.0, 0.05  # seconds by which a time may be missed, late and early
CALLER, CALLER_DEVICE = bytes.fromhex("02000000000D"), b"\xDD" * 16  # a peer that dials the node
DUPLICATE = b"\x06\x01\x00\x00\x07\x00\x97"  # the payload of a NAK for a VMAC that another device has
REFUSALS = 4  # times that a node is refused as a duplicate which dials a peer meanwhile
DIALLING = 2.0  # seconds that a dial to a peer takes at most


class Case(NamedTuple):
    group: str
    title: str
    clause: str
    says: str
    play: object
    needs: str = ""  # the word without which it is left out

    @property
    def name(self):
        return f"{self.group}.{self.title}"


CASES = []


def case(name, clause="", needs=""):
    def add(play):
        CASES.append(Case(*name.split("."), clause, " ".join(play.__doc__.split()), play, needs))
        return play
    return add


def octets_for(words, t, id, peer=PEER):
    """The octets of a message of node_messages.py."""
    stand_ins = {"####": f"{id:04X}", "P": digits_of(peer), "O": digits_of(t.node.vmac), "B": "FF" * 6, "X": digits_of(STRANGER)}
    return bytes.fromhex("".join(octets_of(stand_ins.get(it, it), t.node.max_bvlc) for it in words.split()))


def messages(text):
    """Name, octets, what it is about, and codes of other checks."""
    for line in text.strip().splitlines():
        name, octets, says = (it.strip() for it in line.split("|"))
        says, _, codes = says.partition("; or ")
        yield name, octets, says, frozenset(0 if it == "silence" else int(it) for it in codes.split())


async def judged(t, link, place, phase, words, codes=frozenset(), peer=PEER):
    """Sends one message, and judges what comes by bsc check."""
    octets = octets_for(words, t, t.node.next_id(), peer)
    what, check, wanted = verdict(place, phase, t.node.max_bvlc, octets)
    if what == "pass" and octets[0] == HEARTBEAT_REQUEST:
        wanted = spelled(HEARTBEAT_ACK, int.from_bytes(octets[2:4], "big"))
    came = await t.answers(link, octets, fence=phase == "connected")
    t.judge(link, octets, came, wanted, check if what == "silent" else "", codes)


async def judged_at_once(t, link, place, phase, rows):
    """The same of several messages that are sent without a wait between them, where no request is answered: what comes belongs to that
    whose Message ID it has."""
    sent = [octets_for(words, t, t.node.next_id()) for words in rows]
    verdicts = [verdict(place, phase, t.node.max_bvlc, it) for it in sent]
    came = await t.answers(link, *sent, fence=False)
    ids = {it[2:4] for it in sent}
    for octets, (what, check, nak) in zip(sent, verdicts):
        own = [it for it in came if isinstance(it, Coming) and it.octets[2:4] == octets[2:4]]
        t.judge(link, octets, own, nak, check if what == "silent" else "")
    others = [it for it in came if not isinstance(it, Coming) or it.octets[2:4] not in ids]
    t.judge(link, sent[0], others)


# -------------------------------------------------------------------------------------------------------------------- join


@case("join.request", "AB.2.10")
async def join_request(t):
    """A node dials its primary hub, and asks to join with a Connect-Request that is whole and names who it is."""
    link = await t.dialled()
    for event in await t.quiet(link):
        t.differ("early", link.side, f"{told(event)} came before the node was accepted", None, event)
    await t.accept(link)
    await t.stays(link)


@case("join.wrong-id", "AB.2.11")
async def join_wrong_id(t):
    """A Connect-Accept with another Message ID accepts nobody: a Heartbeat-Request behind it isn't answered."""
    link = await fresh(t)
    own = Message(link.request or bytes(4)).id
    await t.accept(link, (own + 1) & 0xFFFF)
    link.accepted = False
    id = t.node.next_id()
    for event in await t.answers(link, spelled(HEARTBEAT_REQUEST, id), fence=False):
        rule = "accept-id" if isinstance(event, Coming) and event.octets == spelled(HEARTBEAT_ACK, id) else "early"
        t.differ(rule, link.side, f"{told(event)} came", None, event)
    if not link.closed:
        await t.accept(link, own)
        await t.stays(link)


async def fresh(t):
    """A new link of the node, behind its Connect-Request: where it has joined, its hub asks it to leave first."""
    link = t.node.link
    if link and not link.closed:
        await link.send(spelled(DISCONNECT_REQUEST, t.node.next_id()))
        until = time.monotonic() + t.patience
        while not link.closed and time.monotonic() < until:
            await link.next(0.1)
        if not link.closed:
            await link.close()
    return await t.dialled()


@case("join.asking", "AB.2.4")
async def join_asking(t):
    """Before it is accepted a node refuses messages that are wrong, answers no request, and sends nothing of itself."""
    link = await fresh(t)
    rows = [octets for _, octets, _, _ in messages(node_messages.ASKING)]
    await judged_at_once(t, link, f"node:{digits_of(t.node.vmac)}", "accept", rows)
    if not link.closed:
        await t.accept(link)
        await t.stays(link)


# ----------------------------------------------------------------------------------------------------------------- answers


@case("answers.heartbeat")
async def answers_heartbeat(t):
    """A Heartbeat-Request of the hub is answered with a Heartbeat-ACK that has its Message ID, be that 0, 1 or FFFF."""
    link = await t.joined()
    for id in (0, 1, 0xFFFF, t.node.next_id()):
        octets = spelled(HEARTBEAT_REQUEST, id)
        t.judge(link, octets, await t.answers(link, octets), spelled(HEARTBEAT_ACK, id))


@case("answers.many")
async def answers_many(t):
    """Fifty Heartbeat-Requests at once are answered each once, and in order."""
    link = await t.joined()
    asked = [spelled(HEARTBEAT_REQUEST, t.node.next_id()) for _ in range(50)]
    came = await t.answers(link, *asked)
    due = [bytes([HEARTBEAT_ACK]) + it[1:] for it in asked]
    found = [it.octets for it in came if isinstance(it, Coming)]
    if found != due:
        rule = "once" if len(found) > len(set(found)) else "heartbeat-ack" if set(found) != set(due) else "message-id"
        t.differ(rule, link.side, f"{len(set(found) & set(due))} of 50 answers came, or in another order")


@case("answers.resolution")
async def answers_resolution(t):
    """An Address-Resolution of a peer is answered to that peer, with URIs, or refused where the node accepts no direct connections."""
    link = await t.joined()
    id = t.node.next_id()
    octets = spelled(RESOLUTION, id, PEER)
    came = await t.answers(link, octets)
    first = next((it for it in came if isinstance(it, Coming)), None)
    refused = first and Message(first.octets).function == NAK and Message(first.octets).payload[:2] == b"\x02\x01"
    if refused and not await accepts_direct(t, link):
        return
    t.judge(link, octets, came, spelled(RESOLUTION_ACK, id, destination=PEER))
    if first and Message(first.octets).function == RESOLUTION_ACK:
        text = Message(first.octets).payload.decode("utf-8", "replace")
        t.node.uris = text.split(" ") if text else []
        if not all(re.match(r"wss?://[^ ]", it) for it in t.node.uris):
            t.differ("uris", link.side, f"the URIs are {text!r}", None, first)


@case("answers.solicitation")
async def answers_solicitation(t):
    """An Advertisement-Solicitation of a peer is answered to that peer: the primary hub is in use, and the lengths are the node's own."""
    link = await t.joined()
    octets = spelled(SOLICITATION, t.node.next_id(), PEER)
    t.judge(link, octets, await t.answers(link, octets), advertisement(t, 1))


def advertisement(t, status, to=PEER):
    own = t.node.max_bvlc.to_bytes(2, "big") + t.node.max_npdu.to_bytes(2, "big")
    return spelled(ADVERTISEMENT, 0, destination=to, payload=bytes([status, bool(t.node.accepts)]) + own)


async def accepts_direct(t, link):
    """Whether the node says that it accepts direct connections."""
    if t.node.accepts is None:
        came = await t.answers(link, spelled(SOLICITATION, t.node.next_id(), PEER))
        said = [Message(it.octets) for it in came if isinstance(it, Coming)]
        t.node.accepts = any(it.function == ADVERTISEMENT and it.field("accepts direct") == b"\1" for it in said)
    return t.node.accepts


@case("answers.to-its-vmac")
async def answers_to_its_vmac(t):
    """The same with the node's own VMAC as Destination, which a hub may leave in."""
    link = await t.joined()
    octets = spelled(SOLICITATION, t.node.next_id(), PEER, t.node.vmac)
    t.judge(link, octets, await t.answers(link, octets), advertisement(t, 1))


# -------------------------------------------------------------------------------------------------------------------- NAKs


def refusal(name, words, says, codes):
    async def play(t):
        await judged(t, await t.joined(), f"node:{digits_of(t.node.vmac)}", "connected", words, codes)

    CASES.append(Case("refusals", name, "AB.2.4", f"From its hub: {says}.", play))


for row in messages(node_messages.CONNECTED):
    refusal(*row)


# ------------------------------------------------------------------------------------------------------------------- leave


@case("leave.disconnect")
async def leave_disconnect(t):
    """A node that its hub asks to disconnect answers, closes the WebSocket, and dials again."""
    link = await t.joined()
    id = t.node.next_id()
    await link.send(spelled(DISCONNECT_REQUEST, id))
    wanted = spelled(DISCONNECT_ACK, id)
    first = await link.next(t.patience)
    while first and t.is_of_itself(link, first):
        first = await link.next(t.patience)
    closes = isinstance(first, Closing)
    t.judge(link, spelled(DISCONNECT_REQUEST, id), [first] if first and not closes else [], wanted)
    if not closes:
        await t.ends(link, 1000)
    await t.joined()


@case("leave.text")
async def leave_text(t):
    """A text message is no message of BACnet/SC: the node closes the WebSocket, and dials again."""
    link = await t.joined()
    await link.send("text")
    await t.ends(link, 1003)
    await t.joined()


@case("leave.hub-closes")
async def leave_hub_closes(t):
    """A node whose hub closes the WebSocket dials again."""
    link = await t.joined()
    await link.close()
    await t.joined()


@case("leave.hub-breaks")
async def leave_hub_breaks(t):
    """So does one whose hub breaks off."""
    link = await t.joined()
    link.ws.transport.abort()
    await asyncio.sleep(0.05)
    await t.joined()


# ----------------------------------------------------------------------------------------------------------------- renewal


async def alone(t):
    """A new link of a node that has no direct connection, where it may keep its VMAC."""
    t.stand.sides["peer"].refuses = True
    await part_from_peer(t)
    return await fresh(t)


async def part_from_peer(t):
    """Closes each direct connection of the node."""
    for link, _ in t.stand.of_peer:
        await link.close()


async def refused(t, link):
    """Refuses a node as a duplicate; its next link."""
    await link.send(spelled(NAK, Message(link.request or bytes(4)).id, payload=DUPLICATE))
    until = time.monotonic() + t.patience
    while not link.closed and time.monotonic() < until:
        await link.next(0.1)
    if not link.closed:
        t.differ("close", link.side, "the node didn't close the WebSocket behind the refusal", whose="profile")
        await link.close()
    return await t.dialled()


async def renewed(t, link):
    """Refuses a node as a duplicate; its next link, with another VMAC. A node that was dialling the peer may have kept its VMAC, so it
    is refused again, a few times."""
    old = t.node.vmac
    for _ in range(REFUSALS):
        since = time.monotonic() - DIALLING
        link = await refused(t, link)
        if t.node.vmac != old or not any(it >= since for it in t.stand.sides["peer"].dials):
            break
        await part_from_peer(t)
    t.due(link, words="asks with another VMAC")
    if t.node.vmac == old:
        t.differ("renewal", link.side, f"the node asked with the VMAC {digits_of(old)} again")
    elif t.node.vmac[0] & 0x0F != 2:
        t.differ("random", link.side, f"the node drew the VMAC {digits_of(t.node.vmac)}")
    return link


@case("renewal.duplicate", "AB.1.5.2")
async def renewal_duplicate(t):
    """A node that is refused with code 151 asks with another VMAC, a Random-48, and as the same device."""
    link = await renewed(t, await alone(t))
    await t.accept(link)
    await t.stays(link)


@case("renewal.twice", "AB.1.5.2")
async def renewal_twice(t):
    """One that is refused so twice draws twice."""
    link = await renewed(t, await renewed(t, await alone(t)))
    await t.accept(link)
    await t.stays(link)


@case("renewal.other-id", "AB.1.5.2")
async def renewal_other_id(t):
    """A NAK with another Message ID than its request is no refusal."""
    link = await alone(t)
    own, vmac = Message(link.request or bytes(4)).id, t.node.vmac
    await link.send(spelled(NAK, (own + 7) & 0xFFFF, payload=DUPLICATE))
    for event in await t.quiet(link):
        t.differ("close-undue" if isinstance(event, Closing) else "undue", link.side, f"{told(event)} came", None, event)
    if not link.closed:
        await t.accept(link, own)
        await t.stays(link)
    if t.node.vmac != vmac:
        t.differ("renewal", link.side, "the node drew another VMAC")


@case("renewal.answers", "AB.1.5.2")
async def renewal_answers(t):
    """What the new VMAC is for: a message for it is taken, and one for the old isn't."""
    link = await alone(t)
    old = t.node.vmac
    link = await t.accept(await renewed(t, link))
    octets = spelled(SOLICITATION, t.node.next_id(), PEER, t.node.vmac)
    t.judge(link, octets, await t.answers(link, octets), advertisement(t, 1))
    octets = spelled(SOLICITATION, t.node.next_id(), PEER, old)
    t.judge(link, octets, await t.answers(link, octets), b"", "C4")


# ---------------------------------------------------------------------------------------------------------------- failover


async def at_failover(t):
    """The node's link with the failover hub, while the primary is down."""
    sides = t.stand.sides
    link = t.node.link
    if not link or link.closed:
        await t.joined()
    sides["failover"].links.clear()
    sides["primary"].refuses, sides["failover"].refuses = True, False
    await t.node.link.close()
    try:
        t.node.failover = await t.accept(await t.dialled("failover"))
        return t.node.failover
    except NoDial:
        t.differ("failover", "failover", "the node didn't dial its failover hub")
        return None


async def home(t):
    """The primary is up again, and the node comes back. It gives back its link there."""
    t.stand.sides["primary"].refuses = False
    t.node.link = None
    try:
        return await t.joined()
    except NoDial:
        t.differ("back", "primary", "the node didn't return to its primary hub")
        return None


@case("failover.dials", needs="failover")
async def failover_dials(t):
    """A node that can't reach its primary hub joins its failover hub, and answers there; an Advertisement says so."""
    link = await at_failover(t)
    if link:
        octets = spelled(SOLICITATION, t.node.next_id(), PEER)
        t.judge(link, octets, await t.answers(link, octets), advertisement(t, 2))
        await judged(t, link, f"node:{digits_of(t.node.vmac)}", "connected", "0D08 #### P")


@case("failover.back", needs="failover")
async def failover_back(t):
    """When the primary hub is up again the node returns, and ends the connection with the failover hub: it asks to disconnect, and
    while it waits for the answer it refuses what is wrong."""
    link = t.node.failover if t.node.failover and not t.node.failover.closed else await at_failover(t)
    primary = await home(t)
    if not link or not primary:
        return
    until = time.monotonic() + t.asked.patience
    asks = None
    while not link.closed and asks is None and time.monotonic() < until:
        event = await link.next(0.1)
        if isinstance(event, Coming) and event.octets[:2] == bytes([DISCONNECT_REQUEST, 0]):
            asks = event
    t.due(link, words="asks to disconnect")
    if asks is None:
        t.differ("leaves-failover", "failover", "the node closed its WebSocket at once" if link.closed else "the node stayed at its failover hub",
                 whose="profile" if link.closed else None)
        if not link.closed:
            await link.close()
    else:
        await judged(t, link, f"node:{digits_of(t.node.vmac)}", "disconnecting", "0A80 ####")
        await link.send(spelled(DISCONNECT_ACK, Message(asks.octets).id))
        await t.ends(link, 1000)
    octets = spelled(SOLICITATION, t.node.next_id(), PEER)
    t.judge(primary, octets, await t.answers(primary, octets), advertisement(t, 1))


# ----------------------------------------------------------------------------------------------------------------- backoff


@case("backoff.primary", needs="reconnect")
async def backoff_primary(t):
    """While both hubs are down the node dials its primary again and again: between two dials the least wait passes, no longer than the
    greatest, and each wait is twice the one before."""
    least, greatest = (it / 1000 for it in t.asked.reconnect)
    await t.joined()
    side = t.stand.sides["primary"]
    side.refuses = True
    began = len(side.dials)
    await t.node.link.close()
    t.node.link = None
    waits = [min(greatest, least * 2**n) for n in range(4)]
    times = [time.monotonic(), *(await side.dialled(began + 4, sum(waits) + 4 * SLACK))[began:]]
    found = [b - a for a, b in zip(times, times[1:])]
    t.due_words = ", ".join(f"{it:.2f}" for it in waits)
    told_waits = ", ".join(f"{it:.2f}" for it in found)
    if len(found) < 4:
        t.differ("greatest-wait", "primary", f"{len(found)} dials came in {sum(waits) + 4 * SLACK:.0f} s")
    if any(it < least - EARLY for it in found):
        t.differ("backoff", "primary", f"dials came after {told_waits} s, where the least wait is {least:.2f}")
    if any(it > greatest + SLACK for it in found):
        t.differ("greatest-wait", "primary", f"dials came after {told_waits} s, where the greatest wait is {greatest:.2f}")
    elif any(abs(it - due) > max(SLACK, due / 2) or it < due - EARLY for it, due in zip(found, waits)):
        t.differ("doubling", "primary", f"dials came after {told_waits} s, where {t.due_words} were due")
    side.refuses = False
    await t.joined()


# ------------------------------------------------------------------------------------------------------------------- times


@case("times.heartbeat", needs="times")
async def times_heartbeat(t):
    """A node that hears nothing of its hub for the time of a heartbeat sends a Heartbeat-Request, and when nothing comes for a second
    such time it ends the connection and dials again."""
    beat = t.asked.times[2] / 1000
    link = await t.joined()
    await t.stays(link)
    link.mute, begun = True, time.monotonic()
    asks = await link.next(beat + SLACK)
    while asks and t.is_of_itself(link, asks):
        asks = await link.next(begun + beat + SLACK - time.monotonic())
    took = time.monotonic() - begun
    t.due(link, words=f"asks after {beat:.1f} s")
    if not isinstance(asks, Coming) or asks.octets[:2] != bytes([HEARTBEAT_REQUEST, 0]):
        t.differ("heartbeat", link.side, f"{told(asks)} came within {took:.1f} s, where a heartbeat is {beat:.1f} s", None, asks)
    elif took < beat - EARLY:
        t.differ("heartbeat", link.side, f"the node asked after {took:.2f} s, where a heartbeat is {beat:.2f}", whose="profile")
    if not link.closed:
        ended = await t.ends_by("idle", link, 1008, begun + 2 * beat + SLACK - time.monotonic())
        if ended and time.monotonic() - begun < 2 * beat - EARLY:
            t.differ("idle", link.side, f"the node ended the connection after {time.monotonic() - begun:.2f} s", whose="profile")
    await t.joined()


@case("times.kept", needs="times")
async def times_kept(t):
    """A hub that answers each Heartbeat-Request keeps its node."""
    beat = t.asked.times[2] / 1000
    link = await t.joined()
    until = time.monotonic() + 2.5 * beat
    while time.monotonic() < until and not link.closed:
        event = await link.next(until - time.monotonic())
        if isinstance(event, Closing):
            t.differ("close-undue", link.side, f"{told(event)} came", None, event)
    if not link.closed:
        await t.stays(link)


@case("times.connect", needs="times")
async def times_connect(t):
    """A node that isn't accepted within its connect wait ends the connection, and dials again."""
    wait = t.asked.times[0] / 1000
    link = await fresh(t)
    begun = link.at
    ended = await t.ends_by("connect-wait", link, 1008, wait + SLACK)
    if ended and time.monotonic() - begun < wait - EARLY:
        t.differ("connect-wait", link.side, f"the node ended the connection after {time.monotonic() - begun:.2f} s", whose="profile")
    await t.joined()


# ------------------------------------------------------------------------------------------------------------------ direct


async def uri_of(t):
    """Where the node accepts direct connections."""
    link = await t.joined()
    if not await accepts_direct(t, link):
        raise Skip("the node says that it accepts no direct connections")
    if not t.node.uris:
        came = await t.answers(link, spelled(RESOLUTION, t.node.next_id(), PEER))
        acks = [Message(it.octets) for it in came if isinstance(it, Coming)]
        t.node.uris = next((it.payload.decode("utf-8", "replace").split() for it in acks if it.function == RESOLUTION_ACK), [])
    found = next((it for it in t.node.uris if it.startswith(t.stand.scheme + "://")), None)
    if not found:
        raise Skip(f"the node names no URI that begins with {t.stand.scheme}://")
    return found


async def direct(t, protocol=DIRECT):
    """A WebSocket to the node, as a peer opens it; or why there is none."""
    uri = await uri_of(t)
    try:
        ws = await websockets.connect(uri, subprotocols=[protocol], compression=None, max_size=None, ping_interval=None, ssl=t.asked.tls_out,
                                      open_timeout=t.asked.patience, close_timeout=1)
    except InvalidHandshake as why:
        return None, f"the node refused the WebSocket: {why}"
    except (OSError, ConnectionClosed, asyncio.TimeoutError) as why:
        return None, f"no connection at {uri}: {why or type(why).__name__}"
    link = Link(t.stand, "peer", ws)
    link.mute = True
    asyncio.create_task(link.read())
    return link, ""


async def asked_direct(t, vmac=CALLER, device=CALLER_DEVICE):
    """A link to the node on which a peer has asked to connect, and what came."""
    link, why = await direct(t)
    if not link:
        t.differ("direct-accept", "peer", why)
        return None, [], 0
    id = t.node.next_id()
    await link.send(spelled(CONNECT_REQUEST, id, payload=vmac + device + LENGTHS))
    event = await link.next(t.patience)
    return link, [event] if event else [], id


def accepted(t, id):
    own = t.node.max_bvlc.to_bytes(2, "big") + t.node.max_npdu.to_bytes(2, "big")
    return spelled(CONNECT_ACCEPT, id, payload=t.node.vmac + t.node.device + own)


async def made(t):
    """A direct connection that a peer has made."""
    link, came, id = await asked_direct(t)
    if link:
        t.judge(link, spelled(CONNECT_REQUEST, id), came, accepted(t, id))
        link.mute = False
        link.accepted = True
    return link


@case("direct.accept", "AB.2.11")
async def direct_accept(t):
    """A peer that dials the node is accepted: the Connect-Accept has the node's own identity, and a Heartbeat-Request is answered."""
    link = await made(t)
    if link:
        await t.stays(link)
        await link.close()


@case("direct.refusals", "AB.2.4")
async def direct_refusals(t):
    """What is wrong is refused on a direct connection as by a hub, and with no address."""
    link = await made(t)
    place = f"direct:{digits_of(t.node.vmac)}:{digits_of(CALLER)}"
    for _, octets, _, codes in messages(node_messages.DIRECT) if link else []:
        if not link.closed:
            await judged(t, link, place, "connected", octets, codes, CALLER)
    if link:
        await link.close()


@case("direct.before", "AB.2.4")
async def direct_before(t):
    """Before its peer has asked, the node answers no request, and refuses what is wrong."""
    link, why = await direct(t)
    if not link:
        t.differ("direct-accept", "peer", why)
        return
    rows = ["0A80 ####", "0A00 ####", "0800 ####", "0100 #### 0100", "0600 #### 000000000000 EEEEEEEEEEEEEEEEEEEEEEEEEEEEEEEE 0640 05D9"]
    await judged_at_once(t, link, f"direct:{digits_of(t.node.vmac)}:-", "request", rows)
    await link.close()


@case("direct.duplicate", "AB.2.11")
async def direct_duplicate(t):
    """A peer that asks for the node's own VMAC is refused with code 151, and its WebSocket closed."""
    link, came, id = await asked_direct(t, t.node.vmac, b"\xAB" * 16)
    if link:
        t.judge(link, spelled(CONNECT_REQUEST, id), came, spelled(NAK, id, payload=DUPLICATE))
        if came and not isinstance(came[0], Closing):
            await t.ends(link, 1000)
        await link.close()


@case("direct.disconnect")
async def direct_disconnect(t):
    """A peer that asks to disconnect gets its answer, and the node closes the WebSocket."""
    link = await made(t)
    if link:
        id = t.node.next_id()
        await link.send(spelled(DISCONNECT_REQUEST, id))
        first = await link.next(t.patience)
        closes = isinstance(first, Closing)
        t.judge(link, spelled(DISCONNECT_REQUEST, id), [first] if first and not closes else [], spelled(DISCONNECT_ACK, id))
        if not closes:
            await t.ends(link, 1000)


@case("direct.protocol")
async def direct_protocol(t):
    """Who offers the sub-protocol of hubs at that port is refused."""
    link, _ = await direct(t, HUB)
    if link:
        agreed = link.ws.subprotocol
        if agreed:
            t.differ("direct-protocol", "peer", f"the node agreed to {agreed}")
        else:
            t.differ("direct-protocol", "peer", "the node opened a WebSocket without a sub-protocol", whose="profile")
        await link.close()


@case("direct.dials", "AB.2.10", needs="dials")
async def direct_dials(t):
    """A node that opens a direct connection to the peer offers dc.bsc.bacnet.org, asks with a Connect-Request, and answers the peer."""
    await t.joined()
    links, until = t.stand.of_peer, time.monotonic() + t.asked.direct_dials
    while time.monotonic() < until and not any(not it.closed for it, _ in links):
        await asyncio.sleep(0.1)
    if not links:
        t.differ("dial", "peer", f"the node opened no direct connection to {digits_of(PEER)} within {t.asked.direct_dials:g} s")
        return
    link, first = next((it for it in reversed(links) if not it[0].closed), links[-1])
    if link.ws.subprotocol != DIRECT:
        t.differ("protocol", "peer", f"the node didn't offer the sub-protocol {DIRECT} to a peer")
    t.look_at_request(link, first)
    if not link.closed:
        link.came.clear()
        await t.stays(link)
        await judged(t, link, f"direct:{digits_of(t.node.vmac)}:{digits_of(PEER)}", "connected", "0D00 ####")
        await link.send(spelled(DISCONNECT_REQUEST, t.node.next_id()))
        await asyncio.sleep(QUIET)
