#!/usr/bin/env python3
"""The policy of a hub, met by clients of two other libraries: meet.py"""
import asyncio
import random
import sys
import tempfile
from dataclasses import dataclass
from pathlib import Path

sys.dont_write_bytecode = True
ROOT = Path(__file__).resolve().parents[2]
sys.path += [str(ROOT / "bench" / "live"), str(ROOT / "interop" / "hub")]
import bvlc  # noqa: E402
from bvlc import Identity, Message  # noqa: E402
from entries import counts_of, denials_of, entries_of, lines_of, receivers, said_of  # noqa: E402
from live import Failed, TooBusy  # noqa: E402
from nodes import Watch  # noqa: E402
from served import OWN, PATIENCE, audit, builds, has_libraries, house, may_not_grow, same  # noqa: E402

LIMIT = 10 * PATIENCE
WHO_IS = bytes.fromhex("0120FFFF00FF1008")
DENIED = (1008, "policy")
DUPLICATE = bvlc.nak(0x22, bvlc.CONNECT_REQUEST, bvlc.NODE_DUPLICATE_VMAC)
# How many policies are made by chance.
POLICIES = 6


def somebody(letter):
    return Identity(bytes.fromhex(f"02000000000{letter}"), bytes.fromhex(letter * 32))


A, B, C, D, E = map(somebody, "ABCDE")


@dataclass(frozen=True)
class Policy:
    """Members by their VMACs, each with its device and its group, and rules in order. It decides as docs/SETTINGS.md says."""

    members: tuple
    rules: tuple

    def decides(self, sender, receiver):
        """Whether what goes from one VMAC to another may go, and by which rule, counted from 1; 0 stands for none."""
        groups = {who.vmac: group for who, group in self.members}
        if sender in groups and receiver in groups:
            for number, (do, one, other) in enumerate(self.rules, 1):
                if one in ("*", groups[sender]) and other in ("*", groups[receiver]):
                    return do == "allow", number
        return False, 0

    def text(self):
        parts = [f'\n[[policy.member]]\ndevice = "{who.device.hex()}"\nvmac = "{who.vmac.hex()}"\ngroup = "{group}"\n'
                 for who, group in self.members]
        parts += [f'\n[[policy.rule]]\ndo = "{do}"\nfrom = "{one}"\nto = "{other}"\n' for do, one, other in self.rules]
        return "".join(parts) or "\n[policy]\n"


def line_of(number, sender, receiver):
    return f"deny {number} from {sender.hex().upper()} to {receiver.hex().upper()}"


def of_connect(who):
    return f"deny 0 connect {who.vmac.hex().upper()}"


def one_to(vmac, number):
    return bvlc.npdu(number, vmac, WHO_IS + bytes([number]))


def passed(message, who):
    return bvlc.passed_on(message, who.vmac).octets()


class Told:
    """What the journal of each guest has to say of what was denied to it, in order."""

    def __init__(self, it, policy):
        self.it, self.policy, self.lines = it, policy, {}

    def of(self, guest, *lines):
        self.lines.setdefault(guest, []).extend(lines)

    def compare(self, has_journals):
        hub, total = self.it.hub, 0
        if not has_journals:
            return "no journal"
        for guest in self.it.guests:
            octets = hub.journal(self.it.number_of(guest))
            same(denials_of(octets), self.lines.get(guest, []), f"what journal {self.it.number_of(guest)} says that was denied")
            same(len(lines_of(octets)), len(denials_of(octets)) + len(entries_of(octets)), "lines of a journal")
            total += len(denials_of(octets))
        same(denials_of(hub.journal(0)), [], "what the hub's own journal says that was denied")
        octets = hub.all_journals()
        entries = sorted(entries_of(octets), key=lambda entry: entry.place)
        same(said_of(octets), (0, f"legal {len(entries)}"), "what the lines say by themselves")
        same(audit(octets), (0, f"legal {len(entries)}"), "the audit of journals with denials")
        vmacs = {}
        for entry in entries:
            if entry.call == "connect" and entry.reply.startswith("joined"):
                vmacs[int(entry.reply.split()[1])] = entry.octets[:6]
            if entry.call == "forward" and (to := bvlc.read(entry.octets).destination) != bvlc.BROADCAST:
                same(self.policy.decides(vmacs[entry.conn], to)[0], True, "whether a unicast that was forwarded is allowed")
        return f"{len(entries)} entries, {total} denials"


async def nothing_more(*guests):
    """All that is under way has come, and is behind the answers to these heartbeats."""
    for guest in guests:
        await guest.beat(2)
    for guest in guests:
        await guest.beat(3)


def took(guest, *frames):
    same(guest.frames, list(frames), f"what came to {guest.who.vmac.hex().upper()}")
    guest.frames.clear()


# The scene of docs/SETTINGS.md: A and B are controllers, C is an operator, and what controllers send doesn't go to operators.

async def groups(folder, first, second, has_journals):
    # F is written under the hub's own VMAC.
    f = Identity(OWN.vmac, somebody("F").device)
    policy = Policy(((A, "ctl"), (B, "ctl"), (C, "ops"), (E, "mon"), (f, "mon")),
                    (("deny", "ctl", "ops"), ("allow", "*", "ctl"), ("allow", "ops", "*")))
    links = 13
    async with house(folder, "--sessions", links, prefix=folder / "j" if has_journals else None, more=policy.text()) as it:
        told = Told(it, policy)
        a, b, c = await it.joined(first, A), await it.joined(second, B), await it.joined(first, C)

        # Who isn't a member is closed, without an answer: another device, a member under another VMAC, another device under a
        # member's VMAC, whether that is held or not.
        renewed = Identity(bytes.fromhex("02123456789A"), A.device)
        for library, who in ((second, D), (first, renewed), (second, Identity(A.vmac, D.device)), (first, Identity(E.vmac, B.device)),
                             (second, Identity(OWN.vmac, D.device))):
            told.of(await it.refused(library, who, close=DENIED), of_connect(who))
        # A member may have a duplicate VMAC all the same, by the hub's own rule. Where it draws another, that isn't written.
        await it.refused(first, f, answer=DUPLICATE)
        drawn = Identity(bytes.fromhex("02FEDCBA9876"), f.device)
        told.of(await it.refused(first, drawn, close=DENIED), of_connect(drawn))
        await nothing_more(a, b, c)
        for guest in (a, b, c):
            took(guest)

        # A broadcast comes to who may have it.
        message = one_to(bvlc.BROADCAST, 1)
        await a.give(message)
        await nothing_more(a, b, c)
        took(a)
        took(b, passed(message, A))
        took(c)
        told.of(c, line_of(1, A.vmac, C.vmac))

        # A unicast that is denied doesn't come, and its sender isn't told; its session goes on.
        denied, allowed = one_to(C.vmac, 2), one_to(B.vmac, 3)
        await a.ask(denied)
        await a.give(allowed)
        await nothing_more(a, b, c)
        took(a)
        took(b, passed(allowed, A))
        took(c)
        told.of(a, line_of(1, A.vmac, C.vmac))

        # The other way it goes: a unicast and a broadcast.
        back, to_all = one_to(A.vmac, 4), one_to(bvlc.BROADCAST, 5)
        await c.give(back)
        await c.give(to_all)
        await nothing_more(a, b, c)
        took(a, passed(back, C), passed(to_all, C))
        took(b, passed(to_all, C))
        took(c)

        # To who has no member, by no rule; to itself, by the rule for its group; to a member that isn't there, whom the hub looks for.
        await a.ask(one_to(D.vmac, 6))
        own = one_to(A.vmac, 7)
        await a.give(own)
        stranger = bytes.fromhex("020000000009")
        await c.ask(one_to(stranger, 8))
        await c.give(one_to(E.vmac, 9))
        await nothing_more(a, b, c)
        took(a, passed(own, A))
        took(b)
        took(c)
        told.of(a, line_of(0, A.vmac, D.vmac))
        told.of(c, line_of(0, C.vmac, stranger))

        # A member takes over its own connection; who isn't one takes over none.
        again = await it.joined(second, B)
        await b.is_asked_to_leave("the Disconnect-Request of who is replaced")
        told.of(await it.refused(first, Identity(D.vmac, A.device), close=DENIED), of_connect(D))
        await again.ask(one_to(C.vmac, 10))
        await again.give(one_to(A.vmac, 11))
        await nothing_more(a, again, c)
        took(a, passed(one_to(A.vmac, 11), B))
        took(c)
        told.of(again, line_of(1, B.vmac, C.vmac))

        # E's group may send to controllers alone, and has what operators send.
        e = await it.joined(second, E)
        await e.give(one_to(bvlc.BROADCAST, 12))
        await c.give(one_to(E.vmac, 13))
        await a.ask(one_to(E.vmac, 14))
        await nothing_more(a, again, c, e)
        took(a, passed(one_to(bvlc.BROADCAST, 12), E))
        took(again, passed(one_to(bvlc.BROADCAST, 12), E))
        took(c)
        took(e, passed(one_to(E.vmac, 13), C))
        told.of(c, line_of(0, E.vmac, C.vmac))
        told.of(a, line_of(0, A.vmac, E.vmac))
        for guest in (a, again, c, e):
            await guest.leaves()
        same(len(it.guests), links, "how many links were made")
        same(await it.hub.ended(), 0, "the status of a hub with a policy")
        counts = counts_of(it.hub.told())
        # What is denied is no unicast; a broadcast is one, whoever may have it.
        same((counts["joined"], counts["replaced"], counts["refused"]), (5, 1, 1), "its counts of connects")
        same((counts["unicasts"], counts["broadcasts"], counts["dropped"]), (6, 3, 1), "its counts of messages")
        same(it.hub.said().count("\n"), 1, "lines on standard error")
        return told.compare(has_journals)


# Policies made by chance: each member sends to each VMAC, and to all.

def made(chance):
    """One by which some pairs may go and some may not."""
    names = ["one", "two", "TWO", "other"]
    while True:
        members = tuple((somebody(letter), chance.choice(names)) for letter in "ABCDE")
        rules = tuple((chance.choice(["allow", "deny"]), chance.choice([*names, "*"]), chance.choice([*names, "*"]))
                      for _ in range(chance.randrange(3, 13)))
        policy = Policy(members, rules)
        vmacs = [who.vmac for who, _ in members]
        if 8 <= sum(policy.decides(one, other)[0] for one in vmacs for other in vmacs) <= 17:
            return policy


async def chances(folder, seed, has_journals):
    policy = made(random.Random(seed))
    async with house(folder, "--sessions", 5, prefix=folder / "j" if has_journals else None, more=policy.text()) as it:
        told = Told(it, policy)
        guests = [await it.joined(("python", "node")[number % 2], who) for number, (who, _) in enumerate(policy.members)]
        due = {guest: [] for guest in guests}
        for number, guest in enumerate(guests):
            own = guest.who
            for to in [other.who.vmac for other in guests] + [bytes.fromhex("020000000009"), bvlc.BROADCAST]:
                message = one_to(to, number)
                is_allowed, rule = policy.decides(own.vmac, to)
                if to == bvlc.BROADCAST or is_allowed:
                    await guest.give(message)
                else:
                    await guest.ask(message)
                    told.of(guest, line_of(rule, own.vmac, to))
                for other in guests:
                    if to == bvlc.BROADCAST and other is not guest:
                        may, rule = policy.decides(own.vmac, other.who.vmac)
                        if may:
                            due[other].append(passed(message, own))
                        else:
                            told.of(other, line_of(rule, own.vmac, other.who.vmac))
                    elif to == other.who.vmac and is_allowed:
                        due[other].append(passed(message, own))
            await nothing_more(*guests)
        for guest in guests:
            took(guest, *due[guest])
        for guest in guests:
            await guest.leaves()
        same(await it.hub.ended(), 0, "the status of a hub with a policy")
        counts = counts_of(it.hub.told())
        unicasts = sum(bvlc.read(octets).destination != bvlc.BROADCAST for guest in guests for octets in guest.sent)
        same((counts["joined"], counts["unicasts"], counts["broadcasts"]), (5, unicasts, 5), "its counts")
        if has_journals:
            # A frame that was denied was taken: the outbox has it, and the leave counts it.
            octets = it.hub.all_journals()
            for conn, guest in enumerate(guests, 1):
                entered = sum(receivers(entry).count(conn) for entry in entries_of(octets) if entry.call == "forward")
                same(entries_of(it.hub.journal(conn))[-1].reply, f"gone left {entered}", "how many frames were taken")
        return told.compare(has_journals)


# Policies with nothing in them.

async def bounds(folder):
    """Without members nobody is admitted; with members and without rules nothing goes; without a policy all may."""
    async with house(folder, "--sessions", 2, prefix=folder / "none", more=Policy((), (("allow", "*", "*"),)).text()) as it:
        told = Told(it, Policy((), ()))
        for library, who in (("python", A), ("node", B)):
            told.of(await it.refused(library, who, close=DENIED), of_connect(who))
        same(await it.hub.ended(), 0, "the status of a hub that admits nobody")
        told.compare(True)
    policy = Policy(((A, "one"), (B, "one")), ())
    async with house(folder, "--sessions", 2, prefix=folder / "rules", more=policy.text()) as it:
        told = Told(it, policy)
        a, b = await it.joined("python", A), await it.joined("node", B)
        await a.ask(one_to(B.vmac, 1))
        await a.give(one_to(bvlc.BROADCAST, 2))
        await nothing_more(a, b)
        took(a)
        took(b)
        told.of(a, line_of(0, A.vmac, B.vmac))
        told.of(b, line_of(0, A.vmac, B.vmac))
        for guest in (a, b):
            await guest.leaves()
        same(await it.hub.ended(), 0, "the status of a hub that lets nothing through")
        told.compare(True)
    async with house(folder, "--sessions", 3, prefix=folder / "all") as it:
        a, b = await it.joined("python", A), await it.joined("node", B)
        await it.refused("python", Identity(A.vmac, D.device), answer=DUPLICATE)
        await a.give(one_to(B.vmac, 1))
        await nothing_more(a, b)
        took(b, passed(one_to(B.vmac, 1), A))
        for guest in (a, b):
            await guest.leaves()
        same(await it.hub.ended(), 0, "the status of a hub without a policy")
        same(denials_of(it.hub.all_journals()), [], "denials of a hub without a policy")
    return "policies without members, without rules, and none"


async def a_lost_denial(folder):
    """A denial whose line can't be put ends the session, as any line that is lost."""
    policy = Policy(((A, "one"), (B, "two")), (("allow", "*", "one"),))
    async with house(folder, "--sessions", 3, prefix=folder / "j", more=policy.text(), prepare=may_not_grow(2048)) as it:
        a, b = await it.joined("python", A), await it.joined("node", B)
        for _ in range(100):
            await a.ask(one_to(B.vmac, 1))
            await a.ask(Message(bvlc.HEARTBEAT_REQUEST, 9))
            kind, found = await a.next()
            if kind == "close":
                break
            same(found, Message(bvlc.HEARTBEAT_ACK, 9).octets(), "a Heartbeat-ACK")
        same(a.end, (1011, ""), "the close of a session whose denial wasn't put")
        await a.client.end()
        await b.beat(2)
        took(b)
        again = await it.joined("node", A)
        await b.give(one_to(A.vmac, 2))
        await again.has(1)
        for guest in (again, b):
            await guest.leaves()
        same(await it.hub.ended(), 4, "the status of a hub of whose sessions one lost a denial")
        # Denials are no entries: the leave alone is missing, and the lost line has no place.
        octets = b"".join(it.hub.journal(number)[: it.hub.journal(number).rfind(b"\n") + 1] for number in it.hub.journals())
        same(audit(octets), (10, "missing 2"), "the audit of journals that lack a leave")
    return "a lost denial ends its session"


async def scenes(folder):
    told = []
    for first, second in (("python", "node"), ("node", "python")):
        for has_journals in (True, False):
            place = folder / f"{first}.{has_journals}"
            place.mkdir()
            told.append(await played(groups, place, first, second, has_journals))
    for seed in range(POLICIES):
        place = folder / f"chance.{seed}"
        place.mkdir()
        told.append(await played(chances, place, seed, seed % 3 != 2))
    for scene in (bounds, a_lost_denial):
        place = folder / scene.__name__
        place.mkdir()
        told.append(await played(scene, place))
    return "; ".join(told)


async def played(scene, *words):
    try:
        return await asyncio.wait_for(scene(*words), LIMIT)
    except asyncio.TimeoutError:
        raise Failed(f"the scene {scene.__name__} took more than {LIMIT} s") from None
    except Failed as why:
        raise Failed(f"{scene.__name__} {words[1:]}: {why}") from None


def main():
    why = has_libraries()
    if why:
        return f"skipped, {why}"
    if not builds():
        raise Failed("the program doesn't run")
    watch = Watch()
    try:
        with tempfile.TemporaryDirectory() as folder:
            return asyncio.run(scenes(Path(folder)))
    except (Failed, OSError) as why:
        watch.judge(str(why) if isinstance(why, Failed) else repr(why))
    finally:
        watch.is_over = True


try:
    print(f"check-policy: {main()}")
except TooBusy as why:
    print(f"check-policy: not all of it could be met, the machine is too busy: {why}")
except Failed as why:
    sys.exit(f"check-policy: {why}")
