"""Courses of a network that are made by chance, but the same for the same number: a script, and the text that it comes to by
the rules that `network` follows. With them it is seen whether the program comes to the same."""
import random

from message import BROADCAST, digits_of
from network import DOWN, UP, Network
from node import Identity
from simulate import written

OFTEN = ("send",) * 6 + ("tick", "tick", "resolve", "resolve", "direct", "solicit")
WAITS = (1, 1_000, 2_000, 4_000, 10_000, 30_000, 300_000, 600_000)


def added(chance, network):
    """The lines of some hubs and nodes. A few nodes share a VMAC or a device, which brings takeovers and duplicates about."""
    lines = []
    for n in range(chance.choice((1, 2, 2))):
        who = Identity(bytes([2, 0, 0, 0, 0, 0xFF - n]), bytes([0x11 * (n + 1)]) * 16, chance.choice((64, 1600, 1600, 2000)), 1497)
        network.add_hub(who)
        lines.append(f"hub {digits_of(who.vmac)} {digits_of(who.device)} {who.longest:04X} {who.longest_npdu:04X}")
    for n in range(chance.randint(2, 5)):
        vmac = bytes([2, 0, 0, 0, 0, chance.choice((10 + n, 10 + n, 10 + n, 10, 0xFF))])
        who = Identity(vmac, bytes([chance.choice((vmac[5], 10 + n))]) * 16, 1600, 1497)
        is_direct = chance.random() < 0.6
        network.add_node(who, is_direct)
        lines.append(f"node {digits_of(who.vmac)} {digits_of(who.device)}{' direct' if is_direct else ''}")
    return lines


def some_vmac(chance, network):
    rare = [BROADCAST, bytes([2, 0, 0, 0, 0, 0x77]), network.hubs[0].who.vmac]
    return digits_of(chance.choice(rare + [it.who.vmac for it in network.nodes] * 4))


def some_step(chance, network):
    """A line that makes a step, most often one that lets something arrive."""
    links = [it for it in network.links if not it.lost]
    moves = [f"{way} {it.number}" for it in links for way in (UP, DOWN) if it.ways[way]]
    outboxes = [it for it in links if it.has_outbox()]
    moves += [f"take {it.number}" for it in outboxes if it.connection.outbox or it.connection.end or chance.random() < 0.02]
    if moves and chance.random() < 0.75:
        return chance.choice(moves)
    if links and chance.random() < 0.06:
        return f"lose {chance.choice(links).number}"
    hub = chance.randrange(len(network.hubs))
    if not network.hubs[hub].stopped and chance.random() < 0.01:
        return f"stop {hub}"
    number = chance.randrange(len(network.nodes))
    if not network.nodes[number].started:
        return f"start {number}"
    learnt = list(network.nodes[number].learnt)
    if learnt and chance.random() < 0.2:
        return f"direct {number} {digits_of(chance.choice(learnt))}"
    what = "finish" if chance.random() < 0.01 else chance.choice(OFTEN)
    if what in ("tick", "finish"):
        return f"{what} {number}"
    npdu = digits_of(bytes([chance.randrange(256)]) * chance.choice((1, 2, 2, 2, 60, 1490, 1497))) if what == "send" else ""
    return f"{what} {number} {some_vmac(chance, network)} {npdu}".strip()


def course(number, steps):
    """The lines of a script of so many steps, and the lines of its text."""
    chance = random.Random(number)
    network = Network()
    lines, text = added(chance, network), []
    for _ in range(steps):
        if chance.random() < 0.05:
            network.now += chance.choice(WAITS)
            lines.append(f"at {network.now}")
        lines.append(some_step(chance, network))
        if not network.step(lines[-1].split()):
            raise AssertionError(lines[-1])
        text += written(network.news)
    return lines, text
