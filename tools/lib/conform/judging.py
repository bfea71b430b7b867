"""Compares what came to each peer with what is due, and names each difference by its rule.

Of one sender the messages have to come in their order; those of several may come in any. What the hub itself says to a peer
may stand anywhere between them.
"""
from collections import Counter
from typing import NamedTuple

from conform.events import Closing, Coming, Texting, plain
from conform.rules import PROFILE, RULES, Difference
from message import (BROADCAST, CONNECT_ACCEPT, CONNECT_REQUEST, DISCONNECT_ACK, DISCONNECT_REQUEST, RESULT, Message, digits_of, name_of, number,
                     told_of)

HEARTBEAT_ACK = 0x0B
RESPONSES = (0x00, 0x03, 0x07, 0x09, 0x0B)
JUDGED = range(143, 152)  # codes of NAKs that are the standard's
DUPLICATE = 151


class Placed(NamedTuple):
    """An event and the step at which it was due, or came."""

    step: int
    event: object


def read(event):
    return Message(event.octets) if isinstance(event, Coming) else None


def told(event):
    """An event in a few words."""
    if event is None:
        return "nothing"
    if isinstance(event, Closing):
        return f"a close {event.code} {event.reason}".rstrip()
    if isinstance(event, Texting):
        return "a text message"
    message = read(event)
    return ", ".join(filter(None, [name_of(message), told_of(message)]))


def stream_of(placed):
    """Whose message it is: those of one sender come in order."""
    message = read(placed.event)
    return digits_of(message.origin) if message else ""


class Judge:
    """A script that was played: its steps, what each comes to, and what came."""

    def __init__(self, script, steps, dues, log, vmacs):
        self.script, self.steps, self.dues, self.vmacs = script, steps, dues, vmacs
        self.wanted = [Placed(n, it) for n, due in enumerate(dues) for it in due.events]
        self.found = [Placed(it.step, it.event) for it in log if hasattr(it, "event")]
        self.names = list(dict.fromkeys(it.event.name for it in self.wanted + self.found))
        self.sent = [(n, it.words[1], Message(it.octets)) for n, it in enumerate(steps) if it.words[0] == "in"]
        self.asked = {(n, name): it.field("VMAC") for n, name, it in self.sent if it.function == CONNECT_REQUEST}
        self.strangers = 0

    def differences(self):
        return [it for name in self.names for it in self.of_peer(name)]

    # The differences at one peer.

    def of_peer(self, name):
        wanted = [it for it in self.wanted if it.event.name == name]
        found = [it for it in self.found if it.event.name == name]
        missing, extra = left_over(wanted, found), left_over(found, wanted)
        for one, other in paired(missing, extra):
            yield from self.otherwise(one, other)
        for it in missing:
            yield self.missing(it)
        for it in extra:
            difference = self.extra(it)
            if difference:
                yield difference
        yield from self.out_of_order(wanted, found)

    def make(self, rule, at, words, wanted=None, found=None, whose=None):
        rule = RULES[rule]
        whose = PROFILE if PROFILE in self.script.marks else whose or rule.whose
        return Difference(rule, whose, rule.clause or self.script.clause, at.event.name, at.step, words, wanted, found)

    def out_of_order(self, wanted, found):
        """Where the messages of a sender came in another order: the first of them."""
        for stream in dict.fromkeys(map(stream_of, found)):
            if not stream:
                continue
            there = Counter(plain(it.event) for it in found)
            due = [it for it in wanted if stream_of(it) == stream and there[it.event]]
            came = [it for it in found if stream_of(it) == stream and it.event in {one.event for one in due}]
            came = list({it.event: it for it in reversed(came)}.values())[::-1]
            for one, other in zip(due, came):
                if one.event != other.event:
                    yield self.make("order", other, f"{told(other.event)} came where {told(one.event)} was due", one.event, other.event)
                    break

    # Something else came.

    def otherwise(self, wanted, found):
        """The rules by which what came differs from what was due."""
        one, other = wanted.event, found.event
        if isinstance(one, Closing):
            yield self.make("close-code", found, f"{told(other)} came in place of {told(one)}", one, other)
            return
        rules = list(self.rules_between(wanted, read(one), read(other))) or [("undue", None)]
        for rule, whose in rules:
            yield self.make(rule, found, f"{told(other)} came in place of {told(one)}", one, other, whose)

    def rules_between(self, wanted, due, came):
        if came.id is None or came.missing and not due.missing:
            yield "whole", None
            return
        if due.function != came.function:
            yield self.rule_of_answer(wanted, due, came)
            return
        if due.id != came.id:
            yield "message-id", None
        if due.function == RESULT and not due.origin:
            yield from self.rules_of_nak(wanted, due, came)
            return
        if due.function == CONNECT_ACCEPT and not due.origin:
            if due.octets[4:] != came.octets[4:]:
                yield "identity", None
            return
        if due.origin != came.origin:
            yield "origin", None
        if due.destination != came.destination:
            yield ("destination-kept" if due.destination else "destination-out"), None
        if due.octets[rest_at(due):] != came.octets[rest_at(came):] or (due.flags ^ came.flags) & 0x03:
            yield "unchanged", None

    def rule_of_answer(self, wanted, due, came):
        """Of an answer that has another function than what was due."""
        if due.function == RESULT and number(due.field("error code")) == DUPLICATE:
            return "duplicate", None
        if due.function == RESULT:
            return ("no-accept" if came.function == CONNECT_ACCEPT else "nak"), None
        if due.function == CONNECT_ACCEPT:
            return ("takeover" if self.takes_over(wanted.step) else "accept"), None
        return {HEARTBEAT_ACK: "heartbeat-ack", DISCONNECT_ACK: "disconnect-ack"}.get(due.function, "unchanged"), None

    def rules_of_nak(self, wanted, due, came):
        codes = [number(it.field("error code")) for it in (due, came)]
        if codes[0] != codes[1]:
            if codes[1] in self.steps[wanted.step].codes:
                yield "nak-first", None
            elif codes[0] == DUPLICATE:
                yield "duplicate", None
            elif codes[0] not in JUDGED:
                yield "nak-range", None
            else:
                yield "nak-code", None
        if due.field("header marker") != came.field("header marker"):
            yield "nak-marker", None
        if any(due.field(it) != came.field(it) for it in ("function answered", "result code", "error class")):
            yield "nak-function", None
        if due.field("details") != came.field("details"):
            yield "nak-details", None
        if due.flags != came.flags:
            yield "undue", None

    # Something didn't come.

    def missing(self, wanted):
        rule, whose = self.rule_of_missing(wanted)
        return self.make(rule, wanted, f"{told(wanted.event)} didn't come", wanted.event, None, whose)

    def rule_of_missing(self, wanted):
        event = wanted.event
        if isinstance(event, Closing):
            return "close", None
        message = read(event)
        if message.origin:
            return ("broadcast" if message.destination == BROADCAST else "unicast"), None
        if message.function == RESULT and 0 in self.steps[wanted.step].codes:
            return "nak-first", None
        if message.function == RESULT:
            code = number(message.field("error code"))
            return ("duplicate" if code == DUPLICATE else "nak"), (None if code in JUDGED else PROFILE)
        if message.function == CONNECT_ACCEPT:
            return ("takeover" if self.takes_over(wanted.step) else "accept"), None
        return {HEARTBEAT_ACK: "heartbeat-ack", DISCONNECT_ACK: "disconnect-ack", DISCONNECT_REQUEST: "old-asked"}[message.function], None

    def takes_over(self, step):
        return any("replacing" in it for it in self.dues[step].said)

    # Something came that isn't due.

    def extra(self, found):
        event = found.event
        if isinstance(event, Texting):
            return self.make("binary", found, "a text message came", None, event)
        if isinstance(event, Closing):
            early = not self.has_joined(event.name, found.step)
            rule = "close-early" if early else "close-undue"
            return self.make(rule, found, f"{told(event)} came", None, event)
        message = read(event)
        if message.id is None:
            return self.make("whole", found, f"{told(event)} came", None, event)
        if any(message.origin) and message.origin not in self.vmacs:
            # Of a node that isn't of this script.
            self.strangers += 1
            return None
        rule, whose = (self.rule_of_frame if message.origin else self.rule_of_own)(found, message)
        return self.make(rule, found, f"{told(event)} came", None, event, whose)

    def source_of(self, message, step):
        """The message of the script that is this one, as far as it was sent by then: of the node whose VMAC it has, or of another."""
        same = [it for it in self.sent if it[0] <= step and (it[2].function, it[2].id) == (message.function, message.id)]
        own = [it for it in same if self.vmac_of(it[1], it[0]) == message.origin]
        return (own or same or [None])[-1]

    def vmac_of(self, name, step):
        """The VMAC for which a name has asked last, when a step is played."""
        return next((vmac for (n, it), vmac in reversed(self.asked.items()) if it == name and n <= step), b"")

    def rule_of_frame(self, found, message):
        """Of a message of another node, or of one that is taken for it."""
        name = found.event.name
        if any(it.event == found.event for it in self.wanted):
            return "once", None
        source = self.source_of(message, found.step)
        if source is None:
            return "undue", None
        step, sender, sent = source
        if sent.flags & 0x08:
            return "origin-in", None
        to = self.state_of(name, step)
        if to != "joined":
            return {"replaced": "old-holder", "left": "gone"}.get(to, "not-joined"), None
        of = self.state_of(sender, step)
        if of != "joined":
            return {"replaced": "old-sender", "left": "gone"}.get(of, "not-joined"), None
        if self.check_of(step):
            return "refused-forwarded", None
        if sender == name and sent.destination == BROADCAST:
            return "back-to-sender", None
        if self.is_skipped(step):
            return "too-long", None
        return ("undue" if sent.destination == BROADCAST else "only-holder"), None

    def rule_of_own(self, found, message):
        """Of a message of the hub itself."""
        name = found.event.name
        if any(plain(it.event) == plain(found.event) for it in self.wanted):
            return "once", None
        if message.function == RESULT:
            return self.rule_of_nak(found, message)
        if message.function == CONNECT_ACCEPT:
            return "no-accept", None
        source = self.source_of(message, found.step)
        if source and source[1] != name and source[2].destination:
            # A message of another node, without its Originating address.
            return "origin", None
        return ("undue" if self.has_joined(name, found.step) else "not-joined"), None

    def rule_of_nak(self, found, message):
        answered = number(message.field("function answered"))
        sent = [it for it in self.sent if it[1] == found.event.name and it[0] <= found.step and it[2].id == message.id]
        same = [it for it in sent if it[2].function == answered] or sent
        if not same:
            return "nak-undue", None
        step, _, source = same[-1]
        if source.function in RESPONSES:
            return "nak-to-response", None
        if source.destination == BROADCAST:
            return "nak-to-broadcast", None
        return ("silence" if self.check_of(step) else "nak-undue"), None

    # What the definition says of a step.

    def check_of(self, step):
        """The check that the message of a step fails, where it is met by silence or a NAK."""
        silent = next((it[2] for it in self.dues[step].said if it[1] == "silent"), "")
        naks = [it for it in self.dues[step].events if isinstance(it, Coming) and it.octets[0] == RESULT]
        return silent or ("nak" if naks else "")

    def is_skipped(self, step):
        return any(it[1] == "long" or "skipped=" in it[-1] and it[-1] != "skipped=-" for it in self.dues[step].said)

    def has_joined(self, name, step):
        return self.state_of(name, step) in ("joined", "replaced")

    def state_of(self, name, step):
        """How the connection of a name is when a step is played, behind it: away, open, joined, replaced or left."""
        state, connections = "away", {}
        for n in range(step + 1):
            words = self.steps[n].words
            if words[:2] == ("open", name):
                state = "open"
            if words[:2] == ("drop", name):
                state = "left"
            for line in self.dues[n].said:
                if line[1] == "joined":
                    connections[line[2]] = line[0]
                    state = "joined" if line[0] == name else state
                    state = "replaced" if line[3:] and connections[line[4]] == name else state
                if line[1] == "full" and connections.get(line[2]) == name:
                    state = "left"
            if n < step and any(isinstance(it, Closing) and it.name == name for it in self.dues[n].events):
                state = "left"
        return state


def rest_at(message):
    """Where the octets behind the addresses begin."""
    return 4 + len(message.origin) + len(message.destination)


def left_over(these, others):
    """Those events that the others don't have, or not as often: the last of them."""
    there = Counter(plain(it.event) for it in others)
    left = []
    for it in these:
        if there[plain(it.event)] > 0:
            there[plain(it.event)] -= 1
        else:
            left.append(it)
    return left


def paired(missing, extra):
    """Pairs of what is missing and what came in its place. They are taken out of both."""
    for alike in (is_close, is_same_frame, is_same_message, is_same_answer, is_same_kind):
        for one in list(missing):
            other = next((it for it in extra if alike(one, it)), None)
            if other:
                missing.remove(one)
                extra.remove(other)
                yield one, other


def is_close(one, other):
    return isinstance(one.event, Closing) and isinstance(other.event, Closing)


def is_same_frame(one, other):
    """Two messages with one function, one ID and one sender."""
    return is_same_message(one, other) and read(one.event).origin == read(other.event).origin


def is_same_message(one, other):
    """Two messages with one function and one ID."""
    due, came = read(one.event), read(other.event)
    return bool(due and came) and (due.function, due.id) == (came.function, came.id)


def is_same_answer(one, other):
    """An answer of the hub to the same request, by another function."""
    due, came = read(one.event), read(other.event)
    return bool(due and came) and not due.origin and not came.origin and due.id == came.id and one.step == other.step


def is_same_kind(one, other):
    """Two messages of one function, of which the one came when the other was due or later, with another ID."""
    due, came = read(one.event), read(other.event)
    return bool(due and came) and (due.function, due.origin) == (came.function, came.origin) and one.step <= other.step
