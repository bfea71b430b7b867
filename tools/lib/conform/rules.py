"""The rules of a hub that a difference is named by: what each says, whose it is, and the clause where one is known.

STANDARD is what every hub has to do; PROFILE is what this project chose where the standard leaves it open. A clause is of
ANSI/ASHRAE 135-2020, Annex AB, as docs/reference/DEFINITIONS.md names them; where none is known there it is empty.
"""
from typing import NamedTuple

STANDARD, PROFILE = "standard", "profile"
FORWARDING, RESULTS, ACCEPTING, CONNECTING, LONGEST = "AB.5.3", "AB.2.4", "AB.6.2.3", "AB.2.11", "AB.2.10"


class Rule(NamedTuple):
    name: str
    says: str
    whose: str = STANDARD
    clause: str = ""


RULES = {it.name: it for it in (
    Rule("open", "a hub takes the WebSocket of a node, and agrees to hub.bsc.bacnet.org"),
    Rule("accept", "a Connect-Request that isn't refused is answered with a Connect-Accept", clause=ACCEPTING),
    Rule("identity", "a Connect-Accept has the hub's own VMAC, device and lengths", clause=CONNECTING),
    Rule("duplicate", "who asks for a VMAC that another device's connection or the hub has gets a NAK with code 151", clause=ACCEPTING),
    Rule("no-accept", "a Connect-Request that is refused gets no Connect-Accept", clause=ACCEPTING),
    Rule("takeover", "a device whose connection is there connects again: it is accepted", clause=ACCEPTING),
    Rule("old-asked", "the old connection of a device that took over is asked to disconnect", clause=ACCEPTING),
    Rule("old-holder", "nothing is forwarded to the old connection of a device that took over", clause=ACCEPTING),
    Rule("old-sender", "nothing is forwarded for the old connection of a device that took over", clause=ACCEPTING),
    Rule("not-joined", "nothing is forwarded to or for who hasn't joined, and no such request of it is answered", clause=ACCEPTING),
    Rule("gone", "nothing is forwarded to or for who has left"),
    Rule("unicast", "a unicast comes to the node that has its Destination as VMAC", clause=FORWARDING),
    Rule("broadcast", "a broadcast comes to each node that has joined, but its sender", clause=FORWARDING),
    Rule("only-holder", "a unicast comes to nobody but the node that has its Destination as VMAC", clause=FORWARDING),
    Rule("back-to-sender", "a broadcast doesn't come back to its sender", clause=FORWARDING),
    Rule("once", "a message comes once", clause=FORWARDING),
    Rule("order", "messages of one sender come in the order in which they were sent", clause=FORWARDING),
    Rule("origin", "a message is forwarded with the VMAC of its sender as Originating address", clause=FORWARDING),
    Rule("origin-in", "a message in which its sender gives an Originating address isn't forwarded", clause=FORWARDING),
    Rule("destination-out", "a unicast is forwarded without its Destination", clause=FORWARDING),
    Rule("destination-kept", "a broadcast is forwarded with the broadcast address as Destination", clause=FORWARDING),
    Rule("unchanged", "function, options and payload are forwarded as they came", clause=FORWARDING),
    Rule("message-id", "a response has the Message ID of its request, and what is forwarded keeps its own"),
    Rule("too-long", "nothing longer than a node's Maximum BVLC Length comes to it", clause=LONGEST),
    Rule("heartbeat-ack", "a Heartbeat-Request of a node is answered with a Heartbeat-ACK"),
    Rule("disconnect-ack", "a Disconnect-Request of a node is answered with a Disconnect-ACK"),
    Rule("nak", "a unicast request that is wrong is answered with a NAK", clause=RESULTS),
    Rule("nak-code", "a NAK has the code for what is wrong with the message", clause=RESULTS),
    Rule("nak-function", "a NAK names the function that it refuses, and the class COMMUNICATION", clause=RESULTS),
    Rule("nak-to-response", "a response is answered with no NAK", clause=RESULTS),
    Rule("nak-to-broadcast", "a broadcast is answered with no NAK", clause=RESULTS),
    Rule("nak-undue", "a message with nothing wrong is answered with no NAK", clause=RESULTS),
    Rule("refused-forwarded", "what is refused isn't forwarded", clause=FORWARDING),
    Rule("close", "the hub closes the WebSocket of a connection that has ended"),
    Rule("close-undue", "a connection goes on until a cause ends it"),
    Rule("whole", "what a hub sends are whole messages"),
    Rule("binary", "what a hub sends are binary messages"),
    Rule("undue", "nothing comes to a node that isn't due"),
    Rule("nak-first", "which of several checks that fail the NAK tells of", PROFILE),
    Rule("nak-range", "the code of a value that is out of range is 80", PROFILE),
    Rule("nak-marker", "the header marker of a NAK is that of the option at fault, or 00", PROFILE),
    Rule("nak-details", "a NAK has no details", PROFILE),
    Rule("silence", "a message that fails a check without a code is met by silence", PROFILE),
    Rule("close-code", "the code and the reason of a close", PROFILE),
    Rule("close-early", "a message that can't be taken before joining leaves the WebSocket open", PROFILE),
)}


class Difference(NamedTuple):
    """Where a hub does otherwise than the definition says."""

    rule: Rule
    whose: str
    clause: str
    name: str  # the peer at which it is seen
    step: int
    words: str
    wanted: object  # an event, or None
    found: object
