"""The courses of the vectors: scripts of a hub with several peers, each with the text that is meant to be written for it.

A course is told in the language of docs/SCRIPTS.md. The text is said here by docs/SCRIPTS.md and docs/FORMAT.md, with the
short words below for what most courses begin with, and bsc replay has to write the same.
"""
from typing import NamedTuple

from conform.cases import NAK, OPTION_FORMS, PAYLOADS, whole, HUB as HUB_PORT
from conform.checks import BROADCAST
from message import function_name

HUB_VMAC = "0200000000FF"
HUB_DEVICE = "00112233445566778899AABBCCDDEEFF"
HUB_LINE = f"hub {HUB_VMAC} {HUB_DEVICE} 0640 05D9 256 64"
ID_OF_THE_HUB = f"{HUB_VMAC}{HUB_DEVICE}064005D9"
DUPLICATE = "0601000007" + "0097"


class CourseCase(NamedTuple):
    """A script and its text. `at` is the number of the line whose message the case is about, from 1; `rule` is one of the kit's."""

    name: str
    script: tuple
    text: tuple
    at: int
    says: str
    rule: str
    clause: str = "AB.5.3"
    whose: str = "standard"
    choice: str = None


def vmac(name):
    return f"0200000000{ord(name[0]) - ord('A') + 10:02X}"


def request(name, own=None, device=None, id="0001", longest="0640"):
    return f"in {name} 0600{id}{own or vmac(name)}{device or name[0] * 32}{longest}05D9"


def accept(id="0001"):
    return f"0700{id}{ID_OF_THE_HUB}"


def joining(*names):
    """The lines by which nodes join, as connections 1, 2, .., and what is written for them."""
    script, text = [HUB_LINE], []
    for number, name in enumerate(names, 1):
        script += [f"open {name}", request(name)]
        text += [f"{name} joined {number}", f"{name} out {accept()}"]
    return script, text


def digits(octets):
    return octets.hex().upper()


def passed_on(message, sender):
    """A message as the hub passes it on: docs/FORMAT.md, What the hub passes on."""
    is_broadcast = message[4:10] == BROADCAST
    flags = message[1] | 0x08 if is_broadcast else (message[1] | 0x08) & ~0x04
    return bytes((message[0], flags)) + message[2:4] + bytes.fromhex(vmac(sender)) + message[4 if is_broadcast else 10:]


def going(name, before, message, lines, says, rule, **more):
    """A course that ends with a message of A."""
    script, text = before
    return CourseCase(name, (*script, f"in A {digits(message)}"), (*text, *lines), len(script) + 1, says, rule, **more)


def carried(name, message, words, rule="unchanged", clause="AB.5.3"):
    if message[4:10] == BROADCAST:
        before = joining("A", "B", "C")
        lines = ["A sentall to=2,3 missed=- skipped=-", *(f"{it} out {digits(passed_on(message, 'A'))}" for it in "BC")]
    else:
        before = joining("A", "B")
        lines = ["A sent 2", f"B out {digits(passed_on(message, 'A'))}"]
    return going(name, before, message, lines, words, rule, clause=clause)


FORMS = (("plain", b"", 0x00, "no options"), ("destination", b"\x41", 0x02, "a destination option"), ("data", b"\x01", 0x01, "a data option"),
         ("both", bytes.fromhex("C13F000400FF07AA22000155"), 0x03, "two destination options and a data option"))


def forwarding():
    """Each function with each form of options, to one and to all."""
    for function in (*range(0x0E), 0xFF):
        for to, kind in ((bytes.fromhex(vmac("B")), "unicast"), (BROADCAST, "broadcast")):
            for form, octets, flags, words in FORMS:
                message = whole(HUB_PORT, function, options=octets, flags=flags, to=to)
                gone = "the sender's VMAC goes in and the Destination out" if kind == "unicast" else "the sender's VMAC goes in and the Destination stays"
                yield carried(f"forward.{function:02X}.{kind}.{form}", message, f"a {kind} of {function_name(function)} with {words}: {gone}", "origin")
    for name, octets, words in OPTION_FORMS:
        for flags, kind in ((0x02, "destination"), (0x01, "data")):
            message = whole(HUB_PORT, 0x01, options=octets, flags=flags, to=bytes.fromhex(vmac("B")))
            yield carried(f"forward.options.{kind}.{name}", message, f"a unicast has as {kind} options {words}, and they are passed on as they came", clause="AB.2.3")
    for name, octets, flags, words in (("cut", b"\xC1", 0x02, "cut destination options"), ("type-0", b"\x00\x01", 0x02, "an option of type 0"), ("must", b"\x42\x01", 0x02, "an option that nobody here knows")):
        message = whole(HUB_PORT, 0x01, flags=flags, to=bytes.fromhex(vmac("B")))[:10] + octets
        yield carried(f"forward.not-looked-at.{name}", message, f"a unicast has {words}: the hub looks at nothing behind its addresses", clause="AB.5.3")
    yield carried("forward.nothing", bytes.fromhex("01040002") + bytes.fromhex(vmac("B")), "a unicast without octets behind its addresses is passed on")
    message = bytes.fromhex("01040002" + vmac("A") + "0100")
    yield going("forward.to-itself", joining("A", "B"), message, ["A sent 1", f"A out {digits(passed_on(message, 'A'))}"], "a unicast to the sender's own VMAC comes back to it", "unicast",
                whose="profile", choice="to-itself")
    yield going("forward.to-nobody", joining("A", "B"), bytes.fromhex("01040002" + vmac("D") + "0100"), ["A noholder"], "nobody holds the Destination, so nobody gets it", "only-holder")
    yield going("forward.to-the-hub", joining("A", "B"), bytes.fromhex("01040002" + HUB_VMAC + "0100"), ["A noholder"], "the hub's own VMAC is held by no node, so nobody gets it", "only-holder",
                whose="profile", choice="to-the-hub")
    yield going("forward.to-reserved", joining("A", "B"), bytes.fromhex("010400020000000000000100"), ["A noholder"], "the reserved VMAC is held by no node, so nobody gets it", "only-holder")
    yield going("forward.alone", joining("A"), bytes.fromhex("01040002FFFFFFFFFFFF0100"), ["A sentall to=- missed=- skipped=-"], "a broadcast of the only node comes to nobody, also not to its sender", "back-to-sender")


def lengths():
    """What a receiver takes is held to the length as passed on: a unicast keeps its length, a broadcast grows by six."""
    for longest, size, kind, comes in ((64, 64, "unicast", True), (64, 65, "unicast", False), (64, 58, "broadcast", True), (64, 59, "broadcast", False)):
        to = BROADCAST if kind == "broadcast" else bytes.fromhex(vmac("B"))
        message = bytes.fromhex("01040002") + to + bytes([1]) * (size - 10)
        script = [HUB_LINE, "open A", request("A"), "open B", request("B", longest=f"{longest:04X}")]
        text = ["A joined 1", f"A out {accept()}", "B joined 2", f"B out {accept()}"]
        if kind == "unicast":
            lines = ["A sent 2"] if comes else ["A long 2"]
        else:
            lines = [f"A sentall to={'2' if comes else '-'} missed=- skipped={'-' if comes else '2'}"]
        if comes:
            lines.append(f"B out {digits(passed_on(message, 'A'))}")
        what = "as long as its receiver takes" if comes else "an octet longer than its receiver takes"
        yield going(f"length.{kind}.{size}", (script, text), message, lines, f"a {kind} is as passed on {what}", "too-long", clause="AB.2.10")
    for size, says in ((1600, "as long as the hub takes"), (1601, "an octet longer than the hub takes")):
        message = bytes.fromhex("01040002" + vmac("B")) + bytes([1]) * (size - 10)
        lines = ["A sent 2", f"B out {digits(passed_on(message, 'A'))}"] if size == 1600 else ["A silent C2"]
        yield going(f"length.hub.{size}", joining("A", "B"), message, lines, f"a unicast is {says}", "too-long" if size == 1600 else "silence", clause="AB.2.10",
                    **({} if size == 1600 else {"whose": "profile", "choice": "silence"}))


def course(name, joined, steps, says, rule, clause="AB.6.2.3", whose="standard", choice=None):
    """A course of steps: a line, and what is written for it. The case is about its last message."""
    script, text = joining(*joined)
    for line, written in steps:
        script.append(line)
        text += written
    at = max(number for number, line in enumerate(script, 1) if line.startswith("in "))
    return CourseCase(name, tuple(script), tuple(text), at, says, rule, clause, whose, choice)


def takes_over(name="A2", id="0001"):
    """A device connects again under its VMAC, while its old connection 1 is live; B is connection 2, so it is 3."""
    return [(f"open {name}", []), (request(name, id=id), [f"{name} joined 3 replacing 1", f"{name} out {accept(id)}", "A out 08000001"])]


def takeovers():
    joined = ("A", "B")
    again = takes_over()
    a, b, d = vmac("A"), vmac("B"), vmac("D")
    device = "A" * 32
    yield course("takeover.same-vmac", joined, again, "a device whose connection is there connects again: it is accepted, and the old connection is asked to disconnect", "takeover")
    yield course("takeover.message-id", joined, takes_over(id="1234"), "the Connect-Accept has the Message ID of the request that took over", "message-id")
    yield course("takeover.new-holder", joined, [*again, (f"in B 01040003{a}0100", ["B sent 3", f"A2 out 01080003{b}0100"])], "a unicast to its VMAC goes to the new connection alone", "old-holder")
    yield course("takeover.broadcast", joined, [*again, ("in B 01040003FFFFFFFFFFFF0100", ["B sentall to=3 missed=- skipped=-", f"A2 out 010C0003{b}FFFFFFFFFFFF0100"])],
                 "a broadcast goes to the new connection alone", "old-holder")
    yield course("takeover.new-sender", joined, [*again, (f"in A2 01040003{b}0100", ["A2 sent 2", f"B out 01080003{a}0100"])], "what the new connection sends is passed on", "unicast")
    yield course("takeover.old-sender", joined, [*again, (f"in A 01040003{b}0100", ["A silent C13"])], "what the old connection sends is passed on to nobody", "old-sender")
    yield course("takeover.old-answers", joined, [*again, ("in A 09000001", ["A close 1000", "A gone replaced 0"])], "the old connection answers with a Disconnect-ACK, and its WebSocket is closed", "close",
                 choice="close-code", whose="profile")
    yield course("takeover.old-answers-nak", joined, [*again, ("in A 000000010801000007008F", ["A close 1000", "A gone replaced 0"])], "the old connection answers with a NAK, and its WebSocket is closed", "close",
                 choice="close-code", whose="profile")
    yield course("takeover.old-answers-other-id", joined, [*again, ("in A 09000002", [])], "a Disconnect-ACK of another Message ID is no answer", "close-undue")
    yield course("takeover.old-heartbeat", joined, [*again, ("in A 0A000005", ["A silent C13"])], "a Heartbeat-Request of the old connection gets no answer", "old-sender", whose="profile", choice="silence")
    yield course("takeover.old-drops", joined, [*again, ("drop A", ["A gone replaced 0"]), (f"in B 01040003{a}0100", ["B sent 3", f"A2 out 01080003{b}0100"])],
                 "the old WebSocket closes, and the new connection goes on", "close-undue")
    yield course("takeover.twice", joined, [*again, ("open A3", []), (request("A3"), ["A3 joined 4 replacing 3", f"A3 out {accept()}", "A2 out 08000001"])],
                 "a device takes over from its connection that had taken over", "takeover")
    yield course("takeover.twice.holder", joined, [*again, ("open A3", []), (request("A3"), ["A3 joined 4 replacing 3", f"A3 out {accept()}", "A2 out 08000001"]),
                                                  (f"in B 01040003{a}0100", ["B sent 4", f"A3 out 01080003{b}0100"])], "and a unicast goes to the last of three", "old-holder")
    moved = [("open A2", []), (request("A2", own=d, device=device), ["A2 joined 3 replacing 1", f"A2 out {accept()}", "A out 08000001"])]
    yield course("takeover.other-vmac", joined, moved, "a device connects again with another VMAC: its old connection is replaced all the same", "takeover")
    yield course("takeover.other-vmac.old", joined, [*moved, (f"in B 01040003{a}0100", ["B noholder"])], "nobody holds the VMAC that it had", "old-holder")
    yield course("takeover.other-vmac.new", joined, [*moved, (f"in B 01040003{d}0100", ["B sent 3", f"A2 out 01080003{b}0100"])], "the VMAC that it has now is held by the new connection", "unicast")
    yield course("takeover.other-vmac.free", joined, [*moved, ("open E", []), (request("E", own=a), ["E joined 4", f"E out {accept()}"])], "another device may have the VMAC that it had", "accept")
    yield course("takeover.of-a-held-vmac", joined, [("open A2", []), (request("A2", own=b, device=device), ["A2 duplicate 2", f"A2 out 00000001{DUPLICATE}", "A2 close 1000"])],
                 "a device connects again with a VMAC that another device holds: it is refused, and its old connection stays", "duplicate")
    yield course("takeover.of-a-held-vmac.stays", joined, [("open A2", []), (request("A2", own=b, device=device), ["A2 duplicate 2", f"A2 out 00000001{DUPLICATE}", "A2 close 1000"]),
                                                          (f"in B 01040003{a}0100", ["B sent 1", f"A out 01080003{b}0100"])], "and its old connection goes on", "close-undue")
    yield course("takeover.waiting", joined, [("hold A", []), (f"in B 01040003{a}0100", ["B sent 1"]), ("open A2", []), (request("A2"), ["A2 joined 3 replacing 1", f"A2 out {accept()}"]),
                                             ("free A", [f"A out 01080003{b}0100", "A out 08000001"])], "what waited for the old connection is given to it, before it is asked to disconnect", "old-asked",
                 whose="profile", choice="waiting")


def refuses(name, connection, id="0002"):
    return [f"{name} duplicate {connection}", f"{name} out 0000{id}{DUPLICATE}", f"{name} close 1000"]


def duplicates():
    a, b = vmac("A"), vmac("B")
    joined = ("A", "B")
    yield course("duplicate.held", joined, [("open D", []), (request("D", own=a, id="0002"), refuses("D", 1))], "another device asks for a VMAC that a node holds: NAK 151", "duplicate")
    yield course("duplicate.hub", joined, [("open D", []), (request("D", own=HUB_VMAC, id="0002"), refuses("D", "hub"))], "a device asks for the hub's own VMAC: NAK 151", "duplicate")
    yield course("duplicate.hub.first", (), [("open D", []), (request("D", own=HUB_VMAC, id="0002"), refuses("D", "hub"))], "so it is while nobody has joined", "duplicate")
    for id in ("0000", "7FFF", "FFFF"):
        yield course(f"duplicate.id-{id}", joined, [("open D", []), (request("D", own=a, id=id), refuses("D", 1, id))], f"the NAK has the Message ID of the request, {id}", "message-id")
    yield course("duplicate.options", joined, [("open D", []), (f"in D 0602000241{a}{'D' * 32}064005D9", refuses("D", 1))], "a Connect-Request with a Secure Path is refused as one without", "duplicate")
    yield course("duplicate.holder-stays", joined, [("open D", []), (request("D", own=a, id="0002"), refuses("D", 1)), (f"in B 01040003{a}0100", ["B sent 1", f"A out 01080003{b}0100"])],
                 "the node that holds the VMAC goes on", "only-holder")
    yield course("duplicate.own-vmac-then", joined, [("open D", []), (request("D", own=a, id="0002"), refuses("D", 1)), ("open D", []), (request("D", id="0003"), ["D joined 3", f"D out {accept('0003')}"])],
                 "the device that was refused joins with another VMAC", "accept")
    yield course("duplicate.after-leaving", joined, [("in A 08000005", ["A out 09000005", "A close 1000", "A gone left 0"]), ("open D", []), (request("D", own=a, id="0002"), ["D joined 3", f"D out {accept('0002')}"])],
                 "a VMAC whose node has left may be taken by another device", "accept")
    yield course("duplicate.after-a-drop", joined, [("drop A", ["A gone left 0"]), ("open D", []), (request("D", own=a, id="0002"), ["D joined 3", f"D out {accept('0002')}"])],
                 "so may one whose WebSocket was closed", "accept")
    yield course("duplicate.after-takeover", joined, [*takes_over(), ("open D", []), (request("D", own=a, id="0002"), refuses("D", 3))], "a VMAC that was taken over is held by the new connection", "duplicate")
    yield course("duplicate.both", joined, [("open D", []), ("open E", []), (request("D", own=a, id="0002"), refuses("D", 1)), (request("E", own=a, id="0003"), refuses("E", 1, "0003"))],
                 "a second device that asks is refused too", "duplicate")
    yield course("duplicate.device-of-the-hub", joined, [("open D", []), (request("D", device=HUB_DEVICE, id="0002"), ["D joined 3", f"D out {accept('0002')}"])],
                 "a node may be of the hub's own device: only VMACs are refused as duplicates", "accept", whose="profile", choice="hub-device")


def joins():
    yield course("join.accept", (), [("open A", []), (request("A"), ["A joined 1", f"A out {accept()}"])], "a Connect-Request is answered with a Connect-Accept of the hub's identity", "accept")
    for id in ("0000", "1234", "FFFF"):
        yield course(f"join.id-{id}", (), [("open A", []), (request("A", id=id), ["A joined 1", f"A out {accept(id)}"])], f"the Connect-Accept has the Message ID of the request, {id}", "message-id")
    for name, octets in (("secure-path", "41"), ("unknown", "02"), ("proprietary", "3F0003010405")):
        yield course(f"join.option.{name}", (), [("open A", []), (f"in A 06020001{octets}{vmac('A')}{'A' * 32}064005D9", ["A joined 1", f"A out {accept()}"])],
                     "a Connect-Request with a destination option that need not be known, or is known, is accepted", "accept", clause="AB.2.3")
    yield course("join.must-understand", (), [("open A", []), (f"in A 0602000142{vmac('A')}{'A' * 32}064005D9", ["A out 0000000106014200070092"])],
                 "one with an option that has to be understood and isn't gets NAK 146, and no Connect-Accept", "no-accept", clause="AB.2.3")
    for own, name in (("000000000000", "reserved"), ("FFFFFFFFFFFF", "broadcast")):
        yield course(f"join.{name}", (), [("open A", []), (request("A", own=own), ["A out 0000000106010000070050"])], f"the {name} VMAC can't join", "no-accept", whose="profile", choice="nak-range")
    yield course("join.again", ("A", "B"), [(request("A", id="0005"), ["A silent C13"])], "a Connect-Request of a node that has joined is out of place", "silence", whose="profile", choice="silence")
    yield course("join.before.unicast", ("A",), [("open B", []), (f"in B 01040002{vmac('A')}0100", ["B silent C13"])], "a unicast of who hasn't joined is passed on to nobody", "not-joined")
    yield course("join.before.broadcast", ("A",), [("open B", []), ("in B 01040002FFFFFFFFFFFF0100", ["B silent C13"])], "so is a broadcast of it", "not-joined")
    yield course("join.before.heartbeat", ("A",), [("open B", []), ("in B 0A000002", ["B silent C13"])], "a Heartbeat-Request of who hasn't joined gets no answer", "not-joined", whose="profile", choice="silence")
    yield course("join.text", (), [("open A", []), ("text A", ["A close 1003"]), ("open A", []), (request("A"), ["A joined 1", f"A out {accept()}"])],
                 "a text message is no BVLC message: the WebSocket is closed, and may be opened again", "close", whose="profile", choice="close-code")
    yield course("heartbeat.answer", ("A",), [("in A 0A001234", ["A out 0B001234"])], "a Heartbeat-Request is answered with a Heartbeat-ACK of its Message ID", "heartbeat-ack", clause=None)
    yield course("heartbeat.option", ("A",), [("in A 0A02123441", ["A out 0B001234"])], "one with a Secure Path is answered too, without options", "heartbeat-ack", clause=None)
    yield course("heartbeat.to-a-node", ("A", "B"), [(f"in A 0A041234{vmac('B')}", ["A sent 2", f"B out 0A081234{vmac('A')}"])], "a Heartbeat-Request with a Destination isn't for the hub: it is passed on", "unicast", clause="AB.5.3",
                 whose="profile", choice="carried")
    yield course("disconnect.answer", ("A",), [("in A 08001234", ["A out 09001234", "A close 1000", "A gone left 0"])], "a Disconnect-Request is answered with a Disconnect-ACK, and the WebSocket is closed", "disconnect-ack", clause=None)
    yield course("disconnect.gone", ("A", "B"), [("in A 08001234", ["A out 09001234", "A close 1000", "A gone left 0"]), (f"in B 01040002{vmac('A')}0100", ["B noholder"])], "a node that has left gets nothing", "gone", clause="AB.5.3")
    yield course("disconnect.too-long", ("A",), [("in A 08001234AA", ["A out 0000123408010000070096"])], "a Disconnect-Request with an octet too many gets NAK 150, and the connection stays", "nak-code", clause="AB.2.4")


def resolutions():
    a, b = vmac("A"), vmac("B")
    ask, asked = f"in A 02040010{b}", f"02080010{a}"
    uris = b"wss://b.example:47808/".hex().upper()
    to_b = (ask, ["A sent 2", f"B out {asked}"])
    joined = ("A", "B")
    clause = "AB.5.3"
    yield course("resolution.ask", joined, [to_b], "an Address-Resolution to a node is passed on to it", "unicast", clause)
    yield course("resolution.answer", joined, [to_b, (f"in B 03040010{a}{uris}", ["B sent 1", f"A out 03080010{b}{uris}"])], "its Address-Resolution-ACK is passed on to who asked, with the Message ID", "message-id", clause)
    yield course("resolution.no-uris", joined, [to_b, (f"in B 03040010{a}", ["B sent 1", f"A out 03080010{b}"])], "so is one without URIs", "unchanged", clause)
    yield course("resolution.not-utf-8", joined, [to_b, (f"in B 03040010{a}FF", ["B sent 1", f"A out 03080010{b}FF"])], "so is one whose URIs aren't UTF-8: the hub doesn't look at them", "unchanged", clause)
    yield course("resolution.nak", joined, [to_b, (f"in B 00040010{a}0201000007008F", ["B sent 1", f"A out 00080010{b}0201000007008F"])], "a NAK of the node that was asked is passed on to who asked", "unchanged", clause)
    yield course("resolution.broadcast", ("A", "B", "C"), [("in A 02040010FFFFFFFFFFFF", ["A sentall to=2,3 missed=- skipped=-", *(f"{it} out 020C0010{a}FFFFFFFFFFFF" for it in "BC")])],
                 "an Address-Resolution to all comes to each other node", "broadcast", clause)
    yield course("resolution.nobody", joined, [(f"in A 02040010{vmac('D')}", ["A noholder"])], "an Address-Resolution to a VMAC that nobody holds comes to nobody, and nothing answers", "only-holder", clause)
    yield course("resolution.no-destination", joined, [("in A 02000010", ["A silent C13"])], "one without a Destination is for the hub, which has nothing to say of addresses", "silence", clause, "profile", "silence")
    yield course("resolution.answer-undue", joined, [(f"in B 03040010{a}{uris}", ["B sent 1", f"A out 03080010{b}{uris}"])], "an Address-Resolution-ACK for which nobody asked is passed on: the hub keeps no questions", "unchanged", clause)
    yield course("resolution.own-originating", joined, [(f"in A 020C0010{a}{b}", ["A silent C4"])], "one in which the sender gives its Originating address isn't passed on", "origin-in", clause)
    yield course("resolution.advertisement", joined, [(f"in A 05040011{b}", ["A sent 2", f"B out 05080011{a}"]), (f"in B 04040011{a}0101064005D9", ["B sent 1", f"A out 04080011{b}0101064005D9"])],
                 "an Advertisement answers a solicitation by the hub", "unicast", clause)


def all_courses():
    return [it for family in (joins, takeovers, duplicates, resolutions, lengths, forwarding) for it in family()]
