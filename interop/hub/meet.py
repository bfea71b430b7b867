#!/usr/bin/env python3
"""Nodes by two libraries meet a hub: meet.py URI HUB-IDENTITY FIRST SECOND LOG

HUB-IDENTITY is the 26 octets of the hub in hexadecimal digits: VMAC, device, longest message, longest NPDU. FIRST and
SECOND are `python` or `node`. It writes a line for each scene that goes otherwise, then 'N passed, M failed'. Into LOG go a line
with the name of each scene, and in it a line for each message, `I` or `O` and its octets.
"""
import asyncio
import sys

import bvlc
import malformed
from bvlc import Identity, Message
from clients import LIBRARIES

uri, digits, first_name, second_name, log_file = sys.argv[1:]
octets = bytes.fromhex(digits)
HUB = Identity(octets[:6], octets[6:22], int.from_bytes(octets[22:24], "big"), int.from_bytes(octets[24:26], "big"))
FIRST, SECOND = LIBRARIES[first_name], LIBRARIES[second_name]

A = Identity(bytes.fromhex("02000000000A"), b"\xAA" * 16)
B = Identity(bytes.fromhex("02000000000B"), b"\xBB" * 16)
C = Identity(bytes.fromhex("02000000000C"), b"\xCC" * 16)
WHO_IS = bytes.fromhex("0120FFFF00FF1008")

log = []
clients = []


class Differs(Exception):
    pass


def same(found, wanted, what):
    if found != wanted:
        def show(x):
            return x.hex().upper() if isinstance(x, bytes) else repr(x)
        raise Differs(f"{what}: {show(found)} in place of {show(wanted)}")


async def comes(client, message, what):
    kind, found = await client.next()
    same(kind, "message", what)
    same(found, message.octets(), what)


async def closes(client, code, reason, what):
    kind, found = await client.next()
    same((kind, found), ("close", (code, reason)), what)
    await client.end()


async def nothing_came(client, id):
    """What was sent before a Heartbeat-Request is answered before its ACK, so nothing else may come."""
    await client.send(Message(bvlc.HEARTBEAT_REQUEST, id).octets())
    await comes(client, Message(bvlc.HEARTBEAT_ACK, id), "nothing but the Heartbeat-ACK")


async def opened(library):
    client = library(log)
    clients.append(client)
    same(await client.open(uri), "hub.bsc.bacnet.org", "the sub-protocol")
    return client


async def joined(library, who, id=1):
    client = await opened(library)
    await client.send(bvlc.connect_request(id, who).octets())
    await comes(client, bvlc.connect_accept(id, HUB), "the Connect-Accept")
    return client


async def leaves(client, id=0x7FFF):
    await client.send(Message(bvlc.DISCONNECT_REQUEST, id).octets())
    await comes(client, Message(bvlc.DISCONNECT_ACK, id), "the Disconnect-ACK")
    await closes(client, 1000, "", "the closing behind the Disconnect-ACK")


async def nodes_join_and_leave():
    a, b = await joined(FIRST, A, 0x1234), await joined(SECOND, B, 0)
    await leaves(a)
    await leaves(b)


async def who_has_left_may_join_again():
    await leaves(await joined(FIRST, A))
    await leaves(await joined(SECOND, A))


async def duplicates_are_refused():
    a = await joined(FIRST, A)
    for who in (Identity(A.vmac, B.device), Identity(HUB.vmac, B.device)):
        b = await opened(SECOND)
        await b.send(bvlc.connect_request(0x22, who).octets())
        await comes(b, bvlc.nak(0x22, bvlc.CONNECT_REQUEST, bvlc.NODE_DUPLICATE_VMAC), "the NAK")
        await closes(b, 1000, "", "the closing behind the NAK")
    await nothing_came(a, 2)
    await leaves(a)


async def unicasts_arrive():
    a, b = await joined(FIRST, A), await joined(SECOND, B)
    for id, message in enumerate([
        bvlc.npdu(0, B.vmac, WHO_IS),
        bvlc.npdu(0, B.vmac, WHO_IS, data_options=b"\x41"),
        bvlc.npdu(0, B.vmac, bytes(range(256)) * 5),
        Message(bvlc.SOLICITATION, 0, destination=B.vmac),
    ]):
        message = Message(**{**vars(message), "id": id})
        await a.send(message.octets())
        await comes(b, bvlc.passed_on(message, A.vmac), "a unicast")
    answer = bvlc.npdu(0x77, A.vmac, WHO_IS)
    await b.send(answer.octets())
    await comes(a, bvlc.passed_on(answer, B.vmac), "a unicast the other way")
    await a.send(bvlc.npdu(0x78, C.vmac, WHO_IS).octets())
    await a.send(bvlc.npdu(0x79, A.vmac, WHO_IS).octets())
    await comes(a, bvlc.passed_on(bvlc.npdu(0x79, A.vmac, WHO_IS), A.vmac), "a unicast to itself")
    await nothing_came(a, 0x7A)
    await nothing_came(b, 0x7B)
    await leaves(a)
    await leaves(b)


async def broadcasts_arrive():
    a, b, c = await joined(FIRST, A), await joined(SECOND, B), await joined(FIRST, C)
    message = bvlc.npdu(0x31, bvlc.BROADCAST, WHO_IS)
    await a.send(message.octets())
    for other in (b, c):
        await comes(other, bvlc.passed_on(message, A.vmac), "a broadcast")
    for node, id in ((a, 0x32), (b, 0x33), (c, 0x34)):
        await nothing_came(node, id)
        await leaves(node)


async def many_unicasts_keep_their_order():
    a, b = await joined(FIRST, A), await joined(SECOND, B)
    for begin in range(0, 1000, 20):
        messages = [bvlc.npdu(id, B.vmac, WHO_IS + bytes(id % 97)) for id in range(begin, begin + 20)]
        for message in messages:
            await a.send(message.octets())
        for message in messages:
            await comes(b, bvlc.passed_on(message, A.vmac), "a unicast of many")
    await leaves(a)
    await leaves(b)


async def heartbeats_are_answered():
    a = await joined(FIRST, A)
    for id in (0, 1, 0x1234, 0xFFFF):
        await nothing_came(a, id)
    await leaves(a)


async def a_device_takes_over():
    # By the other library's client: with the same VMAC, and then with another one.
    old = await joined(FIRST, A)
    for library, who in ((SECOND, A), (FIRST, Identity(C.vmac, A.device))):
        new = await joined(library, who, 0x41)
        await comes(old, Message(bvlc.DISCONNECT_REQUEST, 1), "the Disconnect-Request of the hub")
        await old.send(Message(bvlc.DISCONNECT_ACK, 1).octets())
        await closes(old, 1000, "", "the closing behind the Disconnect-ACK")
        await nothing_came(new, 0x42)
        old = new
    b = await joined(SECOND, B)
    for vmac in (A.vmac, C.vmac):
        await b.send(bvlc.npdu(0x43, vmac, WHO_IS).octets())
    await comes(old, bvlc.passed_on(bvlc.npdu(0x43, C.vmac, WHO_IS), B.vmac), "a unicast to the new VMAC")
    await nothing_came(old, 0x44)
    await leaves(old)
    await leaves(b)


async def malformed_messages_are_answered():
    a, b = await joined(FIRST, A), await joined(SECOND, B)
    for octets, check, answer in malformed.naks():
        await a.send(octets)
        await comes(a, bvlc.read(answer), f"the NAK of {octets.hex()}, which fails {check}")
    for digits, check in malformed.SILENT:
        await a.send(bytes.fromhex(digits))
        await nothing_came(a, 0x500)
    await nothing_came(b, 0x501)
    await leaves(a)
    await leaves(b)


async def nothing_passes_before_joining():
    b = await joined(SECOND, B)
    a = await opened(FIRST)
    for message in (bvlc.npdu(1, B.vmac, WHO_IS), Message(bvlc.HEARTBEAT_REQUEST, 2), Message(bvlc.DISCONNECT_REQUEST, 3)):
        await a.send(message.octets())
    await a.send(bvlc.connect_request(4, A).octets())
    await comes(a, bvlc.connect_accept(4, HUB), "nothing but the Connect-Accept")
    await nothing_came(b, 5)
    await leaves(a)
    await leaves(b)


async def text_closes():
    a = await joined(FIRST, A)
    await a.send_text("text")
    await closes(a, 1003, "", "the closing behind a text")


async def who_closes_is_gone():
    a, b = await joined(FIRST, A), await joined(SECOND, B)
    await a.close()
    await closes(a, 1000, "", "the reply to a close")
    # The VMAC is free as soon as the hub has seen the close.
    await leaves(await joined(SECOND, A))
    await leaves(b)


SCENES = [
    nodes_join_and_leave,
    who_has_left_may_join_again,
    duplicates_are_refused,
    unicasts_arrive,
    broadcasts_arrive,
    many_unicasts_keep_their_order,
    heartbeats_are_answered,
    a_device_takes_over,
    malformed_messages_are_answered,
    nothing_passes_before_joining,
    text_closes,
    who_closes_is_gone,
]


async def main():
    passed = failed = 0
    for scene in SCENES:
        log.append(("scene", scene.__name__))
        try:
            await asyncio.wait_for(scene(), 60)
            passed += 1
        except Exception as why:  # one scene that fails keeps no other from being played
            failed += 1
            print(f"{first_name} and {second_name}: {scene.__name__}: {type(why).__name__} {why}")
        while clients:
            await clients.pop().drop()
    with open(log_file, "w") as file:
        for way, what in log:
            print(way, what if way == "scene" else what.hex(), file=file)
    print(f"{passed} passed, {failed} failed")
    return failed


sys.exit(1 if asyncio.run(main()) else 0)
