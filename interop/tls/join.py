#!/usr/bin/env python3
"""Nodes at a hub behind TLS: join.py wss://HOST:PORT/ HUB-IDENTITY FOLDER

FOLDER has ca.crt, node.crt and node.key, and stranger.crt and stranger.key of another CA. Two nodes with the certificate
join, one sends the other a unicast, and both leave; who has no certificate, a stranger's, or no TLS 1.3 is refused.
A line is written for each that goes otherwise.
"""
import asyncio
import os
import ssl
import sys

sys.path.insert(0, os.path.join(os.path.dirname(os.path.abspath(__file__)), "..", "hub"))
import bvlc
import websockets
from bvlc import Identity, Message
from clients import PROTOCOL, WAIT

URI, HUB, FOLDER = sys.argv[1], bytes.fromhex(sys.argv[2]), sys.argv[3]
A = Identity(bytes.fromhex("02000000000A"), b"\xAA" * 16)
B = Identity(bytes.fromhex("02000000000B"), b"\xBB" * 16)


def tls(name, greatest=ssl.TLSVersion.TLSv1_3):
    context = ssl.create_default_context(cafile=f"{FOLDER}/ca.crt")
    context.maximum_version = greatest
    if name:
        context.load_cert_chain(f"{FOLDER}/{name}.crt", f"{FOLDER}/{name}.key")
    return context


def opened(context):
    return websockets.connect(URI, ssl=context, subprotocols=[PROTOCOL], compression=None, max_size=None,
                              ping_interval=None, open_timeout=WAIT)


async def comes(ws, octets, what):
    found = await asyncio.wait_for(ws.recv(), WAIT)
    if found != octets:
        raise ValueError(f"{what}: {found!r} in place of {octets!r}")


async def joined(who):
    ws = await opened(tls("node"))
    version = ws.transport.get_extra_info("ssl_object").version()
    if (version, ws.subprotocol) != ("TLSv1.3", PROTOCOL):
        raise ValueError(f"{version} and {ws.subprotocol}")
    await ws.send(bvlc.connect_request(1, who).octets())
    await comes(ws, Message(bvlc.CONNECT_ACCEPT, 1, payload=HUB).octets(), "the Connect-Accept")
    return ws


async def leaves(ws):
    await ws.send(Message(bvlc.DISCONNECT_REQUEST, 2).octets())
    await comes(ws, Message(bvlc.DISCONNECT_ACK, 2).octets(), "the Disconnect-ACK")
    await asyncio.wait_for(ws.wait_closed(), WAIT)
    if ws.close_code != 1000:
        raise ValueError(f"the closing is {ws.close_code}")


async def nodes_with_a_certificate_meet():
    a, b = await joined(A), await joined(B)
    message = bvlc.npdu(3, B.vmac, bytes(1000))
    await a.send(message.octets())
    await comes(b, bvlc.passed_on(message, A.vmac).octets(), "a unicast")
    await leaves(a)
    await leaves(b)


async def refused(context):
    try:
        async with opened(context):
            pass
    except (OSError, websockets.exceptions.InvalidHandshake):
        return
    raise ValueError("it wasn't refused")


async def without_a_certificate():
    await refused(tls(None))


async def with_a_strangers_certificate():
    await refused(tls("stranger"))


async def without_tls_1_3():
    await refused(tls("node", ssl.TLSVersion.TLSv1_2))


async def main():
    failed = 0
    # The refusals stand between two meetings, which show that there was somebody to refuse.
    for scene in (nodes_with_a_certificate_meet, without_a_certificate, with_a_strangers_certificate, without_tls_1_3,
                  nodes_with_a_certificate_meet):
        try:
            await asyncio.wait_for(scene(), 60)
        except Exception as why:
            failed += 1
            print(f"{scene.__name__}: {type(why).__name__} {why}")
    return failed


sys.exit(1 if asyncio.run(main()) else 0)
