#!/usr/bin/env python3
"""A client by python3-websockets: client.py URI SUB-PROTOCOL ANOTHER

It puts all messages and compares what comes back, then a message in three parts between which a ping stands. It asks
for a link without a sub-protocol, with another one, and with both.
"""
import asyncio
import sys

import websockets

from messages import MESSAGES, message


def connect(uri, protocols):
    return websockets.connect(uri, subprotocols=protocols, max_size=None, compression=None)


async def exchange(uri, protocol):
    async with connect(uri, [protocol]) as ws:
        same = 0
        for number in range(MESSAGES):
            await ws.send(message(number))
            same += await ws.recv() == message(number)
    print(f"{same} of {MESSAGES} messages came back the same by {ws.subprotocol}, close {ws.close_code}")


async def offer_both(uri, protocols):
    async with connect(uri, protocols) as ws:
        ponged = asyncio.Event()

        async def parts():
            yield b"in "
            pong = await ws.ping(b"between")
            asyncio.ensure_future(pong).add_done_callback(lambda _: ponged.set())
            yield b"three "
            yield b"parts"

        await ws.send(parts())
        back = await ws.recv()
        await asyncio.wait_for(ponged.wait(), 5)
    print(f"of both {ws.subprotocol} is taken, parts come back as {back.decode()}, and a ping is answered")


async def refused(uri, protocols, name):
    try:
        async with connect(uri, protocols) as ws:
            print(f"{name}: taken by {ws.subprotocol}")
    except websockets.exceptions.InvalidStatusCode as answer:
        print(f"{name}: refused with {answer.status_code}")


async def main(uri, protocol, another):
    await exchange(uri, protocol)
    await refused(uri, None, "no sub-protocol")
    await refused(uri, [another], "another sub-protocol")
    await offer_both(uri, [another, protocol])


asyncio.run(main(*sys.argv[1:]))
