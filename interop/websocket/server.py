#!/usr/bin/env python3
"""A server by python3-websockets: server.py SUB-PROTOCOL ANOTHER

It writes its port, puts back each message of a link, and ends after the first link whose path is /. It answers a request
for /none without a sub-protocol, and one for /other with one that wasn't asked for.
"""
import asyncio
import sys

import websockets

from messages import MESSAGES, message

protocol, another = sys.argv[1:]


class Server(websockets.WebSocketServerProtocol):
    def process_subprotocol(self, headers, available):
        if self.path == "/":
            return super().process_subprotocol(headers, available)
        return another if self.path == "/other" else None


async def main():
    done = asyncio.Event()

    async def echo(ws):
        same, number = 0, 0
        try:
            async for m in ws:
                same += number < MESSAGES and m == message(number)
                number += 1
                await ws.send(m)
        except websockets.exceptions.ConnectionClosed:
            pass
        if ws.path == "/":
            print(f"{same} of {number} messages came as they were put by {ws.subprotocol}, close {ws.close_code}")
            done.set()

    async with websockets.serve(
        echo,
        "127.0.0.1",
        0,
        subprotocols=[protocol],
        create_protocol=Server,
        max_size=None,
        compression=None,
    ) as server:
        print("port", server.sockets[0].getsockname()[1], flush=True)
        await done.wait()


asyncio.run(main())
