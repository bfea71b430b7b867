"""Clients of a hub by two libraries, with the same calls: Debian's python3-websockets, and node-ws in a process of its own.

A client gives what comes as pairs: ("message", octets), ("text", words), ("close", (code, reason)).
"""
import asyncio
import os

import websockets

PROTOCOL = "hub.bsc.bacnet.org"
HERE = os.path.dirname(os.path.abspath(__file__))

# How long a client waits for what has to come, in seconds.
WAIT = 10


class Client:
    """What both have in common: a queue of what came, and a log of all octets with the way that they went."""

    def __init__(self, log):
        self.came = asyncio.Queue()
        self.log = log

    async def next(self, wait=WAIT):
        return await asyncio.wait_for(self.came.get(), wait)

    def took(self, octets):
        self.log.append(("I", octets))
        self.came.put_nowait(("message", octets))


class PythonClient(Client):
    async def open(self, uri):
        self.ws = await websockets.connect(uri, subprotocols=[PROTOCOL], compression=None, max_size=None,
                                           ping_interval=None)
        self.reading = asyncio.create_task(self.read())
        return self.ws.subprotocol

    async def read(self):
        try:
            while True:
                m = await self.ws.recv()
                if isinstance(m, bytes):
                    self.took(m)
                else:
                    self.came.put_nowait(("text", m))
        except websockets.exceptions.ConnectionClosed:
            self.came.put_nowait(("close", (self.ws.close_code, self.ws.close_reason or "")))

    async def pause(self):
        """Reads nothing, from here on until `resume`."""
        self.reading.cancel()
        await asyncio.gather(self.reading, return_exceptions=True)

    async def resume(self):
        self.reading = asyncio.create_task(self.read())

    async def send(self, octets):
        self.log.append(("O", octets))
        await self.ws.send(octets)

    async def send_text(self, words):
        await self.ws.send(words)

    async def close(self):
        await self.ws.close(1000)

    async def end(self):
        await self.ws.close(1000)
        await self.reading

    async def drop(self):
        """Lets the socket go, as it is."""
        if hasattr(self, "ws") and self.ws.transport:
            self.ws.transport.abort()


class NodeClient(Client):
    async def open(self, uri):
        self.node = await asyncio.create_subprocess_exec(
            "node", os.path.join(HERE, "node-client.js"), uri,
            stdin=asyncio.subprocess.PIPE, stdout=asyncio.subprocess.PIPE, limit=1 << 20)
        word, rest = await self.line()
        if word != "open":
            raise OSError(rest)
        self.reading = asyncio.create_task(self.read())
        return rest

    async def line(self):
        line = (await self.node.stdout.readline()).decode().rstrip("\n")
        word, _, rest = line.partition(" ")
        return word, rest

    async def read(self):
        while True:
            word, rest = await self.line()
            if word == "message":
                self.took(bytes.fromhex(rest))
            elif word == "text":
                self.came.put_nowait(("text", rest))
            elif word == "close":
                code, _, reason = rest.partition(" ")
                self.came.put_nowait(("close", (int(code), reason)))
            elif not word:
                return

    async def tell(self, line):
        self.node.stdin.write(line.encode() + b"\n")
        await self.node.stdin.drain()

    async def pause(self):
        """Reads nothing, from here on until `resume`."""
        await self.tell("pause")

    async def resume(self):
        await self.tell("resume")

    async def send(self, octets):
        self.log.append(("O", octets))
        await self.tell(f"send {octets.hex()}")

    async def send_text(self, words):
        await self.tell(f"text {words}")

    async def close(self):
        await self.tell("close")

    async def end(self):
        if self.node.returncode is None:
            try:
                self.node.stdin.close()
            except OSError:
                pass
        await asyncio.wait_for(self.node.wait(), WAIT)
        await self.reading

    async def drop(self):
        """Lets the socket go, as it is."""
        if hasattr(self, "node") and self.node.returncode is None:
            self.node.kill()
            await self.node.wait()


LIBRARIES = {"python": PythonClient, "node": NodeClient}
