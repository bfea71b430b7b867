"""A peer whose messages are typed by a person."""
import asyncio
import contextlib
import secrets
import sys
import threading
import time

from conform import peers, typed
from message import Message, digits_of, name_of, told_of
from table import lines_of_message
from websockets.exceptions import ConnectionClosed

ALL_SENT, CLOSED, WORDS, NO_CONNECTION = range(4)
PROTOCOLS = {"hub": peers.PROTOCOL, "direct": "dc.bsc.bacnet.org"}
NAME = "peer"  # its name in a recording
LONGEST_TEXT = 200  # characters of a text message that are shown


class Recording:
    """Tells what is sent and what comes, and writes both into a file where one is named."""

    def __init__(self, file, short):
        self.file, self.short = file, short
        self.begun = time.monotonic()

    def message(self, sign, octets):
        ms = self.ms()
        if self.file:
            print(f"{ms:.3f} {NAME} {sign} {digits_of(octets)}", file=self.file, flush=True)
        message = Message(octets)
        told = told_of(message)
        print(f"{ms:10,.1f} ms  {sign}  {name_of(message)}{': ' if told else ''}{told}")
        if sign == ">" or self.short:
            print(f"    {digits_of(octets)}")
        else:
            print(*(f"    {it}" for it in lines_of_message(message)), sep="\n")
        sys.stdout.flush()

    def remark(self, sign, words):
        ms = self.ms()
        if self.file:
            print(f"# {ms:.3f} {sign} {words}", file=self.file, flush=True)
        print(f"{ms:10,.1f} ms  {sign}  {words}", flush=True)

    def ms(self):
        return (time.monotonic() - self.begun) * 1000


class Lines:
    """The lines of standard input, while others things go on. At its end comes None."""

    def __init__(self):
        self.queue, self.loop = asyncio.Queue(), asyncio.get_running_loop()
        # It may wait for a line for ever: it doesn't hold up the end.
        threading.Thread(target=self.read, daemon=True).start()

    def read(self):
        with contextlib.suppress(RuntimeError):  # the loop has ended
            for line in sys.stdin:
                self.put(line)
            self.put(None)

    def put(self, line):
        self.loop.call_soon_threadsafe(self.queue.put_nowait, line)


class Talk:
    """One WebSocket, and what is typed for it."""

    def __init__(self, ws, recording, typist):
        self.ws, self.recording, self.typist = ws, recording, typist
        self.reading = asyncio.create_task(self.read())

    async def read(self):
        """Tells what comes, until the WebSocket is closed."""
        try:
            while True:
                came = await self.ws.recv()
                if isinstance(came, str):
                    self.recording.remark("<", f"a text message: {came[:LONGEST_TEXT]!r}")
                else:
                    self.recording.message("<", came)
        except ConnectionClosed:
            reason = f" {self.ws.close_reason}" if self.ws.close_reason else ""
            self.recording.remark("<", f"the WebSocket is closed: {self.ws.close_code}{reason}")

    async def run(self, lines, wait):
        """Does what the lines say, and gives back the status."""
        number = 0
        while True:
            line = await self.unless_closed(lines.queue.get())
            if line is None:
                break
            number += 1
            try:
                if not await self.does(line.strip()):
                    return ALL_SENT
            except typed.BadLine as why:
                print(f"peer: line {number}: {why}", file=sys.stderr, flush=True)
                if not sys.stdin.isatty():
                    return WORDS
        await self.unless_closed(asyncio.sleep(0 if sys.stdin.isatty() else wait / 1000), is_asked=False)
        return ALL_SENT

    async def unless_closed(self, doing, is_asked=True):
        """What is done, unless the WebSocket is closed before."""
        doing = asyncio.ensure_future(doing)
        await asyncio.wait({doing, self.reading}, return_when=asyncio.FIRST_COMPLETED)
        if doing.done():
            return doing.result()
        doing.cancel()
        if is_asked:
            raise ConnectionClosed(None, None)
        return None

    async def does(self, line):
        """Does what a line says. It gives back whether there is more to do."""
        word, _, rest = line.partition(" ")
        rest = rest.strip()
        if not line or line.startswith("#"):
            return True
        if word == "quit":
            return False
        if word == "help":
            show_help()
        elif word == "wait":
            await self.unless_closed(asyncio.sleep(number_in(word, rest) / 1000))
        elif word == "close":
            code = number_in(word, rest or "1000")
            self.recording.remark(">", f"close {code}")
            await self.ws.close(code)
            await self.reading
            return False
        elif word == "text":
            self.recording.remark(">", f"a text message: {rest[:LONGEST_TEXT]!r}")
            await self.ws.send(rest)
        else:
            octets = self.typist.octets(line)
            self.recording.message(">", octets)
            await self.ws.send(octets)
        return True


def number_in(word, rest):
    if not rest.isdecimal():
        raise typed.BadLine(f"{word} is followed by a number")
    return int(rest)


def show_help():
    print("a message is its octets in hexadecimal, or one of these words with fields, NAME=VALUE:")
    for word, fields in typed.listed():
        print(f"    {word:24}  {' '.join(fields)}".rstrip())
    print(f"fields of all of them: {' '.join(typed.OF_ALL)}")
    print("other lines: wait MS, text WORDS, close CODE, help, quit", flush=True)


async def run(asked, file):
    tls = peers.tls_context(asked) if asked.uri.startswith("wss:") else None
    ws = await peers.opened(asked.uri, tls, protocol=PROTOCOLS[asked.kind])
    recording = Recording(file, asked.short)
    vmac = bytes([secrets.randbelow(16) << 4 | 0x02]) + secrets.token_bytes(5)
    talk = Talk(ws, recording, typed.Typist(vmac.hex(), secrets.token_hex(16)))
    if sys.stdin.isatty():
        print(f"{asked.uri} is open; help lists what can be typed", file=sys.stderr)
    try:
        status = await talk.run(Lines(), asked.wait)
    except ConnectionClosed:
        await talk.reading
        # A person sees the close, and hasn't typed more.
        return ALL_SENT if sys.stdin.isatty() else CLOSED
    if not talk.reading.done():
        talk.reading.cancel()
        await ws.close()
    return status


def main(asked):
    try:
        with open(asked.record, "w", encoding="utf-8") if asked.record else contextlib.nullcontext() as file:
            return asyncio.run(run(asked, file))
    except peers.NoConnection as why:
        print(f"peer: {asked.uri}: {why}", file=sys.stderr)
        return NO_CONNECTION
    except OSError as why:
        print(f"peer: {why}", file=sys.stderr)
        return WORDS
    except KeyboardInterrupt:
        return ALL_SENT
