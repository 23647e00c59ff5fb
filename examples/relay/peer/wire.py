"""A link over a TCP connection.

All bytes of a link leave through one writer, in the order in which the link
made them, so that the cipher's chain stays whole however they are cut.
"""

import asyncio
import socket
import struct

from .stream import Fault


def number_of(ip):
    """An IPv4 address as the number that the protocol writes little-endian."""
    return struct.unpack(">I", socket.inet_aton(ip))[0]


def address_of(pair):
    return number_of(pair[0]), pair[1]


class Whole:
    """No cutting."""

    pause = 0

    def pieces(self, data):
        yield data


class CutAt(Whole):
    """One cut, so many bytes after the first byte of the connection."""

    def __init__(self, place, pause=0.003):
        self.place, self.pause, self.sent = place, pause, 0

    def pieces(self, data):
        here = self.place - self.sent
        self.sent += len(data)
        if 0 < here < len(data):
            yield data[:here]
            yield data[here:]
        else:
            yield data


class Bytewise(Whole):
    """Every byte by itself."""

    def __init__(self, pause=0.0005):
        self.pause = pause

    def pieces(self, data):
        for at in range(len(data)):
            yield data[at:at + 1]


class Last(bytes):
    """A connection's last bytes, if a damage gives them back: then we hang up."""


class Wire:
    def __init__(self, reader, writer, link, cuts=None, damage=None, read_size=65536, other=None):
        self.reader, self.writer, self.link = reader, writer, link
        self.cuts = cuts or Whole()
        self.damage = damage            # (name, bytes) to the bytes really sent
        self.read_size = read_size
        self.other = other              # the relay's Settings for this connection
        self.fault = None               # ours, about what came
        self.broken = None              # an error of this peer's own code
        self.ended_by_other = False
        self.left = False               # it was we who ended it
        self.opened = asyncio.Event()
        self.done = asyncio.Event()
        self.heard = b""               # the bytes of the last read
        self.sent = []                  # what really left, piece by piece
        self.began = None               # the clock when the first of it did
        self.verdict = None
        self._work = asyncio.Event()

    def wake(self):
        """The link's outbox has something."""
        self._work.set()

    async def run(self, on_packet):
        """Reads until either side ends the connection."""
        pump = asyncio.ensure_future(self._pump())
        try:
            if self.link.is_client:
                self.link.begin()
                self.wake()
            await self._read(on_packet)
        except Fault as fault:
            self.fault, self.left = fault, True
            await self._pump(once=True)
        except (ConnectionError, OSError):
            self.ended_by_other = not self.left
        except Exception as error:
            self.broken = error
        finally:
            pump.cancel()
            self.writer.close()
            self.done.set()

    async def _read(self, on_packet):
        while True:
            data = await self.reader.read(self.read_size)
            if not data:
                self.ended_by_other = not self.left
                return
            self.heard = data
            packets = self.link.receive(data)
            self.wake()
            if self.link.is_open:
                self.opened.set()
            for kind, body in packets:
                on_packet(self, kind, body)

    async def _pump(self, once=False):
        try:
            while not once:
                await self._work.wait()
                self._work.clear()
                await self._drain()
            await self._drain()
        except (ConnectionError, OSError):
            pass  # the reader sees the end, too
        except Exception as error:
            # Else our silence would pass for the relay's refusal.
            self.broken = error
            self.abort()

    async def _drain(self):
        while self.link.outbox:
            name, data = self.link.outbox.popleft()
            if self.damage:
                data = self.damage(name, data)
            for piece in self.cuts.pieces(data):
                if self.writer.is_closing():
                    return
                self._write(piece)
                await self.writer.drain()
                if self.cuts.pause and piece is not data:
                    await asyncio.sleep(self.cuts.pause)
            if isinstance(data, Last):
                self._hang_up()

    def _write(self, piece):
        if piece:
            self.began = self.began or self.link.clock()
            self.sent.append(bytes(piece))
            self.writer.write(piece)

    def _hang_up(self):
        """Ends our half; the relay then ends its own once it has read all."""
        self.left = True
        self.damage = lambda name, data: b""
        self.writer.write_eof()

    def abort(self):
        if not self.done.is_set():
            self.left = True
        self.writer.transport.abort()
