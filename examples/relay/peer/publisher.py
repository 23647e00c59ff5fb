"""A publisher: a server that the relay connects to.

Each connection follows a script. A test hands in a script for the next
connection; without one, the publisher's usual script is used.
"""

import asyncio
from dataclasses import dataclass, field

from . import messages
from .link import Link, Settings, Twist
from .wire import Wire, address_of


@dataclass(eq=False)
class Script:
    settings: Settings = field(default_factory=Settings)
    twist: Twist = None
    cuts: object = None
    damage: object = None        # (name, bytes) to the bytes really sent
    read_size: int = 65536
    mute: bool = False           # answers no Ping
    answer: object = None        # (script, wire, number, payload): in place of the usual one
    only_size: int = None        # pages of another size are sent as usual, and do not count

    def __post_init__(self):
        self.wire = None
        self.taken = asyncio.Event()
        self.hit = asyncio.Event()      # a request has come
        self.requests = []              # their payloads
        self.others = []                # packets that are no requests


class Publisher:
    def __init__(self, index, book, usual, other=None):
        self.index, self.book, self.usual = index, book, usual
        self.other = other           # the relay's Settings towards this publisher
        self.waiting = []
        self.wires = {}              # of running connections, with their scripts
        self.all_wires = []          # also of those that are over
        self.server = None
        self.address = None
        self.points = []             # the relay's points, of all connections
        self.randoms = []
        self.faults = []             # what honest connections had to refuse, but for 9

    async def start(self, ip):
        self.server = await asyncio.start_server(self._serve, ip, 0)
        self.address = self.server.sockets[0].getsockname()[:2]

    async def stop(self):
        self.server.close()
        for wire in list(self.wires):
            wire.abort()
        await self.server.wait_closed()

    def use(self, script):
        """The next connection follows this script; ends a usual one for it."""
        self.waiting.append(script)
        for wire, running in list(self.wires.items()):
            if running is self.usual:
                wire.abort()

    async def _serve(self, reader, writer):
        script = self.waiting.pop(0) if self.waiting else self.usual
        here = address_of(writer.get_extra_info("sockname"))
        there = address_of(writer.get_extra_info("peername"))
        link = Link(False, script.settings, here, there, script.twist)
        link.mute = script.mute
        wire = Wire(reader, writer, link, script.cuts, script.damage, script.read_size, self.other)
        self.all_wires.append(wire)
        self.wires[wire] = script
        script.wire = wire
        script.taken.set()
        try:
            await wire.run(lambda w, kind, body: self._packet(script, w, kind, body))
        finally:
            self._remember(script, link, wire)

    def _remember(self, script, link, wire):
        del self.wires[wire]
        if link.theirs is not None:
            self.points.append(link.theirs.point)
            self.randoms.append(link.theirs.random)
        if wire.fault is not None and script.twist is None and wire.fault.number != 9:
            self.faults.append(wire.fault)

    def _packet(self, script, wire, kind, body):
        if kind != messages.INVOKE:
            script.others.append((kind, body))
            return
        number, _, payload = messages.read_invoke(body)
        if script.only_size not in (None, len(self.book.answers.get(payload, b""))):
            self.reply(script, wire, number, payload)
            return
        script.requests.append(payload)
        script.hit.set()
        if script.answer:
            script.answer(script, wire, number, payload)
        else:
            self.reply(script, wire, number, payload)

    def reply(self, script, wire, number, payload):
        page = self.book.look_up(payload)
        self.book.where[payload] = self.index
        wire.link.send(messages.RESULT, messages.result(number, page), "answer")
        wire.wake()
